//! Makes a season's text whose misses evict one of so many held items at a time:
//!   evictions HELD >text
//!   evictions HELD room >text
//! Each of 256 items is read once. They have a block each; the last one, which is read last, has 16 if 255 are held, so that there is more than one
//! eviction. k is HELD, or with room so large that nothing is evicted; nothing else differs, so that what the two take differs by the evictions.

use plain_season::{text, Act, Item, Step};

const ITEMS: u64 = 256;

/// Random numbers from a seed (splitmix64).
struct Random(u64);

impl Random {
    /// A number from 1 to `last`.
    fn up_to(&mut self, last: u64) -> u64 {
        self.0 = self.0.wrapping_add(0x9E37_79B9_7F4A_7C15);
        let mut z = self.0;
        z = (z ^ (z >> 30)).wrapping_mul(0xBF58_476D_1CE4_E5B9);
        z = (z ^ (z >> 27)).wrapping_mul(0x94D0_49BB_1331_11EB);
        1 + (z ^ (z >> 31)) % last
    }
}

fn main() {
    let words: Vec<String> = std::env::args().skip(1).collect();
    let held: u32 = words
        .first()
        .and_then(|word| word.parse().ok())
        .filter(|held| (1..ITEMS as u32).contains(held))
        .expect("usage: evictions HELD [room], with HELD from 1 to 255");
    let room = words.len() > 1;

    let r = &mut Random(held.into());
    let large = if held == 255 { 16 } else { 1 };
    let item = |number| Item {
        blocks: if number == ITEMS { large } else { 1 },
        load: r.up_to(1000),
        write: r.up_to(1000),
    };
    let catalog: Vec<Item> = (1..=ITEMS).map(item).collect();
    let mut order: Vec<usize> = (0..catalog.len()).collect();
    for place in 1..order.len() - 1 {
        let other = r.up_to(place as u64 + 1) as usize - 1;
        order.swap(place, other);
    }

    // The plan holds the item of each step alone.
    let mut acts = Vec::new();
    for (at, &item) in order.iter().enumerate() {
        if at > 0 {
            let item = order[at - 1];
            acts.push((at, Act::Evict { item }));
        }
        acts.push((at, Act::Fetch { item }));
    }
    let steps: Vec<Step> = order.iter().map(|&item| Step::Read { item }).collect();
    let k = if room { 271 } else { held };
    print!("{}", text([k, large], None, &catalog, &steps, &acts, false));
}
