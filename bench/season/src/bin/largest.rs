//! Makes a season's text that is as large as one may be, and in which every step is a miss:
//!   largest SAILS >text
//! The steps ask for the first SAILS of 256 items, and k is one block less than these have together. Each step asks for the
//! next of them in turn that the cache does not hold just then. A plan of k blocks knows what is to come and needs few
//! acts, so that nearly every byte behind the catalog goes to a step. What came of it is said on standard error. The text names no
//! rule, so that it is replayed write-first, as one was before there was a choice.

use plain_season::cache::Cache;
use plain_season::{text, Act, Deduction, Item, Step, MAX_BYTES};

const ITEMS: usize = 256;

/// The bytes of the shortest step, `R 0 -`, with its line feed.
const SHORTEST_STEP: usize = 6;

/// Random numbers from a seed (splitmix64).
struct Random(u64);

impl Random {
    /// A number from 1 to `last`.
    fn up_to(&mut self, last: u64) -> u64 {
        self.0 = self.0.wrapping_add(0x9E37_79B9_7F4A_7C15);
        let mut z = self.0;
        z = (z ^ (z >> 30)).wrapping_mul(0xBF58_476D_1CE4_E5B9);
        z = (z ^ (z >> 27)).wrapping_mul(0x94D0_49BB_1331_11EB);
        1 + (z ^ (z >> 31)) % last
    }
}

/// 256 items of 1 to 16 blocks. The low numbers are cheap for their blocks: they go first and are asked for the most, and
/// their lines are the shortest.
fn catalog(r: &mut Random) -> Vec<Item> {
    let item = |number| {
        let blocks = r.up_to(16);
        Item {
            blocks: blocks as u32,
            load: r.up_to(blocks * number),
            write: r.up_to(blocks * number),
        }
    };
    (1..=ITEMS as u64).map(item).collect()
}

/// As many steps as a text can have, each a miss; half of them write. The first `sails` items do not all fit into `k` blocks,
/// so there is always one that is not held.
fn misses(r: &mut Random, catalog: &[Item], k: u32, sails: usize) -> Vec<Step> {
    let mut cache = Cache::open(k, Deduction::WriteFirst, catalog);
    let mut steps = Vec::new();
    let mut item = 0;
    for _ in 0..MAX_BYTES / SHORTEST_STEP {
        while cache.holds(item) {
            item = (item + 1) % sails;
        }
        let step = match r.up_to(2) {
            1 => Step::Read { item },
            _ => Step::Write { item, minutes: 6 },
        };
        cache.step(step);
        steps.push(step);
    }
    steps
}

/// A plan of `h` blocks for reads and writes. Before the first step it fetches what is asked for first, as far as there is
/// room. Later it makes room by evicting what is asked for last.
fn plan(catalog: &[Item], h: u32, steps: &[Step]) -> Vec<(usize, Act)> {
    const NEVER: usize = usize::MAX;
    let items: Vec<usize> = steps
        .iter()
        .map(|&step| match step {
            Step::Read { item } | Step::Write { item, .. } => item,
            _ => unreachable!("there are reads and writes alone"),
        })
        .collect();

    // Where each item is asked for next, at the start and behind each step.
    let mut next = vec![NEVER; catalog.len()];
    let mut next_behind = vec![NEVER; items.len()];
    for (place, &item) in items.iter().enumerate().rev() {
        next_behind[place] = next[item];
        next[item] = place;
    }

    let mut acts = Vec::new();
    let mut held = vec![false; catalog.len()];
    let mut used = 0;
    let mut first: Vec<usize> = (0..catalog.len()).filter(|&i| next[i] != NEVER).collect();
    first.sort_by_key(|&i| next[i]);
    for item in first {
        if used + catalog[item].blocks > h {
            break;
        }
        acts.push((0, Act::Fetch { item }));
        held[item] = true;
        used += catalog[item].blocks;
    }

    for (place, &item) in items.iter().enumerate() {
        if !held[item] {
            while used + catalog[item].blocks > h {
                let victim = (0..catalog.len())
                    .filter(|&i| held[i])
                    .max_by_key(|&i| next[i])
                    .expect("the blocks in use are those of a held item");
                acts.push((place, Act::Evict { item: victim }));
                held[victim] = false;
                used -= catalog[victim].blocks;
            }
            acts.push((place, Act::Fetch { item }));
            held[item] = true;
            used += catalog[item].blocks;
        }
        next[item] = next_behind[place];
    }
    acts
}

/// Fills up a text that lacks so many bytes, by more digits for the minutes of its writes.
fn lengthen(steps: &mut [Step], mut lacks: usize) {
    for step in steps {
        if let Step::Write { minutes, .. } = step {
            let more = lacks.min(3);
            *minutes = [6, 60, 600, 1200][more];
            lacks -= more;
        }
    }
    assert_eq!(lacks, 0, "there are enough writes");
}

fn main() {
    let sails: usize = std::env::args()
        .nth(1)
        .and_then(|word| word.parse().ok())
        .filter(|sails| (2..=ITEMS).contains(sails))
        .expect("usage: largest SAILS, with SAILS from 2 to 256");
    let r = &mut Random(1);
    let catalog = catalog(r);
    let k = catalog[..sails].iter().map(|it| it.blocks).sum::<u32>() - 1;
    let mut steps = misses(r, &catalog, k, sails);

    // The most steps for which there is room, together with the acts that they need.
    let with_plan = |steps: &[Step]| {
        text(
            [k, k],
            None,
            &catalog,
            steps,
            &plan(&catalog, k, steps),
            false,
        )
    };
    let (mut fits, mut too_many) = (0, steps.len());
    while fits + 1 < too_many {
        let middle = (fits + too_many) / 2;
        if with_plan(&steps[..middle]).len() <= MAX_BYTES {
            fits = middle;
        } else {
            too_many = middle;
        }
    }
    steps.truncate(fits);
    let lacks = MAX_BYTES - with_plan(&steps).len();
    lengthen(&mut steps, lacks);

    let text = with_plan(&steps);
    let acts = plan(&catalog, k, &steps).len();
    let mut cache = Cache::open(k, Deduction::WriteFirst, &catalog);
    for &step in &steps {
        cache.step(step);
    }
    eprintln!(
        "{sails} sails in turn: {} bytes; {ITEMS} sails; k and h {k}; {} steps, {} misses, {} drops; {acts} acts",
        text.len(),
        steps.len(),
        cache.counts.loads,
        cache.counts.evictions,
    );
    print!("{text}");
}
