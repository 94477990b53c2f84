//! The cache and the step rule (paper 01: the locker), with the held items in a heap (paper 02): one level rises with each eviction, and
//! nobody else is touched.

use crate::heap::Heap;
use crate::{Deduction, Item, Step};

/// One unit of cost in shares: the least common multiple of 1 to 16, so that credits divide by the blocks with nothing lost.
const UNIT: u64 = 720_720;

pub struct Cache {
    k: u32,
    rule: Deduction,
    /// The catalogue of the opening, and behind it the items that have arrived.
    catalog: Vec<Item>,
    /// The credits of each item as last reckoned.
    credits: Vec<Credits>,
    /// The held items. The key less the level is what each block of an item has left of its credits.
    heap: Heap,
    level: u64,
    /// The marks of the dirty items, of at most 256.
    dirty: [u64; 4],
    /// The blocks of the held items.
    used: u32,
    pub counts: Counts,
}

#[derive(Clone, Copy, Default)]
struct Credits {
    load: u64,
    write: u64,
}

/// What the report says of a cache.
pub struct Counts {
    pub hits: u32,
    pub loads: u32,
    pub load_cost: u64,
    pub evictions: u32,
    pub dirty_evictions: u32,
    pub writebacks: u32,
    pub write_cost: u64,
    pub items: Vec<ItemCounts>,
}

/// And of an item.
#[derive(Clone, Default)]
pub struct ItemCounts {
    pub minutes: u32,
    pub loads: u32,
    pub writebacks: u32,
}

impl Cache {
    pub fn open(k: u32, rule: Deduction, catalog: &[Item]) -> Self {
        Cache {
            k,
            rule,
            catalog: catalog.to_vec(),
            credits: vec![Credits::default(); catalog.len()],
            heap: Heap::of(catalog.len()),
            level: 0,
            dirty: [0; 4],
            used: 0,
            counts: Counts {
                hits: 0,
                loads: 0,
                load_cost: 0,
                evictions: 0,
                dirty_evictions: 0,
                writebacks: 0,
                write_cost: 0,
                items: vec![ItemCounts::default(); catalog.len()],
            },
        }
    }

    /// Takes a step that the table of refusals lets through: the item of a read or write has at most `k` blocks, and so on.
    pub fn step(&mut self, step: Step) {
        match step {
            Step::Read { item } => self.request(item, false),
            Step::Write { item, minutes } => {
                self.request(item, true);
                self.dirty[item / 64] |= 1 << (item % 64);
                self.counts.items[item].minutes += minutes;
            }
            Step::Flush => self.flush(),
            Step::Arrive { listed, .. } => {
                self.catalog.push(listed);
                self.credits.push(Credits::default());
                self.heap.grow();
                self.counts.items.push(ItemCounts::default());
            }
            Step::Retire { item } => {
                if self.heap.has(item) {
                    self.drop_held(item);
                }
            }
        }
    }

    /// Closes the log: what is dirty is written back.
    pub fn close(&mut self) {
        self.flush();
    }

    pub fn holds(&self, i: usize) -> bool {
        self.heap.has(i)
    }

    fn is_dirty(&self, i: usize) -> bool {
        self.dirty[i / 64] >> (i % 64) & 1 == 1
    }

    /// A hit or a miss, and a full load credit in any case; for a write a full write credit too.
    fn request(&mut self, i: usize, write: bool) {
        let held = self.heap.has(i);
        if held {
            self.counts.hits += 1;
        } else {
            self.load(i);
        }
        let of_write = match (write, held) {
            (true, _) => self.catalog[i].write * UNIT,
            (false, true) => self.standing(i).write,
            (false, false) => 0,
        };
        let load = self.catalog[i].load * UNIT;
        let key = self.reckon(i, load, of_write);
        if held {
            self.heap.set_key(i, key);
        } else {
            self.heap.insert(i, key);
        }
    }

    /// Pays for an item that is not held, once there is room for it.
    fn load(&mut self, i: usize) {
        let Item { blocks, load, .. } = self.catalog[i];
        while self.used + blocks > self.k {
            self.evict();
        }
        self.used += blocks;
        self.counts.loads += 1;
        self.counts.load_cost += load;
        self.counts.items[i].loads += 1;
    }

    /// Evicts the first of the heap. The level rises to its key, which is what the others lose for each of their blocks.
    fn evict(&mut self) {
        let (key, item) = self
            .heap
            .first()
            .expect("the blocks in use are those of a held item");
        self.drop_held(item);
        self.level = key;
    }

    /// Drops a held item: a dirty one pays, and the others are not charged.
    fn drop_held(&mut self, i: usize) {
        self.heap.remove(i);
        let Item { blocks, write, .. } = self.catalog[i];
        self.used -= blocks;
        self.counts.evictions += 1;
        if self.is_dirty(i) {
            self.dirty[i / 64] &= !(1 << (i % 64));
            self.counts.dirty_evictions += 1;
            self.counts.write_back(i, write);
        }
    }

    /// What is dirty is written back, and reckoned anew without write credit. Nothing would change for a clean item.
    fn flush(&mut self) {
        for w in 0..4 {
            let mut word = std::mem::take(&mut self.dirty[w]);
            while word != 0 {
                let i = 64 * w + word.trailing_zeros() as usize;
                word &= word - 1;
                self.counts.write_back(i, self.catalog[i].write);
                let key = self.reckon(i, self.standing(i).load, 0);
                self.heap.set_key(i, key);
            }
        }
    }

    /// The credits of a held item that stand: as last reckoned, less what it has lost since, from one first and from the other what is
    /// lacking.
    fn standing(&self, i: usize) -> Credits {
        let Credits { load, write } = self.credits[i];
        let has = u64::from(self.catalog[i].blocks) * (self.heap.key(i) - self.level);
        match self.rule {
            Deduction::WriteFirst => Credits {
                load: load.min(has),
                write: has - load.min(has),
            },
            Deduction::LoadFirst => Credits {
                load: has - write.min(has),
                write: write.min(has),
            },
        }
    }

    /// Notes an item's credits and answers its key: their sum a block, above the level. They are multiples of the blocks, so nothing is
    /// rounded.
    fn reckon(&mut self, i: usize, load: u64, write: u64) -> u64 {
        self.credits[i] = Credits { load, write };
        self.level + (load + write) / u64::from(self.catalog[i].blocks)
    }
}

impl Counts {
    fn write_back(&mut self, i: usize, cost: u64) {
        self.writebacks += 1;
        self.write_cost += cost;
        self.items[i].writebacks += 1;
    }
}
