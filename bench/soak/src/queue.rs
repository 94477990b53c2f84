//! The rule in the queue's form (paper 02, 'A queue in place of the long look'), without a heap: one level, a key for each held item, both
//! credits as last reckoned. An eviction takes the held item of least key, the lowest number among equals; the level rises to its key, and
//! nobody else is touched. What an item has lost since it was reckoned follows from its key and the level.

use plain_season::{Deduction, Item, Step};

use crate::locker::{Place, charged};

const UNIT: u64 = 720_720;

/// A place with its credits as last reckoned, and its key, 0 if it is not held.
#[derive(Clone, Copy)]
pub struct Keyed {
    pub place: Place,
    pub key: u64,
}

pub struct Queue {
    k: u32,
    rule: Deduction,
    pub level: u64,
    pub places: Vec<Keyed>,
    /// The items dropped, in order.
    pub drops: Vec<usize>,
}

/// The credits, load and write, that stand for stored ones: these, less `blocks` × what was lost a block since.
pub fn standing(rule: Deduction, level: u64, key: u64, blocks: u64, stored: [u64; 2]) -> [u64; 2] {
    let worth = (stored[0] + stored[1]) / blocks;
    charged(rule, blocks * (level + worth - key), stored)
}

fn empty(item: Item) -> Keyed {
    Keyed {
        place: Place::empty(item),
        key: 0,
    }
}

impl Queue {
    pub fn open(k: u32, rule: Deduction, catalog: &[Item]) -> Queue {
        Queue {
            k,
            rule,
            level: 0,
            places: catalog.iter().copied().map(empty).collect(),
            drops: Vec::new(),
        }
    }

    pub fn step(&mut self, step: Step) {
        match step {
            Step::Read { item } => self.serve(item, false),
            Step::Write { item, .. } => self.serve(item, true),
            Step::Flush => self.land(),
            Step::Arrive { listed, .. } => self.places.push(empty(listed)),
            // "other credits do not move"
            Step::Retire { item } if self.places[item].place.held => self.drop_item(item),
            Step::Retire { .. } => {}
        }
    }

    /// Held items are reckoned anew. A clean one has the same key and the same credits then, so a dirty one alone is stored again.
    pub fn land(&mut self) {
        for i in 0..self.places.len() {
            if self.places[i].place.dirty {
                let [load, _] = self.now(i);
                self.reckon(i, [load, 0], false);
            }
        }
    }

    /// The credits of a held item that stand.
    pub fn now(&self, i: usize) -> [u64; 2] {
        let Keyed { place, key } = self.places[i];
        let stored = [place.load_credit, place.write_credit];
        standing(self.rule, self.level, key, place.item.blocks.into(), stored)
    }

    fn serve(&mut self, i: usize, write: bool) {
        let Place {
            item, held, dirty, ..
        } = self.places[i].place;
        let of_write = match (write, held) {
            (true, _) => item.write * UNIT,
            (false, true) => self.now(i)[1],
            (false, false) => 0,
        };
        if !held {
            self.make_room(item.blocks);
        }
        self.reckon(i, [item.load * UNIT, of_write], dirty || write);
    }

    fn make_room(&mut self, blocks: u32) {
        loop {
            let held = self.places.iter().filter(|keyed| keyed.place.held);
            let used: u32 = held.map(|keyed| keyed.place.item.blocks).sum();
            if self.k - used >= blocks {
                return;
            }
            let held = (0..self.places.len()).filter(|&j| self.places[j].place.held);
            let first = held.min_by_key(|&j| (self.places[j].key, j));
            let first = first.expect("a sail is held");
            self.level = self.places[first].key;
            self.drop_item(first);
        }
    }

    fn drop_item(&mut self, i: usize) {
        self.drops.push(i);
        self.places[i] = empty(self.places[i].place.item);
    }

    /// "a sail's key is its credit a block plus the level, reckoned anew when it is served or landed"
    fn reckon(&mut self, i: usize, [load, write]: [u64; 2], dirty: bool) {
        let item = self.places[i].place.item;
        self.places[i] = Keyed {
            key: self.level + (load + write) / u64::from(item.blocks),
            place: Place {
                item,
                held: true,
                dirty,
                load_credit: load,
                write_credit: write,
            },
        };
    }
}
