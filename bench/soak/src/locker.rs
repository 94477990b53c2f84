//! The step rule of paper 01 as it is written there, with no level and no heap: at an eviction every held item is looked at, and every
//! other one is charged. Slow, and with no care for anything but the words. It is what the queue is held to.

use plain_season::cache::{Counts, ItemCounts};
use plain_season::{Deduction, Item, Step};

const UNIT: u64 = 720_720;

/// A place of the locker.
#[derive(Clone, Copy)]
pub struct Place {
    pub item: Item,
    pub held: bool,
    pub dirty: bool,
    pub load_credit: u64,
    pub write_credit: u64,
}

pub struct Locker {
    k: u32,
    rule: Deduction,
    pub places: Vec<Place>,
    pub counts: Counts,
    /// The items dropped, in order.
    pub drops: Vec<usize>,
}

/// What is left of an item's credits, load and write, when it loses so many shares.
pub fn charged(rule: Deduction, loss: u64, [load, write]: [u64; 2]) -> [u64; 2] {
    match rule {
        Deduction::WriteFirst if loss <= write => [load, write - loss],
        Deduction::WriteFirst => [load - (loss - write), 0],
        Deduction::LoadFirst if loss <= load => [load - loss, write],
        Deduction::LoadFirst => [0, write - (loss - load)],
    }
}

impl Place {
    pub fn empty(item: Item) -> Place {
        Place {
            item,
            held: false,
            dirty: false,
            load_credit: 0,
            write_credit: 0,
        }
    }

    /// "(load credit + write credit) / blocks"
    fn value(&self) -> u64 {
        (self.load_credit + self.write_credit) / u64::from(self.item.blocks)
    }
}

impl Locker {
    pub fn open(k: u32, rule: Deduction, catalog: &[Item]) -> Locker {
        Locker {
            k,
            rule,
            places: catalog.iter().copied().map(Place::empty).collect(),
            counts: Counts {
                hits: 0,
                loads: 0,
                load_cost: 0,
                evictions: 0,
                dirty_evictions: 0,
                writebacks: 0,
                write_cost: 0,
                items: vec![ItemCounts::default(); catalog.len()],
            },
            drops: Vec::new(),
        }
    }

    pub fn step(&mut self, step: Step) {
        match step {
            Step::Read { item } => self.request(item),
            Step::Write { item, minutes } => {
                self.request(item);
                let place = &mut self.places[item];
                place.dirty = true;
                place.write_credit = place.item.write * UNIT;
                self.counts.items[item].minutes += minutes;
            }
            Step::Flush => self.land(),
            Step::Arrive { listed, .. } => {
                self.places.push(Place::empty(listed));
                self.counts.items.push(ItemCounts::default());
            }
            Step::Retire { item } if self.places[item].held => self.drop_item(item),
            Step::Retire { .. } => {}
        }
    }

    /// "Each dirty held sail pays its write cost, becomes clean, and its write credit becomes 0. Load credits remain."
    pub fn land(&mut self) {
        for i in 0..self.places.len() {
            if self.places[i].dirty {
                self.pay_write(i);
                self.places[i].dirty = false;
                self.places[i].write_credit = 0;
            }
        }
    }

    fn request(&mut self, i: usize) {
        if self.places[i].held {
            self.counts.hits += 1;
        } else {
            self.miss(i);
        }
        let place = &mut self.places[i];
        place.load_credit = place.item.load * UNIT;
    }

    pub fn held_blocks(&self) -> u32 {
        let held = self.places.iter().filter(|place| place.held);
        held.map(|place| place.item.blocks).sum()
    }

    fn miss(&mut self, i: usize) {
        let item = self.places[i].item;
        while self.k - self.held_blocks() < item.blocks {
            let held = (0..self.places.len()).filter(|&j| self.places[j].held);
            let least = held.min_by_key(|&j| (self.places[j].value(), j));
            let least = least.expect("a sail is held");
            let value = self.places[least].value();
            self.drop_item(least);
            self.charge_all(value);
        }
        self.places[i].held = true;
        self.counts.loads += 1;
        self.counts.load_cost += item.load;
        self.counts.items[i].loads += 1;
    }

    /// "Each other held sail loses blocks × that value"
    fn charge_all(&mut self, value: u64) {
        let rule = self.rule;
        for place in self.places.iter_mut().filter(|place| place.held) {
            let loss = u64::from(place.item.blocks) * value;
            [place.load_credit, place.write_credit] =
                charged(rule, loss, [place.load_credit, place.write_credit]);
        }
    }

    fn pay_write(&mut self, i: usize) {
        self.counts.writebacks += 1;
        self.counts.write_cost += self.places[i].item.write;
        self.counts.items[i].writebacks += 1;
    }

    /// "That sail is dropped; if dirty, its write cost is paid." "A dropped sail has credits 0."
    fn drop_item(&mut self, i: usize) {
        self.drops.push(i);
        self.counts.evictions += 1;
        if self.places[i].dirty {
            self.counts.dirty_evictions += 1;
            self.pay_write(i);
        }
        self.places[i] = Place::empty(self.places[i].item);
    }
}
