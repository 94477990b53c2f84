//! The papers' rule of a foul locker, sentence by sentence, on a state of the right length: slow, and with no care for anything
//! but the words. It says which sentences a state breaks.

use bench::plain::at;
use plain_season::Deduction;

use crate::layout::get;
use crate::queue::standing;

const UNIT: u64 = 720_720;

/// The most that the level rises at an eviction: "drops × 131,070 × 720,720".
const MOST_RISE: u128 = 131_070 * UNIT as u128;

/// What a state says of an item (paper 01: a sail).
pub struct Item {
    pub blocks: u64,
    pub load: u64,
    pub write: u64,
    pub held: u64,
    pub dirty: bool,
    pub load_credit: u64,
    pub write_credit: u64,
    pub minutes: u64,
    pub loads: u64,
    pub writebacks: u64,
    pub left: bool,
    pub key: u64,
    /// Where it stands in the heap.
    pub place: u64,
}

/// The numbers of a state.
pub struct State {
    pub format: u64,
    pub k: u64,
    pub n: u64,
    pub closed: u64,
    pub steps: u64,
    pub hits: u64,
    pub loads: u64,
    pub evictions: u64,
    pub dirty_evictions: u64,
    pub writebacks: u64,
    pub flushes: u64,
    pub load_cost: u64,
    pub write_cost: u64,
    pub rule: u64,
    pub arrivals: u64,
    pub retirements: u64,
    pub used: u64,
    pub level: u64,
    /// All 256 places.
    pub places: Vec<Item>,
    /// All 256 bytes of the heap, of which as many are in use as items are held.
    pub heap: Vec<u8>,
}

/// The mark of an item, among 256 from a place on.
fn mark(s: &[u8], at: usize, i: usize) -> bool {
    get(s, at + 8 * (i / 64), 8) >> (i % 64) & 1 == 1
}

fn place(s: &[u8], i: usize) -> Item {
    Item {
        blocks: get(s, at::BLOCKS + i, 1),
        load: get(s, at::LOAD + 2 * i, 2),
        write: get(s, at::WRITE + 2 * i, 2),
        held: get(s, at::HELD + i, 1),
        dirty: mark(s, at::DIRTY, i),
        load_credit: get(s, at::LOAD_CREDIT + 8 * i, 8),
        write_credit: get(s, at::WRITE_CREDIT + 8 * i, 8),
        minutes: get(s, at::MINUTES + 4 * i, 4),
        loads: get(s, at::ITEM_LOADS + 4 * i, 4),
        writebacks: get(s, at::ITEM_WRITEBACKS + 4 * i, 4),
        left: mark(s, at::LEFT, i),
        key: get(s, at::KEYS + 8 * i, 8),
        place: get(s, at::PLACES + i, 1),
    }
}

impl State {
    pub fn of(s: &[u8]) -> State {
        State {
            format: get(s, at::FORMAT, 4),
            k: get(s, at::K, 4),
            n: get(s, at::N, 2),
            closed: get(s, at::CLOSED, 2),
            steps: get(s, at::STEPS, 4),
            hits: get(s, at::HITS, 4),
            loads: get(s, at::LOADS, 4),
            evictions: get(s, at::EVICTIONS, 4),
            dirty_evictions: get(s, at::DIRTY_EVICTIONS, 4),
            writebacks: get(s, at::WRITEBACKS, 4),
            flushes: get(s, at::FLUSHES, 4),
            load_cost: get(s, at::LOAD_COST, 8),
            write_cost: get(s, at::WRITE_COST, 8),
            rule: get(s, at::RULE, 4),
            arrivals: get(s, at::ARRIVALS, 4),
            retirements: get(s, at::RETIREMENTS, 4),
            used: get(s, at::USED, 4),
            level: get(s, at::LEVEL, 8),
            places: (0..256).map(|i| place(s, i)).collect(),
            heap: s[at::HEAP..at::HEAP + 256].to_vec(),
        }
    }

    /// The items in the heap, by their places.
    pub fn in_heap(&self) -> &[u8] {
        &self.heap[..self.held() as usize]
    }

    /// What the order of the heap goes by: key, then number.
    fn order(&self, item: u8) -> (u64, u8) {
        (self.places[usize::from(item)].key, item)
    }

    /// Whether no item goes before the one above it.
    fn in_order(&self) -> bool {
        let heap = self.in_heap();
        (1..heap.len()).all(|j| self.order(heap[(j - 1) / 2]) <= self.order(heap[j]))
    }

    fn none_twice(&self) -> bool {
        let mut seen = [false; 256];
        let mut again = |&item: &u8| std::mem::replace(&mut seen[usize::from(item)], true);
        !self.in_heap().iter().any(&mut again)
    }

    /// Whether the heap has no item that is not held, of those in the catalog or of those past it.
    fn none_strange(&self, past: bool) -> bool {
        let heap = self.in_heap().iter().map(|&item| usize::from(item));
        let mut these = heap.filter(|&i| (i as u64 >= self.n) == past);
        these.all(|i| self.places[i].held == 1)
    }

    /// Whether each held item that is in the heap stands where its place says. That each is there follows where none is twice and none
    /// strange, for as many are in the heap as are held.
    fn places_right(&self) -> bool {
        let heap = self.in_heap();
        heap.iter().all(|&item| {
            let it = &self.places[usize::from(item)];
            it.held != 1 || heap.get(it.place as usize) == Some(&item)
        })
    }

    /// The load credits that stand, of a valid state.
    pub fn load_credits(&self) -> u64 {
        let rule = Deduction::ALL[self.rule as usize];
        let held = self.places.iter().filter(|it| it.held == 1);
        let stored = |it: &Item| [it.load_credit, it.write_credit];
        held.map(|it| standing(rule, self.level, it.key, it.blocks, stored(it))[0])
            .sum()
    }

    /// The items of the catalog.
    pub fn items(&self) -> &[Item] {
        &self.places[..self.n.min(256) as usize]
    }

    /// The places past the catalog.
    fn past(&self) -> &[Item] {
        &self.places[self.n.min(256) as usize..]
    }

    /// How many places are held.
    pub fn held(&self) -> u64 {
        self.places.iter().filter(|it| it.held == 1).count() as u64
    }

    /// How many dirty marks are set.
    pub fn dirty(&self) -> u64 {
        self.places.iter().filter(|it| it.dirty).count() as u64
    }

    /// How many items have left.
    pub fn left(&self) -> u64 {
        self.places.iter().filter(|it| it.left).count() as u64
    }

    pub fn held_blocks(&self) -> u64 {
        let held = self.places.iter().filter(|it| it.held == 1);
        held.map(|it| it.blocks).sum()
    }

    /// Whether an item's key is no more than what its credits are worth above the level: its loss is not below 0.
    fn no_gain(&self, it: &Item) -> bool {
        let worth =
            (u128::from(it.load_credit) + u128::from(it.write_credit)) / u128::from(it.blocks);
        u128::from(it.key) <= u128::from(self.level) + worth
    }

    fn every(&self, holds: fn(&Item) -> bool) -> bool {
        self.items().iter().all(holds)
    }

    fn every_past(&self, holds: fn(&Item) -> bool) -> bool {
        self.past().iter().all(holds)
    }

    fn sum(&self, of: fn(&Item) -> u64) -> u64 {
        self.places.iter().map(of).sum()
    }
}

/// A sentence of the rule in a few words, and whether a state keeps it.
type Sentence = (&'static str, fn(&State) -> bool);

/// Sentences that speak of places and items.
const OF_PLACES: [Sentence; 23] = [
    ("held is 0 or 1", |s| s.places.iter().all(|it| it.held <= 1)),
    ("past n: not held", |s| s.every_past(|it| it.held != 1)),
    ("past n: clean", |s| s.every_past(|it| !it.dirty)),
    ("past n: not left", |s| s.every_past(|it| !it.left)),
    ("left: not held", |s| s.every(|it| !it.left || it.held == 0)),
    ("past n: no load credit", |s| {
        s.every_past(|it| it.load_credit == 0)
    }),
    ("past n: no write credit", |s| {
        s.every_past(|it| it.write_credit == 0)
    }),
    ("past n: counts 0", |s| {
        s.every_past(|it| [it.minutes, it.loads, it.writebacks] == [0; 3])
    }),
    ("past n: blocks and costs 0", |s| {
        s.every_past(|it| [it.blocks, it.load, it.write] == [0; 3])
    }),
    ("blocks are 1 to 16", |s| {
        s.every(|it| (1..=16).contains(&it.blocks))
    }),
    ("not held: clean", |s| {
        s.every(|it| it.held > 0 || !it.dirty)
    }),
    ("not held: credits 0", |s| {
        s.every(|it| it.held > 0 || [it.load_credit, it.write_credit] == [0; 2])
    }),
    ("clean: write credit 0", |s| {
        s.every(|it| it.dirty || it.write_credit == 0 || it.held == 0)
    }),
    ("load credit: a multiple of the blocks", |s| {
        s.every(|it| it.held == 0 || it.blocks == 0 || it.load_credit % it.blocks == 0)
    }),
    ("write credit: a multiple of the blocks", |s| {
        s.every(|it| it.held == 0 || it.blocks == 0 || it.write_credit % it.blocks == 0)
    }),
    ("load credit: at most load × 720,720", |s| {
        s.every(|it| it.held == 0 || it.load_credit <= it.load * UNIT)
    }),
    ("write credit: at most write × 720,720", |s| {
        s.every(|it| it.held == 0 || it.write_credit <= it.write * UNIT)
    }),
    ("past n: no key", |s| s.every_past(|it| it.key == 0)),
    ("past n: place 0", |s| s.every_past(|it| it.place == 0)),
    ("not held: no key", |s| {
        s.every(|it| it.held > 0 || it.key == 0)
    }),
    ("not held: place 0", |s| {
        s.every(|it| it.held > 0 || it.place == 0)
    }),
    ("key: at least the level", |s| {
        s.items().iter().all(|it| it.held == 0 || s.level <= it.key)
    }),
    ("key: no loss below 0", |s| {
        s.items()
            .iter()
            .all(|it| it.held == 0 || it.blocks == 0 || s.no_gain(it))
    }),
];

/// Sentences that speak of the queue: blocks in use, level, and heap.
const OF_THE_QUEUE: [Sentence; 8] = [
    ("used = held blocks", |s| s.used == s.held_blocks()),
    ("level: at most evictions × 131,070 × 720,720", |s| {
        u128::from(s.level) <= u128::from(s.evictions) * MOST_RISE
    }),
    ("heap: 0 behind the held items", |s| {
        s.heap[s.in_heap().len()..].iter().all(|&byte| byte == 0)
    }),
    ("heap: no item twice", State::none_twice),
    ("heap: no item that is not held", |s| s.none_strange(false)),
    ("heap: no item past n", |s| s.none_strange(true)),
    ("heap: in order of key, then number", State::in_order),
    ("places: where the held items stand", State::places_right),
];

/// Sentences that speak of the state as a whole.
const OF_THE_WHOLE: [Sentence; 19] = [
    ("the number of the layout is 5", |s| s.format == 5),
    ("the rule is 0 or 1", |s| s.rule <= 1),
    ("closed is 0 or 1", |s| s.closed <= 1),
    ("k is 1 to 4,096", |s| (1..=4096).contains(&s.k)),
    ("n is at most 256", |s| s.n <= 256),
    ("held blocks are at most k", |s| s.held_blocks() <= s.k),
    (
        "hits + loads + flushes + arrivals + retirements = steps",
        |s| s.hits + s.loads + s.flushes + s.arrivals + s.retirements == s.steps,
    ),
    ("retirements = items that have left", |s| {
        s.retirements == s.left()
    }),
    ("steps are at most 1,000,000", |s| s.steps <= 1_000_000),
    ("evictions + held = loads", |s| {
        s.evictions + s.held() == s.loads
    }),
    ("dirtyevictions are at most evictions", |s| {
        s.dirty_evictions <= s.evictions
    }),
    ("dirtyevictions are at most writebacks", |s| {
        s.dirty_evictions <= s.writebacks
    }),
    ("writebacks + dirty are at most steps", |s| {
        s.writebacks + s.dirty() <= s.steps
    }),
    ("loadcost is at most 65,535 × loads", |s| {
        s.load_cost <= 65_535 * s.loads
    }),
    ("writecost is at most 65,535 × writebacks", |s| {
        s.write_cost <= 65_535 * s.writebacks
    }),
    ("items' loads add up", |s| s.sum(|it| it.loads) == s.loads),
    ("items' writebacks add up", |s| {
        s.sum(|it| it.writebacks) == s.writebacks
    }),
    ("minutes are at most 1,440 × steps", |s| {
        s.items().iter().all(|it| it.minutes <= 1440 * s.steps)
    }),
    ("closed: nothing dirty", |s| s.closed == 0 || s.dirty() == 0),
];

pub const SENTENCES: usize = OF_PLACES.len() + OF_THE_WHOLE.len() + OF_THE_QUEUE.len();

fn sentences() -> impl Iterator<Item = Sentence> {
    OF_THE_WHOLE
        .into_iter()
        .chain(OF_PLACES)
        .chain(OF_THE_QUEUE)
}

pub fn names() -> Vec<&'static str> {
    sentences().map(|(name, _)| name).collect()
}

/// The sentences that a state breaks, by their place in `names`.
pub fn broken(state: &State) -> Vec<usize> {
    let all = sentences().enumerate();
    all.filter(|(_, (_, kept))| !kept(state))
        .map(|(i, _)| i)
        .collect()
}
