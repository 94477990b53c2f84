//! Random seasons through the exported calls. Beside the plain calls on the same bytes goes a model that has no bytes: the
//! table of refusals over the arguments, and the step rule three times: as paper 01 has it, in the queue's form, and as the plain program
//! `season` has it. Behind every call that is taken the bytes stand for the credits of the first, and have the level, the keys and the credits of the second.

use bench::plain::{
    ARRIVE, CLOSED, FLUSH, INVALID_STATE, ITEM_TOO_LARGE, LOG_FULL, MAX_STEPS, NOT_NEXT_NUMBER,
    Numbers, OUT_OF_RANGE, READ, RETIRE, RETIRED_ITEM, SHORT_PAGE, STATE_BYTES, TAKEN,
    UNKNOWN_ITEM, UNKNOWN_RULE, WRITE, at, of_three,
};
use bench::random::{Random, catalog, odd_rule, some_k, some_n, some_rule};
use plain_season::cache::{Cache, Counts};
use plain_season::{Deduction, Item, Step, report};

use crate::layout::get;
use crate::locker::Locker;
use crate::pair::{Call, Pair};
use crate::queue::{Keyed, Queue, standing};
use crate::run::Run;

/// The longest report there can be (RECORDER_REPORT_BYTES).
pub const LONGEST_REPORT: usize = 7_931;

/// The season that follows from an accepted opening and the calls alone.
pub struct Model {
    k: u32,
    rule: Deduction,
    /// The items of the opening and those that have arrived, each with whether it has left.
    items: Vec<(Item, bool)>,
    steps: u32,
    closed: bool,
    cache: Cache,
    locker: Locker,
    queue: Queue,
}

impl Model {
    pub fn open(k: u32, rule: Deduction, catalog: &[Item]) -> Model {
        Model {
            k,
            rule,
            items: catalog.iter().map(|&item| (item, false)).collect(),
            steps: 0,
            closed: false,
            cache: Cache::open(k, rule, catalog),
            locker: Locker::open(k, rule, catalog),
            queue: Queue::open(k, rule, catalog),
        }
    }

    /// How many items the catalogue has now.
    pub fn count(&self) -> usize {
        self.items.len()
    }

    fn refusal(&self, [kind, item, minutes, blocks, load, write]: Numbers) -> u32 {
        if self.closed {
            return CLOSED;
        }
        if self.steps == MAX_STEPS {
            return LOG_FULL;
        }
        if kind == FLUSH {
            return TAKEN;
        }
        let good = match kind {
            READ | RETIRE => true,
            WRITE => minutes <= 1440,
            ARRIVE => (1..=16).contains(&blocks) && load <= 65_535 && write <= 65_535,
            _ => false,
        };
        if !good || item > 255 {
            return OUT_OF_RANGE;
        }
        match self.items.get(item as usize) {
            _ if kind == ARRIVE && item as usize == self.items.len() => TAKEN,
            _ if kind == ARRIVE => NOT_NEXT_NUMBER,
            None => UNKNOWN_ITEM,
            Some((_, true)) => RETIRED_ITEM,
            Some((item, false)) if kind != RETIRE && item.blocks > self.k => ITEM_TOO_LARGE,
            Some(_) => TAKEN,
        }
    }

    pub fn step(&mut self, arguments: Numbers) -> u32 {
        let answer = self.refusal(arguments);
        if answer == TAKEN {
            let [kind, item, minutes, blocks, load, write] = arguments;
            let item = item as usize;
            let listed = Item {
                blocks,
                load: load.into(),
                write: write.into(),
            };
            self.steps += 1;
            let step = match kind {
                READ => Step::Read { item },
                WRITE => Step::Write { item, minutes },
                ARRIVE => Step::Arrive { item, listed },
                RETIRE => Step::Retire { item },
                _ => Step::Flush,
            };
            self.cache.step(step);
            self.locker.step(step);
            self.queue.step(step);
            match kind {
                ARRIVE => self.items.push((listed, false)),
                RETIRE => self.items[item].1 = true,
                _ => {}
            }
        }
        answer
    }

    pub fn close(&mut self) -> u32 {
        if self.closed {
            return CLOSED;
        }
        self.closed = true;
        self.cache.close();
        self.locker.land();
        self.queue.land();
        TAKEN
    }

    pub fn report(&self) -> String {
        report::alone(&self.locker.counts)
    }

    /// What the bytes of a state say otherwise than the rule, or one form of the rule otherwise than another.
    fn differs(&mut self, s: &[u8]) -> Option<String> {
        let drops = std::mem::take(&mut self.locker.drops);
        let first = std::mem::take(&mut self.queue.drops);
        if drops != first {
            return Some(format!("the rule drops {drops:?}, the queue {first:?}"));
        }
        let figures = self.figures().into_iter();
        let mut read = figures.map(|(name, at, width, due)| (name, get(s, at, width), due));
        if let Some((name, bytes, due)) = read.find(|(_, bytes, due)| bytes != due) {
            return Some(format!("{name}: {bytes} in the bytes, {due} by the rule"));
        }
        (0..self.items.len()).find_map(|i| self.item_differs(s, i))
    }

    /// Figures of the rule, and of the queue the level, each with its place and width in the bytes.
    fn figures(&self) -> [(&'static str, usize, usize, u64); 10] {
        let Counts {
            hits,
            loads,
            evictions,
            dirty_evictions,
            writebacks,
            load_cost,
            write_cost,
            ..
        } = self.locker.counts;
        let used = self.locker.held_blocks();
        [
            ("steps", at::STEPS, 4, self.steps.into()),
            ("hits", at::HITS, 4, hits.into()),
            ("loads", at::LOADS, 4, loads.into()),
            ("evictions", at::EVICTIONS, 4, evictions.into()),
            (
                "dirtyevictions",
                at::DIRTY_EVICTIONS,
                4,
                dirty_evictions.into(),
            ),
            ("writebacks", at::WRITEBACKS, 4, writebacks.into()),
            ("loadcost", at::LOAD_COST, 8, load_cost),
            ("writecost", at::WRITE_COST, 8, write_cost),
            ("used", at::USED, 4, used.into()),
            ("level", at::LEVEL, 8, self.queue.level),
        ]
    }

    /// The same of an item: its marks, its credits and key as last reckoned, and its credits as they stand.
    fn item_differs(&self, s: &[u8], i: usize) -> Option<String> {
        let [load, write, key] =
            [at::LOAD_CREDIT, at::WRITE_CREDIT, at::KEYS].map(|at| get(s, at + 8 * i, 8));
        let held = s[at::HELD + i] == 1;
        let dirty = s[at::DIRTY + i / 8] >> (i % 8) & 1 == 1;
        let Keyed { place, key: due } = self.queue.places[i];
        let bytes = (held, dirty, [load, write, key]);
        let queue = (
            place.held,
            place.dirty,
            [place.load_credit, place.write_credit, due],
        );
        if bytes != queue {
            let what = format!("item {i}: {bytes:?} in the bytes, {queue:?} by the queue");
            return Some(what);
        }
        let rule = self.locker.places[i];
        let (level, blocks) = (get(s, at::LEVEL, 8), rule.item.blocks.into());
        let now = match held {
            true => standing(self.rule, level, key, blocks, [load, write]),
            false => [0; 2],
        };
        let plain = [rule.load_credit, rule.write_credit];
        (now != plain || held != rule.held || dirty != rule.dirty)
            .then(|| format!("item {i}: the bytes stand for {now:?}, the rule has {plain:?}"))
    }

    /// The plain program's form of the rule has come to the same.
    fn cache_agrees(&self) -> bool {
        report::alone(&self.cache.counts) == self.report()
    }
}

/// The items of a catalog in bytes.
pub fn items(catalog: &[u8]) -> Vec<Item> {
    let chunks = catalog.as_chunks::<5>().0.iter();
    chunks
        .map(|&[blocks, a, b, c, d]| Item {
            blocks: blocks.into(),
            load: u16::from_le_bytes([a, b]).into(),
            write: u16::from_le_bytes([c, d]).into(),
        })
        .collect()
}

fn any_bytes(r: &mut Random, len: usize) -> Vec<u8> {
    (0..len).map(|_| r.next() as u8).collect()
}

/// Whether capacity and catalog are what paper 01 has for an opening.
fn in_range(k: u32, catalog: &[u8]) -> bool {
    let (items, rest) = catalog.as_chunks::<5>();
    let blocks = |item: &[u8; 5]| (1..=16).contains(&item[0]);
    (1..=4096).contains(&k) && rest.is_empty() && items.len() <= 256 && items.iter().all(blocks)
}

/// Twists a catalog: blocks out of range, cut off, too long.
fn twisted(r: &mut Random, mut catalog: Vec<u8>) -> Vec<u8> {
    let n = catalog.len() / 5;
    match r.below(3) {
        0 if n > 0 => {
            let i = r.pick(&[0, n - 1, r.0 as usize % n]);
            catalog[5 * i] = r.pick(&[0, 17, 18, 128, 255]);
        }
        1 => catalog.truncate(r.below(catalog.len() as u64 + 1) as usize),
        _ => catalog.resize(r.pick(&[1, 1279, 1281, 1284, 1285, 1286, 2560, 66_816]), 1),
    }
    catalog
}

/// An opening that is refused: for the capacity, for the catalog, for the rule, for the state's length, or for several of these.
fn refused_opening(run: &mut Run, r: &mut Random, pair: &mut Pair) {
    let n = some_n(r);
    let mut bytes = catalog(r, n);
    let mut k = some_k(r, &bytes);
    if r.one_in(2) {
        bytes = twisted(r, bytes);
    }
    let odd = r.one_in(2);
    let rule = if odd { odd_rule(r) } else { some_rule(r) };
    if in_range(k, &bytes) && !odd || r.one_in(4) {
        let any = r.next() as u32;
        k = r.pick(&[0, 4097, 4098, 65_537, 1 << 31, u32::MAX, any | 8192]);
    }
    let call = Call::Open {
        k,
        rule,
        catalog: &bytes,
    };
    let expected = if in_range(k, &bytes) {
        UNKNOWN_RULE
    } else {
        OUT_OF_RANGE
    };
    agree(pair.make(run, call), expected, run);
    if r.one_in(4) {
        wrong_length(run, r, call);
    }
}

/// All calls on a state that is too short or too long, at times by the four bytes of a field.
fn wrong_length(run: &mut Run, r: &mut Random, opening: Call) {
    let right = STATE_BYTES;
    let len = r.pick(&[0, 1, right - 4, right - 1, right + 1, right + 4, 2 * right]);
    let bytes = any_bytes(r, len);
    let mut pair = Pair::of(r, &bytes);
    agree(pair.make(run, opening), INVALID_STATE, run);
    agree(pair.step(run, of_three([READ, 0, 0])), INVALID_STATE, run);
    agree(pair.step(run, arguments(r, 1)), INVALID_STATE, run);
    agree(pair.make(run, Call::Close), INVALID_STATE, run);
    agree(pair.report(run, LONGEST_REPORT).0, INVALID_STATE, run);
    agree(pair.report(run, 0).0, INVALID_STATE, run);
}

/// Some number, whether it makes sense or not.
fn wild(r: &mut Random) -> u32 {
    let any = r.next() as u32;
    r.pick(&[
        0,
        1,
        FLUSH,
        READ,
        WRITE,
        ARRIVE,
        RETIRE,
        READ + 32,
        WRITE + 256,
        255,
        256,
        1440,
        1441,
        65_536,
        u32::MAX,
        any,
        any,
        any % 300,
    ])
}

/// The arguments of a step on a catalogue of `n` items: good ones, ones that are to be refused, and wild ones. Some items are asked for
/// more often; some arrive and some leave, mostly the later ones.
pub fn arguments(r: &mut Random, n: usize) -> Numbers {
    if r.one_in(25) {
        return [0; 6].map(|_| wild(r));
    }
    let few = n.min(5) as u64;
    let item = match n {
        0 => wild(r),
        _ if r.one_in(3) => r.below(few) as u32,
        _ => r.below(n as u64) as u32,
    };
    let minutes = r.below(1441) as u32;
    let late = n.saturating_sub(1 + r.below(4) as usize) as u32;
    let cost = |r: &mut Random| r.pick(&[0, 1, 2, 9, 65_535]);
    let mut arguments = match r.below(26) {
        0 | 1 => [FLUSH, wild(r), wild(r), wild(r), wild(r), wild(r)],
        2 => {
            let next = (n as u32).saturating_add(r.pick(&[0, 0, 0, 0, 0, 1]));
            let blocks = r.between(1, 16) as u32;
            [ARRIVE, next, wild(r), blocks, cost(r), cost(r)]
        }
        3 => [RETIRE, r.pick(&[late, late, item]), wild(r), 0, 0, wild(r)],
        4..=14 => [WRITE, item, minutes, wild(r), wild(r), wild(r)],
        _ => [READ, item, wild(r), wild(r), wild(r), wild(r)],
    };
    if r.one_in(12) {
        let which = r.below(6) as usize;
        arguments[which] = wild(r);
    }
    if r.one_in(40) {
        arguments[1] = r.between(n as u64, 256) as u32;
    }
    arguments
}

/// How many calls a season has: mostly some dozens.
fn some_calls(r: &mut Random) -> u64 {
    let most = r.pick(&[5, 30, 60, 100, 100, 200, 400]);
    if r.one_in(1000) { 5_000 } else { r.below(most) }
}

/// A season from an accepted opening: its calls, compared one by one, and its reports.
fn season(run: &mut Run, r: &mut Random, pair: &mut Pair, full: bool) {
    let n = if full { 4 } else { some_n(r) };
    let bytes = catalog(r, n);
    let k = some_k(r, &bytes);
    let rule = some_rule(r);
    let opening = Call::Open {
        k,
        rule,
        catalog: &bytes,
    };
    if r.one_in(8) {
        wrong_length(run, r, opening);
    }
    let items = items(&bytes);
    let mut model = Model::open(k, Deduction::ALL[rule as usize], &items);
    agree(pair.make(run, opening), TAKEN, run);
    let mut left = some_calls(r);
    while left > 0 || full && model.steps < MAX_STEPS {
        left = left.saturating_sub(1);
        if !full && r.one_in(120) {
            agree(pair.make(run, Call::Close), model.close(), run);
            stands(run, pair, &mut model);
            left = left.min(8);
        }
        let arguments = arguments(r, model.count());
        let answer = pair.step(run, arguments);
        agree(answer, model.step(arguments), run);
        // A refused step has left every byte as it was.
        if answer == TAKEN {
            stands(run, pair, &mut model);
        }
        if !full && r.one_in(200) {
            reports(run, r, pair, &model);
            refused_opening(run, r, pair);
        }
    }
    reports(run, r, pair, &model);
    for _ in 0..2 {
        let arguments = arguments(r, model.count());
        agree(pair.step(run, arguments), model.step(arguments), run);
        agree(pair.make(run, Call::Close), model.close(), run);
        stands(run, pair, &mut model);
    }
    reports(run, r, pair, &model);
}

/// The bytes have to say what the rule says, in each of its forms.
fn stands(run: &Run, pair: &Pair, model: &mut Model) {
    if let Some(what) = model.differs(pair.state()) {
        run.differ(&what, &[]);
    }
}

/// What both answer has to be what the model has.
fn agree(both: u32, model: u32, run: &Run) {
    if both != model {
        let what = format!("both answer {both}, the table of refusals has {model}");
        run.differ(&what, &[]);
    }
}

/// The report on pages of just the right size, of a byte less, of one more, large ones and small ones.
fn reports(run: &mut Run, r: &mut Random, pair: &mut Pair, model: &Model) {
    if !model.cache_agrees() {
        run.differ("the plain program has other counts than the rule", &[]);
    }
    let text = model.report().into_bytes();
    let fits = text.len();
    let short = r.below(fits as u64) as usize;
    let large = fits + r.below(1000) as usize;
    for page in [fits, fits - 1, fits + 1, LONGEST_REPORT, large, short, 0] {
        let expected = if page < fits {
            (SHORT_PAGE, Vec::new())
        } else {
            (TAKEN, text.clone())
        };
        if pair.report(run, page) != expected {
            let what = format!("both report otherwise than the model on a page of {page}");
            run.differ(&what, &[String::from_utf8_lossy(&text).into_owned()]);
        }
    }
}

/// How many seasons there are to one of 1,000,000 steps.
const SEASONS_TO_A_FULL_ONE: u64 = 50_000;

/// One case: openings that are refused, and one season or two on the same bytes.
pub fn case(run: &mut Run) {
    let r = &mut run.random();
    let bytes = any_bytes(r, STATE_BYTES);
    let mut pair = Pair::of(r, &bytes);
    for _ in 0..r.pick(&[0, 0, 1, 3]) {
        refused_opening(run, r, &mut pair);
    }
    for _ in 0..r.pick(&[1, 1, 1, 2]) {
        season(run, r, &mut pair, false);
    }
    if run.number % SEASONS_TO_A_FULL_ONE == SEASONS_TO_A_FULL_ONE / 2 {
        season(run, r, &mut pair, true);
    }
}
