//! Changes of a valid state: a byte, a field at and past its limits, two fields, and several fields that go together, so that the
//! state stays valid or breaks one sentence of the rule only.

use bench::plain::{MOST_RISE, UNIT, at};
use bench::random::Random;

use crate::layout::{FIELDS, field_of, get, put};
use crate::queues::{mended, queue, worth};
use crate::rule::State;

/// A number of some bytes put at a place.
#[derive(Clone, Copy)]
pub struct Put {
    at: usize,
    width: usize,
    value: u64,
}

impl Put {
    pub fn make(&self, s: &mut [u8]) {
        put(s, self.at, self.width, self.value);
    }

    /// Whether these bytes are others by it.
    pub fn changes(&self, s: &[u8]) -> bool {
        get(s, self.at, self.width) != self.value
    }

    pub fn tell(&self) -> String {
        let Put { at, width, value } = self;
        format!(
            "changed: {width} bytes at {at} ({}) to {value}",
            field_of(*at)
        )
    }
}

/// Puts a number at a place.
pub fn set(at: usize, width: usize, value: u64) -> Put {
    let value = value & u64::MAX >> (64 - 8 * width);
    Put { at, width, value }
}

/// Adds to the number at a place, modulo the field's size.
pub fn add(s: &[u8], at: usize, width: usize, more: i64) -> Put {
    set(at, width, get(s, at, width).wrapping_add_signed(more))
}

/// One byte, by little or to any value.
pub fn byte(r: &mut Random, s: &[u8]) -> Put {
    let any = r.below(s.len() as u64) as usize;
    let head = r.below(at::LOAD_CREDIT as u64) as usize;
    let rule = at::RULE + r.below(4) as usize;
    let behind = at::LEFT + r.below((at::KEYS - at::LEFT) as u64) as usize;
    let heap = at::HEAP + r.below((s.len() - at::HEAP) as u64) as usize;
    let place = r.pick(&[any, any, any, head, head, rule, behind, heap]);
    let old = u64::from(s[place]);
    let bit = 1 << r.below(8);
    let any = r.next();
    let new = [
        old + 1,
        old.wrapping_sub(1),
        old ^ bit,
        old ^ bit,
        0,
        1,
        255,
        any,
    ];
    set(place, 1, r.pick(&new))
}

/// An entry of a run: the first, the last of the catalog, the first past it, the last of all, one that is held, or any.
fn some_entry(r: &mut Random, state: &State) -> usize {
    let n = state.n as usize;
    let from = r.below(256) as usize;
    let held = (0..256)
        .map(|i| (from + i) % 256)
        .find(|&i| state.places[i].held == 1);
    let any = r.below(n.max(1) as u64) as usize;
    let entry = r.pick(&[
        0,
        n.saturating_sub(1),
        n,
        255,
        any,
        any,
        held.unwrap_or(any),
        held.unwrap_or(any),
        from,
    ]);
    entry.min(255)
}

/// The values next to the limits that the table of docs/LAYOUT.md sets for a field, beside the other fields of the state.
fn limits(state: &State, field: usize, entry: usize) -> Vec<u64> {
    let it = &state.places[entry];
    let rest = |total: u64, own: u64| total.wrapping_sub(own);
    let others = state.arrivals + state.retirements;
    match FIELDS[field].at {
        at::FORMAT => vec![5],
        at::K => vec![1, 4096, state.held_blocks()],
        at::N => vec![256, state.n],
        at::CLOSED => vec![1, 256],
        at::STEPS => vec![
            1_000_000,
            state.hits + state.loads + state.flushes + state.arrivals + state.retirements,
            state.writebacks + state.dirty(),
        ],
        at::HITS => vec![rest(state.steps, state.loads + state.flushes + others)],
        at::LOADS => vec![state.evictions + state.held()],
        at::EVICTIONS => vec![rest(state.loads, state.held()), state.dirty_evictions],
        at::DIRTY_EVICTIONS => vec![state.evictions, state.writebacks],
        at::WRITEBACKS => vec![rest(state.steps, state.dirty()), state.dirty_evictions],
        at::FLUSHES => vec![rest(state.steps, state.loads + state.hits + others)],
        at::LOAD_COST => vec![65_535 * state.loads],
        at::WRITE_COST => vec![65_535 * state.writebacks],
        at::DIRTY => vec![1 << (entry % 64), u64::MAX],
        at::LOAD_CREDIT => vec![it.load * UNIT, it.blocks, it.load * UNIT + it.blocks],
        at::WRITE_CREDIT => vec![it.write * UNIT, it.blocks, it.write * UNIT + it.blocks],
        at::MINUTES => vec![240 * state.steps, 1440 * state.steps],
        at::ITEM_LOADS => vec![it.loads, state.loads],
        at::ITEM_WRITEBACKS => vec![it.writebacks, state.writebacks],
        at::LOAD => vec![it.load_credit.div_ceil(UNIT), 65_535],
        at::WRITE => vec![it.write_credit.div_ceil(UNIT), 65_535],
        at::BLOCKS => vec![
            1,
            16,
            rest(state.k, rest(state.held_blocks(), it.held * it.blocks)),
        ],
        at::RULE => vec![1, 1 << 8, 1 << 31],
        at::LEFT => vec![1 << (entry % 64), u64::MAX],
        at::ARRIVALS => vec![rest(
            state.steps,
            state.hits + state.loads + state.flushes + state.retirements,
        )],
        at::RETIREMENTS => vec![state.left()],
        at::USED => vec![state.held_blocks(), state.k],
        at::LEVEL => vec![state.evictions * MOST_RISE, it.key],
        at::KEYS => vec![state.level, state.level + worth(it)],
        at::HEAP => vec![state.n, entry as u64],
        at::PLACES => vec![it.place, state.held()],
        _ => vec![1, 255],
    }
}

/// One field: at a limit or one off it, or by little, or to a value of its own size.
pub fn field(r: &mut Random, s: &[u8], state: &State) -> Put {
    let field = r.below(FIELDS.len() as u64) as usize;
    let f = &FIELDS[field];
    let entry = match f.entries {
        256 => some_entry(r, state),
        entries => r.below(entries as u64) as usize,
    };
    let place = f.at + f.width * entry;
    let limit = r.pick(&limits(state, field, entry));
    let old = get(s, place, f.width);
    let high = 1 << (8 * f.width - 1);
    let any = r.next();
    let bit = 1 << r.below(8 * f.width as u64);
    let new = [
        limit,
        limit,
        limit.wrapping_add(1),
        limit.wrapping_add(1),
        limit.wrapping_sub(1),
        old.wrapping_add(1),
        old.wrapping_sub(1),
        old ^ bit,
        old | high,
        0,
        u64::MAX,
        any,
    ];
    set(place, f.width, r.pick(&new))
}

/// Item `i` leaves the cache, or comes into it clean and without credit; as many evictions less or more.
fn toggle_held(s: &[u8], state: &State, i: usize) -> Vec<Put> {
    let held = state.places[i].held;
    let mut puts = vec![
        set(at::HELD + i, 1, 1 - held.min(1)),
        add(s, at::EVICTIONS, 4, 2 * held.min(1) as i64 - 1),
    ];
    if held == 1 {
        let byte = u64::from(s[at::DIRTY + i / 8]) & !(1 << (i % 8));
        puts.push(set(at::LOAD_CREDIT + 8 * i, 8, 0));
        puts.push(set(at::WRITE_CREDIT + 8 * i, 8, 0));
        puts.push(set(at::DIRTY + i / 8, 1, byte));
    }
    puts
}

/// The mark of item `i` the other way round, without write credit.
fn toggle_dirty(s: &[u8], i: usize) -> Vec<Put> {
    let byte = u64::from(s[at::DIRTY + i / 8]) ^ 1 << (i % 8);
    vec![
        set(at::DIRTY + i / 8, 1, byte),
        set(at::WRITE_CREDIT + 8 * i, 8, 0),
    ]
}

/// Item `i` has left, or has not, and as many hits less or more. One that is held stays so, and breaks a sentence.
fn toggle_left(s: &[u8], state: &State, i: usize) -> Vec<Put> {
    let byte = u64::from(s[at::LEFT + i / 8]) ^ 1 << (i % 8);
    let by = if state.places[i].left { -1 } else { 1 };
    let mut puts = two(s, [at::RETIREMENTS, at::HITS], [by, -by]);
    puts.push(set(at::LEFT + i / 8, 1, byte));
    puts
}

/// The catalog one item shorter, its place emptied; or one item longer.
fn resize(s: &[u8], state: &State, shorter: bool) -> Vec<Put> {
    let n = state.n.min(256) as usize;
    if !shorter {
        let mut puts = vec![add(s, at::N, 2, 1)];
        if n < 256 {
            puts.push(set(at::BLOCKS + n, 1, 1));
        }
        return puts;
    }
    let Some(last) = n.checked_sub(1) else {
        return vec![set(at::N, 2, u64::MAX)];
    };
    let mut puts = vec![set(at::N, 2, last as u64)];
    // The heap has no entry of an item: it is mended.
    let of_items = |at: usize| at != at::HEAP;
    for f in FIELDS.iter().filter(|f| f.entries == 256 && of_items(f.at)) {
        puts.push(set(f.at + f.width * last, f.width, 0));
    }
    if state.places[last].left {
        puts.extend(toggle_left(s, state, last));
    }
    puts
}

/// Closed, with every mark and write credit cleared.
fn closed() -> Vec<Put> {
    let mut puts = vec![set(at::CLOSED, 2, 1)];
    puts.extend((0..4).map(|w| set(at::DIRTY + 8 * w, 8, 0)));
    puts.extend((0..256).map(|i| set(at::WRITE_CREDIT + 8 * i, 8, 0)));
    puts
}

/// Adds to two numbers of four bytes.
fn two(s: &[u8], [a, b]: [usize; 2], [x, y]: [i64; 2]) -> Vec<Put> {
    vec![add(s, a, 4, x), add(s, b, 4, y)]
}

/// Changes of the figures that go together: one more here and one less there, at times so much that a sum of four bytes wraps.
fn figures(r: &mut Random, s: &[u8], [i, j]: [usize; 2]) -> Vec<Put> {
    let by = r.pick(&[1, 1, -1, 1 << 31, 1 << 16]);
    let [loads, writebacks] = [at::ITEM_LOADS, at::ITEM_WRITEBACKS].map(|at| at + 4 * i);
    match r.below(10) {
        8 => two(s, [at::STEPS, at::ARRIVALS], [by, by]),
        9 => two(s, [at::HITS, at::ARRIVALS], [by, -by]),
        0 => two(s, [at::STEPS, at::HITS], [by, by]),
        1 => two(s, [at::STEPS, at::FLUSHES], [by, by]),
        2 => two(s, [at::HITS, at::FLUSHES], [by, -by]),
        3 => two(s, [at::HITS, at::FLUSHES], [1 << 31, 1 << 31]),
        4 => two(s, [loads, at::ITEM_LOADS + 4 * j], [by, -by]),
        5 => two(s, [writebacks, at::ITEM_WRITEBACKS + 4 * j], [by, -by]),
        6 => two(s, [at::WRITEBACKS, writebacks], [by, by]),
        _ => [
            two(s, [at::LOADS, at::EVICTIONS], [by, by]),
            two(s, [loads, at::HITS], [by, -by]),
        ]
        .concat(),
    }
}

/// Figures that go together at a limit of the rule, or one past it.
fn at_limits(r: &mut Random, s: &[u8], state: &State, i: usize) -> Vec<Put> {
    let past = r.below(2);
    match r.below(4) {
        0 => {
            let more = (1_000_000 + past).wrapping_sub(state.steps) as i64;
            two(s, [at::STEPS, at::HITS], [more, more])
        }
        1 => {
            let most = state.steps.wrapping_sub(state.dirty()) + past;
            let more = most.wrapping_sub(state.writebacks) as i64;
            let item = at::ITEM_WRITEBACKS + 4 * i;
            two(s, [at::WRITEBACKS, item], [more, more])
        }
        2 => vec![
            set(at::LOAD_COST, 8, 65_535 * state.loads + past),
            set(at::WRITE_COST, 8, 65_535 * state.writebacks + r.below(2)),
        ],
        _ => {
            let most = state.evictions.min(state.writebacks);
            vec![set(at::DIRTY_EVICTIONS, 4, most + past)]
        }
    }
}

/// Changes of an item that go together.
fn item(r: &mut Random, s: &[u8], state: &State, i: usize) -> Vec<Put> {
    let it = &state.places[i];
    let cost = r.below(65_536);
    match r.below(11) {
        9 => vec![add(s, at::LOAD_CREDIT + 8 * i, 8, r.pick(&[-1, 1, -2]))],
        10 => vec![add(s, at::WRITE_CREDIT + 8 * i, 8, r.pick(&[-1, 1, -2]))],
        8 => toggle_left(s, state, i),
        0 => toggle_held(s, state, i),
        1 => toggle_dirty(s, i),
        2 => resize(s, state, r.below(2) == 0),
        3 => closed(),
        4 => vec![
            set(at::LOAD + 2 * i, 2, cost),
            set(at::LOAD_CREDIT + 8 * i, 8, it.held * cost * UNIT),
        ],
        5 => vec![
            set(at::WRITE + 2 * i, 2, cost),
            set(
                at::WRITE_CREDIT + 8 * i,
                8,
                u64::from(it.dirty) * cost * UNIT,
            ),
        ],
        6 => vec![
            set(at::BLOCKS + i, 1, r.between(1, 16)),
            set(at::LOAD_CREDIT + 8 * i, 8, 0),
            set(at::WRITE_CREDIT + 8 * i, 8, 0),
        ],
        _ => vec![set(at::K, 4, state.held_blocks().wrapping_sub(r.below(2)))],
    }
}

/// Several fields that go together, mostly with the queue that goes with them; or the other rule, which goes with everything else.
pub fn together(r: &mut Random, s: &[u8], state: &State) -> Vec<Put> {
    let [i, j] = [some_entry(r, state), some_entry(r, state)];
    match r.below(18) {
        0..=3 => figures(r, s, [i, j]),
        4 | 5 => at_limits(r, s, state, i),
        6 => vec![set(at::RULE, 4, state.rule ^ 1)],
        7..=12 => queue(r, s, state, i),
        13 => item(r, s, state, i),
        _ => {
            let puts = item(r, s, state, i);
            mended(r, s, puts)
        }
    }
}
