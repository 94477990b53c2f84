//! The recorder's four calls on a state in plain Rust: the same bytes (docs/LAYOUT.md), the same checks, the same answers as the
//! proved library, which this is the yardstick for. The whole state is tested at every step, close and report; the rule
//! then works on the lent bytes in place.

use std::fmt::{self, Write};

use crate::heap::Heap;

pub const STATE_BYTES: usize = 11_408;
/// One unit of cost in shares: the least common multiple of 1 to 16.
pub const UNIT: u64 = 720_720;
pub const MAX_STEPS: u32 = 1_000_000;
/// The most that the level can rise at an eviction: both costs of an item of one block, in shares.
pub const MOST_RISE: u64 = 131_070 * UNIT;

// Answers: 0 is taken, the others are the papers' refusals.
pub const TAKEN: u32 = 0;
pub const OUT_OF_RANGE: u32 = 3; // off the tape
pub const UNKNOWN_ITEM: u32 = 6; // stranger
pub const ITEM_TOO_LARGE: u32 = 7; // too bulky
pub const LOG_FULL: u32 = 8; // log full
pub const CLOSED: u32 = 9; // closed
pub const SHORT_PAGE: u32 = 15; // short page
pub const INVALID_STATE: u32 = 17; // foul locker
pub const UNKNOWN_RULE: u32 = 18; // odd rule
pub const NOT_NEXT_NUMBER: u32 = 19; // misnumbered
pub const RETIRED_ITEM: u32 = 20; // gone

pub const READ: u32 = b'R' as u32;
pub const WRITE: u32 = b'W' as u32;
pub const FLUSH: u32 = b'L' as u32; // landing
pub const ARRIVE: u32 = b'A' as u32;
pub const RETIRE: u32 = b'Q' as u32;

/// A step's numbers: kind, item, minutes, blocks, load and write.
pub type Numbers = [u32; 6];

/// A step by its first three; the others are an arrival's.
pub fn of_three([kind, item, minutes]: [u32; 3]) -> Numbers {
    [kind, item, minutes, 0, 0, 0]
}

// The rules of deduction: from which of its credits an item loses first when another is evicted.
pub const WRITE_FIRST: u32 = 0;
pub const LOAD_FIRST: u32 = 1;

/// The number of the layout, which stands at the head of the bytes.
pub const FORMAT: u32 = 5;

/// Where each field stands.
pub mod at {
    pub const FORMAT: usize = 0;
    pub const K: usize = 4;
    pub const N: usize = 8;
    pub const CLOSED: usize = 10;
    pub const STEPS: usize = 12;
    pub const HITS: usize = 16;
    pub const LOADS: usize = 20;
    pub const EVICTIONS: usize = 24;
    pub const DIRTY_EVICTIONS: usize = 28;
    pub const WRITEBACKS: usize = 32;
    pub const FLUSHES: usize = 36;
    pub const LOAD_COST: usize = 40;
    pub const WRITE_COST: usize = 48;
    pub const DIRTY: usize = 56;
    pub const LOAD_CREDIT: usize = 88;
    pub const WRITE_CREDIT: usize = 2136;
    pub const MINUTES: usize = 4184;
    pub const ITEM_LOADS: usize = 5208;
    pub const ITEM_WRITEBACKS: usize = 6232;
    pub const LOAD: usize = 7256;
    pub const WRITE: usize = 7768;
    pub const BLOCKS: usize = 8280;
    pub const HELD: usize = 8536;
    pub const RULE: usize = 8792;
    pub const LEFT: usize = 8796;
    pub const ARRIVALS: usize = 8828;
    pub const RETIREMENTS: usize = 8832;
    pub const USED: usize = 8836;
    pub const LEVEL: usize = 8840;
    pub const KEYS: usize = 8848;
    pub const HEAP: usize = 10896;
    pub const PLACES: usize = 11152;
}

type Bytes = [u8; STATE_BYTES];

fn get16(s: &Bytes, at: usize) -> u16 {
    u16::from_le_bytes(s[at..at + 2].try_into().unwrap())
}

fn get32(s: &Bytes, at: usize) -> u32 {
    u32::from_le_bytes(s[at..at + 4].try_into().unwrap())
}

fn get64(s: &Bytes, at: usize) -> u64 {
    u64::from_le_bytes(s[at..at + 8].try_into().unwrap())
}

fn add32(s: &mut Bytes, at: usize, more: u32) {
    let sum = get32(s, at) + more;
    s[at..at + 4].copy_from_slice(&sum.to_le_bytes());
}

fn add64(s: &mut Bytes, at: usize, more: u64) {
    let sum = get64(s, at) + more;
    s[at..at + 8].copy_from_slice(&sum.to_le_bytes());
}

/// The 256 numbers of `W` bytes from the place `AT` on.
fn run<const AT: usize, const W: usize>(s: &Bytes) -> &[[u8; W]; 256] {
    s[AT..AT + 256 * W].as_chunks().0.try_into().unwrap()
}

fn run_mut<const AT: usize, const W: usize>(s: &mut Bytes) -> &mut [[u8; W]; 256] {
    s[AT..AT + 256 * W].as_chunks_mut().0.try_into().unwrap()
}

/// What one place of the state says of its item. The credits are as last reckoned; what stands of them follows from key and level.
struct Item {
    blocks: u8,
    load: u16,
    write: u16,
    held: u8,
    load_credit: u64,
    write_credit: u64,
    key: u64,
}

fn item(s: &Bytes, i: usize) -> Item {
    Item {
        blocks: s[at::BLOCKS + i],
        load: u16::from_le_bytes(run::<{ at::LOAD }, 2>(s)[i]),
        write: u16::from_le_bytes(run::<{ at::WRITE }, 2>(s)[i]),
        held: s[at::HELD + i],
        load_credit: u64::from_le_bytes(run::<{ at::LOAD_CREDIT }, 8>(s)[i]),
        write_credit: u64::from_le_bytes(run::<{ at::WRITE_CREDIT }, 8>(s)[i]),
        key: key(s, i),
    }
}

fn key(s: &Bytes, i: usize) -> u64 {
    u64::from_le_bytes(run::<{ at::KEYS }, 8>(s)[i])
}

fn set_key(s: &mut Bytes, i: usize, key: u64) {
    run_mut::<{ at::KEYS }, 8>(s)[i] = key.to_le_bytes();
}

fn set_load_credit(s: &mut Bytes, i: usize, credit: u64) {
    run_mut::<{ at::LOAD_CREDIT }, 8>(s)[i] = credit.to_le_bytes();
}

fn set_write_credit(s: &mut Bytes, i: usize, credit: u64) {
    run_mut::<{ at::WRITE_CREDIT }, 8>(s)[i] = credit.to_le_bytes();
}

/// The four words of the marks at a place: of the dirty items, or of those that have left.
fn words(s: &Bytes, at: usize) -> [u64; 4] {
    [0, 1, 2, 3].map(|w| get64(s, at + 8 * w))
}

fn count_set(words: [u64; 4]) -> u32 {
    words.iter().map(|word| word.count_ones()).sum()
}

fn is_marked(s: &Bytes, at: usize, i: usize) -> bool {
    s[at + i / 8] >> (i % 8) & 1 == 1
}

fn mark(s: &mut Bytes, at: usize, i: usize) {
    s[at + i / 8] |= 1 << (i % 8);
}

/// Whether every byte of the places from `n` on is 0.
fn blank_past<const AT: usize, const W: usize>(s: &Bytes, n: usize) -> bool {
    static BLANK: [u8; 2048] = [0; 2048];
    let past = run::<AT, W>(s)[n..].as_flattened();
    past == &BLANK[..past.len()]
}

fn sum32<const AT: usize>(s: &Bytes) -> u64 {
    run::<AT, 4>(s)
        .iter()
        .map(|&x| u64::from(u32::from_le_bytes(x)))
        .sum()
}

/// Numbers that stand for themselves are in range: the format, the rule, `k`, `n`, the steps, and whether it is closed.
fn ranges_ok(s: &Bytes) -> bool {
    get32(s, at::FORMAT) == FORMAT
        && get32(s, at::RULE) <= LOAD_FIRST
        && (1..=4096).contains(&get32(s, at::K))
        && get16(s, at::N) <= 256
        && get32(s, at::STEPS) <= MAX_STEPS
        && get16(s, at::CLOSED) <= 1
}

/// The totals go together, and with the marks. Once this is so, evictions are at most loads, and these at most 1,000,000.
fn totals_ok(s: &Bytes, dirty: [u64; 4], left: [u64; 4]) -> bool {
    let [steps, hits, loads, flushes, evictions] =
        [at::STEPS, at::HITS, at::LOADS, at::FLUSHES, at::EVICTIONS]
            .map(|at| u64::from(get32(s, at)));
    let [dirty_evictions, writebacks, arrivals, retirements] = [
        at::DIRTY_EVICTIONS,
        at::WRITEBACKS,
        at::ARRIVALS,
        at::RETIREMENTS,
    ]
    .map(|at| u64::from(get32(s, at)));
    let dirty_count = u64::from(count_set(dirty));
    hits + loads + flushes + arrivals + retirements == steps
        && retirements == u64::from(count_set(left))
        && evictions <= loads
        && dirty_evictions <= evictions
        && dirty_evictions <= writebacks
        && writebacks + dirty_count <= steps
        && get64(s, at::LOAD_COST) <= 65_535 * loads
        && get64(s, at::WRITE_COST) <= 65_535 * writebacks
        && sum32::<{ at::ITEM_LOADS }>(s) == loads
        && sum32::<{ at::ITEM_WRITEBACKS }>(s) == writebacks
        && (get16(s, at::CLOSED) == 0 || dirty_count == 0)
        && get64(s, at::LEVEL) <= evictions * MOST_RISE
}

/// Places past the catalogue are empty, and so is the heap behind its `size`; minutes are at most those of the steps.
// Apart from the pass over the items, which runs faster so.
#[inline(never)]
fn rows_ok(s: &Bytes, n: usize, size: usize) -> bool {
    let blank = blank_past::<{ at::LOAD_CREDIT }, 8>(s, n)
        && blank_past::<{ at::WRITE_CREDIT }, 8>(s, n)
        && blank_past::<{ at::KEYS }, 8>(s, n)
        && blank_past::<{ at::MINUTES }, 4>(s, n)
        && blank_past::<{ at::ITEM_LOADS }, 4>(s, n)
        && blank_past::<{ at::ITEM_WRITEBACKS }, 4>(s, n)
        && blank_past::<{ at::LOAD }, 2>(s, n)
        && blank_past::<{ at::WRITE }, 2>(s, n)
        && blank_past::<{ at::BLOCKS }, 1>(s, n)
        && blank_past::<{ at::HELD }, 1>(s, n)
        && blank_past::<{ at::PLACES }, 1>(s, n)
        && blank_past::<{ at::HEAP }, 1>(s, size);
    let minutes = &run::<{ at::MINUTES }, 4>(s)[..n];
    let most = 1440 * get32(s, at::STEPS);
    blank
        && !minutes
            .iter()
            .fold(false, |over, &m| over | (u32::from_le_bytes(m) > most))
}

/// A held item's credits are multiples of its blocks and at most its costs, a clean one has no write credit, and its key is the level or
/// above it by no more than its credits a block.
fn credits_ok(it: &Item, dirty: bool, level: u64) -> bool {
    let blocks = u64::from(it.blocks);
    let above = it.key.wrapping_sub(level);
    it.load_credit <= u64::from(it.load) * UNIT
        && it.write_credit <= u64::from(it.write) * UNIT
        && it.load_credit.is_multiple_of(blocks)
        && it.write_credit.is_multiple_of(blocks)
        && (it.write_credit == 0 || dirty)
        && it.key >= level
        && above <= MOST_RISE
        && above * blocks <= it.load_credit + it.write_credit
}

/// A held item stands in the heap of `size` at its own place, and does not go before the one above it. If this is so of `size` items,
/// the heap has each of them once and nothing else.
fn place_ok(s: &Bytes, i: usize, own: u64, size: usize) -> bool {
    let heap = &run::<{ at::HEAP }, 1>(s)[..size];
    let place = usize::from(s[at::PLACES + i]);
    if place >= heap.len() || usize::from(heap[place][0]) != i {
        return false;
    }
    let above = usize::from(heap[place.saturating_sub(1) / 2][0]);
    place == 0 || (key(s, above), above) < (own, i)
}

/// What the held items come to.
#[derive(Default)]
struct Held {
    count: usize,
    blocks: u32,
    words: [u64; 4],
}

/// The held items, if each of the `n` of the catalogue is as it should be, and a heap of `size` has those that are held.
fn held_if_ok(s: &Bytes, n: usize, size: usize, dirty: [u64; 4]) -> Option<Held> {
    let level = get64(s, at::LEVEL);
    let mut held = Held::default();
    for i in 0..n {
        let it = item(s, i);
        if !(1..=16).contains(&it.blocks) || it.held > 1 {
            return None;
        }
        if it.held == 0 {
            let place = u64::from(s[at::PLACES + i]);
            if it.load_credit | it.write_credit | it.key | place != 0 {
                return None;
            }
            continue;
        }
        let is_dirty = dirty[i / 64] >> (i % 64) & 1 == 1;
        if !credits_ok(&it, is_dirty, level) || !place_ok(s, i, it.key, size) {
            return None;
        }
        held.count += 1;
        held.blocks += u32::from(it.blocks);
        held.words[i / 64] |= 1 << (i % 64);
    }
    Some(held)
}

/// The words with the marks of the first `n` numbers set.
fn first_marks(n: usize) -> [u64; 4] {
    [0, 1, 2, 3].map(|w| match n.saturating_sub(64 * w) {
        0 => 0,
        more @ 1..64 => (1 << more) - 1,
        _ => u64::MAX,
    })
}

/// Whether the state is valid (papers 01 and 02: not foul).
fn is_valid(s: &Bytes) -> bool {
    let [dirty, left] = [at::DIRTY, at::LEFT].map(|at| words(s, at));
    if !ranges_ok(s) || !totals_ok(s, dirty, left) {
        return false;
    }
    let n = usize::from(get16(s, at::N));
    let size = held_count(s);
    if size > n || !rows_ok(s, n, size) {
        return false;
    }
    let Some(held) = held_if_ok(s, n, size, dirty) else {
        return false;
    };
    let known = first_marks(n);
    let marks = (0..4).all(|w| {
        let held = held.words[w];
        dirty[w] & !held == 0 && left[w] & held == 0 && left[w] & !known[w] == 0
    });
    marks
        && held.count == size
        && held.blocks == get32(s, at::USED)
        && held.blocks <= get32(s, at::K)
}

/// How many items are held: those that were loaded and not dropped. So many places of the heap are in use.
fn held_count(s: &Bytes) -> usize {
    (get32(s, at::LOADS) - get32(s, at::EVICTIONS)) as usize
}

/// The credits of a held item, load and write, that stand: those last reckoned, less what it has lost since, from one first and from the
/// other what is lacking, by the rule of the state. The key less the level is what a block has left.
fn standing(s: &Bytes, it: &Item) -> [u64; 2] {
    let has = u64::from(it.blocks) * (it.key - get64(s, at::LEVEL));
    if get32(s, at::RULE) == LOAD_FIRST {
        let write = it.write_credit.min(has);
        [has - write, write]
    } else {
        let load = it.load_credit.min(has);
        [load, has - load]
    }
}

/// An item's credits are reckoned anew: its key is their sum a block, above the level.
fn reckon(s: &mut Bytes, i: usize, [load, write]: [u64; 2]) {
    let blocks = u64::from(s[at::BLOCKS + i]);
    let level = get64(s, at::LEVEL);
    set_load_credit(s, i, load);
    set_write_credit(s, i, write);
    set_key(s, i, level + (load + write) / blocks);
}

/// Item `i` is written back: it pays its write cost and is clean.
fn write_back(s: &mut Bytes, i: usize) {
    let cost = u16::from_le_bytes(run::<{ at::WRITE }, 2>(s)[i]);
    add32(s, at::WRITEBACKS, 1);
    add64(s, at::WRITE_COST, u64::from(cost));
    let count = &mut run_mut::<{ at::ITEM_WRITEBACKS }, 4>(s)[i];
    *count = (u32::from_le_bytes(*count) + 1).to_le_bytes();
    s[at::DIRTY + i / 8] &= !(1 << (i % 8));
}

/// Every dirty item is written back, and reckoned anew without write credit. Nothing would change for a clean one.
fn flush(s: &mut Bytes) {
    let size = held_count(s);
    for (w, mut word) in words(s, at::DIRTY).into_iter().enumerate() {
        while word != 0 {
            let i = 64 * w + word.trailing_zeros() as usize;
            word &= word - 1;
            write_back(s, i);
            let [load, _] = standing(s, &item(s, i));
            reckon(s, i, [load, 0]);
            Heap::of(s).mend(size, i);
        }
    }
}

/// Evicts the held item of least key. The level rises to that key, which is what the others lose for each of their blocks.
fn evict(s: &mut Bytes) {
    let victim = usize::from(s[at::HEAP]);
    let level = key(s, victim);
    drop_item(s, victim);
    s[at::LEVEL..at::LEVEL + 8].copy_from_slice(&level.to_le_bytes());
}

/// Drops a held item: a dirty one pays, and it has no credits and no key then. The others are not charged.
fn drop_item(s: &mut Bytes, i: usize) {
    let size = held_count(s);
    Heap::of(s).remove(size, i);
    add32(s, at::EVICTIONS, 1);
    if is_marked(s, at::DIRTY, i) {
        add32(s, at::DIRTY_EVICTIONS, 1);
        write_back(s, i);
    }
    let used = get32(s, at::USED) - u32::from(s[at::BLOCKS + i]);
    s[at::USED..at::USED + 4].copy_from_slice(&used.to_le_bytes());
    set_load_credit(s, i, 0);
    set_write_credit(s, i, 0);
    set_key(s, i, 0);
    s[at::HELD + i] = 0;
}

/// An item arrives at the next number.
fn arrive(s: &mut Bytes, n: usize, [blocks, load, write]: [u32; 3]) {
    s[at::BLOCKS + n] = blocks as u8;
    run_mut::<{ at::LOAD }, 2>(s)[n] = (load as u16).to_le_bytes();
    run_mut::<{ at::WRITE }, 2>(s)[n] = (write as u16).to_le_bytes();
    s[at::N..at::N + 2].copy_from_slice(&(n as u16 + 1).to_le_bytes());
    add32(s, at::ARRIVALS, 1);
}

/// An item leaves: dropped if it is held, and marked.
fn retire(s: &mut Bytes, i: usize) {
    if s[at::HELD + i] == 1 {
        drop_item(s, i);
    }
    mark(s, at::LEFT, i);
    add32(s, at::RETIREMENTS, 1);
}

/// A hit, or a load once there is room; then the load credit is full, and for a write the write credit too.
fn request(s: &mut Bytes, i: usize, write: bool) {
    let it = item(s, i);
    let full = [it.load, it.write].map(|cost| u64::from(cost) * UNIT);
    if it.held == 1 {
        add32(s, at::HITS, 1);
        let of_write = if write { full[1] } else { standing(s, &it)[1] };
        reckon(s, i, [full[0], of_write]);
        let size = held_count(s);
        Heap::of(s).mend(size, i);
        return;
    }
    let blocks = u32::from(it.blocks);
    let k = get32(s, at::K);
    while get32(s, at::USED) + blocks > k {
        evict(s);
    }
    s[at::HELD + i] = 1;
    add32(s, at::USED, blocks);
    reckon(s, i, [full[0], if write { full[1] } else { 0 }]);
    let size = held_count(s);
    Heap::of(s).insert(size, i);
    add32(s, at::LOADS, 1);
    add64(s, at::LOAD_COST, u64::from(it.load));
    let count = &mut run_mut::<{ at::ITEM_LOADS }, 4>(s)[i];
    *count = (u32::from_le_bytes(*count) + 1).to_le_bytes();
}

/// Whether a step's kind is one, and its values are in range.
fn in_range([kind, item, minutes, blocks, load, write]: Numbers) -> bool {
    match kind {
        READ | RETIRE => item <= 255,
        WRITE => item <= 255 && minutes <= 1440,
        FLUSH => true,
        ARRIVE => item <= 255 && (1..=16).contains(&blocks) && load <= 65_535 && write <= 65_535,
        _ => false,
    }
}

/// What the table of refusals says of a step on a valid state.
fn refusal(s: &Bytes, numbers: Numbers) -> u32 {
    let [kind, number, ..] = numbers;
    if get16(s, at::CLOSED) == 1 {
        return CLOSED;
    }
    if get32(s, at::STEPS) >= MAX_STEPS {
        return LOG_FULL;
    }
    if !in_range(numbers) {
        return OUT_OF_RANGE;
    }
    let i = number as usize;
    let n = usize::from(get16(s, at::N));
    match kind {
        FLUSH => TAKEN,
        ARRIVE if i == n => TAKEN,
        ARRIVE => NOT_NEXT_NUMBER,
        _ if i >= n => UNKNOWN_ITEM,
        _ if is_marked(s, at::LEFT, i) => RETIRED_ITEM,
        RETIRE => TAKEN,
        _ if u32::from(s[at::BLOCKS + i]) > get32(s, at::K) => ITEM_TOO_LARGE,
        _ => TAKEN,
    }
}

/// Takes a step that is not refused.
fn take(s: &mut Bytes, [kind, number, minutes, values @ ..]: Numbers) {
    let i = number as usize;
    match kind {
        FLUSH => {
            flush(s);
            add32(s, at::FLUSHES, 1);
        }
        ARRIVE => arrive(s, i, values),
        RETIRE => retire(s, i),
        _ => request(s, i, kind == WRITE),
    }
    if kind == WRITE {
        mark(s, at::DIRTY, i);
        let sofar = &mut run_mut::<{ at::MINUTES }, 4>(s)[i];
        *sofar = (u32::from_le_bytes(*sofar) + minutes).to_le_bytes();
    }
    add32(s, at::STEPS, 1);
}

/// Opens a cache of `k` blocks, with a rule of deduction, for a catalog of 5 bytes an item.
pub fn open(state: &mut [u8], k: u32, rule: u32, catalog: &[u8]) -> u32 {
    let Ok(s): Result<&mut Bytes, _> = state.try_into() else {
        return INVALID_STATE;
    };
    let (items, rest) = catalog.as_chunks::<5>();
    if !(1..=4096).contains(&k)
        || items.len() > 256
        || !rest.is_empty()
        || items.iter().any(|it| !(1..=16).contains(&it[0]))
    {
        return OUT_OF_RANGE;
    }
    if rule > LOAD_FIRST {
        return UNKNOWN_RULE;
    }
    s.fill(0);
    add32(s, at::FORMAT, FORMAT);
    add32(s, at::K, k);
    add32(s, at::RULE, rule);
    s[at::N..at::N + 2].copy_from_slice(&(items.len() as u16).to_le_bytes());
    for (i, &[blocks, load_low, load_high, write_low, write_high]) in items.iter().enumerate() {
        s[at::BLOCKS + i] = blocks;
        run_mut::<{ at::LOAD }, 2>(s)[i] = [load_low, load_high];
        run_mut::<{ at::WRITE }, 2>(s)[i] = [write_low, write_high];
    }
    TAKEN
}

/// Takes one step.
pub fn step(state: &mut [u8], numbers: Numbers) -> u32 {
    let Ok(s): Result<&mut Bytes, _> = state.try_into() else {
        return INVALID_STATE;
    };
    if !is_valid(s) {
        return INVALID_STATE;
    }
    let answer = refusal(s, numbers);
    if answer == TAKEN {
        take(s, numbers);
    }
    answer
}

/// Closes the log: what is dirty is written back.
pub fn close(state: &mut [u8]) -> u32 {
    let Ok(s): Result<&mut Bytes, _> = state.try_into() else {
        return INVALID_STATE;
    };
    if !is_valid(s) {
        return INVALID_STATE;
    }
    if get16(s, at::CLOSED) == 1 {
        return CLOSED;
    }
    flush(s);
    s[at::CLOSED] = 1;
    TAKEN
}

/// The report of a valid state, open or closed.
fn write_report(out: &mut String, s: &Bytes) -> fmt::Result {
    writeln!(out, "sail tenths loads writebacks")?;
    for i in 0..get16(s, at::N) as usize {
        let [minutes, loads, writebacks] =
            [at::MINUTES, at::ITEM_LOADS, at::ITEM_WRITEBACKS].map(|at| get32(s, at + 4 * i));
        let tenths = minutes / 6;
        writeln!(out, "{i} {tenths} {loads} {writebacks}")?;
    }
    let [hits, loads, evictions, dirty_evictions, writebacks] = [
        at::HITS,
        at::LOADS,
        at::EVICTIONS,
        at::DIRTY_EVICTIONS,
        at::WRITEBACKS,
    ]
    .map(|at| get32(s, at));
    let [load_cost, write_cost] = [at::LOAD_COST, at::WRITE_COST].map(|at| get64(s, at));
    let total = load_cost + write_cost;
    writeln!(
        out,
        "\nhits loads loadcost drops dirtydrops writebacks writecost total"
    )?;
    writeln!(
        out,
        "{hits} {loads} {load_cost} {evictions} {dirty_evictions} {writebacks} {write_cost} {total}"
    )
}

/// Writes the report at the start of the page, and tells its length.
pub fn report(state: &[u8], page: &mut [u8], length: &mut usize) -> u32 {
    let Ok(s): Result<&Bytes, _> = state.try_into() else {
        return INVALID_STATE;
    };
    if !is_valid(s) {
        return INVALID_STATE;
    }
    let mut text = String::new();
    write_report(&mut text, s).expect("a String takes every write");
    let Some(start) = page.get_mut(..text.len()) else {
        return SHORT_PAGE;
    };
    start.copy_from_slice(text.as_bytes());
    *length = text.len();
    TAKEN
}
