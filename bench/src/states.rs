//! Valid states that need not be ones that a log leads to: any items held, any credits and keys, any level, figures at the ends of their
//! ranges, and the heap in any order that it may have.

use crate::heap::Heap;
use crate::plain::{self, MAX_STEPS, MOST_RISE, STATE_BYTES, UNIT, at};
use crate::random::{Random, catalog, some_k, some_rule};

fn put32(s: &mut [u8], at: usize, value: u32) {
    s[at..at + 4].copy_from_slice(&value.to_le_bytes());
}

fn put64(s: &mut [u8], at: usize, value: u64) {
    s[at..at + 8].copy_from_slice(&value.to_le_bytes());
}

/// Shares out `total` among the first `n` numbers of the run at `at`.
fn share_out(r: &mut Random, s: &mut [u8], at: usize, n: usize, total: u32) {
    let mut rest = total;
    for i in 0..n {
        let part = if i + 1 == n {
            rest
        } else {
            r.below(u64::from(rest) + 1) as u32
        };
        put32(s, at + 4 * i, part);
        rest -= part;
    }
}

/// A credit of an item: none, full, or any multiple of its blocks.
fn credit(r: &mut Random, blocks: u8, cost: [u8; 2]) -> u64 {
    let most = u64::from(u16::from_le_bytes(cost)) * UNIT / u64::from(blocks);
    let any = r.below(most + 1);
    r.pick(&[0, most, any, any]) * u64::from(blocks)
}

/// How many items are held, how many of these are dirty, and how many have left.
#[derive(Default)]
struct Marked {
    held: u32,
    dirty: u32,
    left: u32,
}

/// Puts some items into an empty cache of `k` blocks, and has some others leave.
fn fill(r: &mut Random, s: &mut [u8], k: u32, catalog: &[u8], closed: bool) -> Marked {
    let mut used = 0;
    let mut marked = Marked::default();
    let leaves = r.pick(&[2, 10, 1000]);
    for (i, &[blocks, load_low, load_high, write_low, write_high]) in
        catalog.as_chunks().0.iter().enumerate()
    {
        if r.one_in(leaves) {
            marked.left += 1;
            s[at::LEFT + i / 8] |= 1 << (i % 8);
            continue;
        }
        if used + u32::from(blocks) > k || r.one_in(4) {
            continue;
        }
        used += u32::from(blocks);
        marked.held += 1;
        s[at::HELD + i] = 1;
        let load_credit = credit(r, blocks, [load_low, load_high]);
        put64(s, at::LOAD_CREDIT + 8 * i, load_credit);
        if !closed && r.one_in(2) {
            marked.dirty += 1;
            s[at::DIRTY + i / 8] |= 1 << (i % 8);
            let write_credit = credit(r, blocks, [write_low, write_high]);
            put64(s, at::WRITE_CREDIT + 8 * i, write_credit);
        }
    }
    put32(s, at::USED, used);
    marked
}

fn get64(s: &[u8], at: usize) -> u64 {
    u64::from_le_bytes(s[at..at + 8].try_into().unwrap())
}

/// Gives the state a level that so many evictions can have led to, and each held item a key from the level to what its credits are worth above it.
fn key(r: &mut Random, s: &mut [u8], evictions: u32) {
    let most = u64::from(evictions) * MOST_RISE;
    let any = r.below(most + 1);
    let level = r.pick(&[0, most, any, any]);
    put64(s, at::LEVEL, level);
    for i in 0..256 {
        if s[at::HELD + i] == 1 {
            let credits = [at::LOAD_CREDIT, at::WRITE_CREDIT].map(|at| get64(s, at + 8 * i));
            let worth = (credits[0] + credits[1]) / u64::from(s[at::BLOCKS + i]);
            let any = r.below(worth + 1);
            put64(s, at::KEYS + 8 * i, level + r.pick(&[0, worth, any, any]));
        }
    }
}

/// Puts the held items into the heap, in any order.
pub fn arrange(r: &mut Random, s: &mut [u8; STATE_BYTES]) {
    let mut held: Vec<usize> = (0..256).filter(|&i| s[at::HELD + i] == 1).collect();
    s[at::HEAP..].fill(0);
    let mut heap = Heap::of(s);
    for size in 0..held.len() {
        let place = size + r.below((held.len() - size) as u64) as usize;
        held.swap(size, place);
        heap.insert(size, held[size]);
    }
}

/// Figures that go with so many items held, dirty and gone. Answers the evictions.
fn count(r: &mut Random, s: &mut [u8], n: usize, Marked { held, dirty, left }: Marked) -> u32 {
    let some = if n == 0 { 0 } else { u32::MAX };
    let evictions = some & r.pick(&[0, 1, 5, 1000, 300_000]);
    let writebacks = some & r.pick(&[0, 1, 5, 1000, 300_000]);
    let loads = held + evictions;
    let dirty_evictions = r.below(u64::from(evictions.min(writebacks)) + 1) as u32;
    let least = (loads + left).max(writebacks + dirty);
    let steps = r.pick(&[least, least + 1, MAX_STEPS - 1, MAX_STEPS]);
    let rest = u64::from(steps - loads - left);
    let hits = r.below(rest + 1) as u32;
    let flushes = r.below(rest - u64::from(hits) + 1) as u32;
    for (at, count) in [
        (at::STEPS, steps),
        (at::HITS, hits),
        (at::LOADS, loads),
        (at::FLUSHES, flushes),
        (at::ARRIVALS, steps - loads - left - hits - flushes),
        (at::RETIREMENTS, left),
        (at::EVICTIONS, evictions),
        (at::DIRTY_EVICTIONS, dirty_evictions),
        (at::WRITEBACKS, writebacks),
    ] {
        put32(s, at, count);
    }
    for (at, count) in [(at::LOAD_COST, loads), (at::WRITE_COST, writebacks)] {
        let most = 65_535 * u64::from(count);
        let any = r.below(most + 1);
        put64(s, at, r.pick(&[0, most, any]));
    }
    share_out(r, s, at::ITEM_LOADS, n, loads);
    share_out(r, s, at::ITEM_WRITEBACKS, n, writebacks);
    for i in 0..n {
        put32(s, at::MINUTES + 4 * i, r.pick(&[0, 1, 1440]) * steps);
    }
    evictions
}

/// A valid state with a catalog of `n` items.
pub fn valid(r: &mut Random, n: usize) -> Vec<u8> {
    let catalog = catalog(r, n);
    let k = some_k(r, &catalog);
    let mut s = [0; STATE_BYTES];
    assert_eq!(plain::open(&mut s, k, some_rule(r), &catalog), 0);
    let closed = r.one_in(20);
    s[at::CLOSED] = u8::from(closed);
    let marked = fill(r, &mut s, k, &catalog, closed);
    let evictions = count(r, &mut s, n, marked);
    key(r, &mut s, evictions);
    arrange(r, &mut s);
    s.to_vec()
}
