//! Changes of a valid state's queue: its blocks in use, level, keys and heap. Each breaks one sentence of the rule, or none.

use bench::arrangement::FREE;
use bench::plain::{MOST_RISE, STATE_BYTES, at};
use bench::random::Random;
use bench::states::arrange;

use crate::changes::{Put, add, set};
use crate::rule::{Item, State};

/// What the credits of an item are worth a block.
pub fn worth(it: &Item) -> u64 {
    let credits = it.load_credit.saturating_add(it.write_credit);
    credits.checked_div(it.blocks).unwrap_or(0)
}

/// The bytes with some changes made.
fn changed(s: &[u8], puts: &[Put]) -> [u8; STATE_BYTES] {
    let mut bytes: [u8; STATE_BYTES] = s.try_into().expect("a state has so many bytes");
    puts.iter().for_each(|put| put.make(&mut bytes));
    bytes
}

/// The key of item `i` if it may have that, else the nearest that it may have.
fn near_key(state: &State, i: usize) -> u64 {
    let it = &state.places[i];
    if it.held != 1 || i as u64 >= state.n {
        return 0;
    }
    let most = state.level.saturating_add(worth(it));
    it.key.clamp(state.level, most)
}

/// Changes, and behind them those by which the queue goes with them: the blocks in use, keys that are in reach, a heap in order.
pub fn mended(r: &mut Random, s: &[u8], mut puts: Vec<Put>) -> Vec<Put> {
    let before = changed(s, &puts);
    let state = State::of(&before);
    let mut more = vec![set(at::USED, 4, state.held_blocks())];
    more.extend((0..256).map(|i| set(at::KEYS + 8 * i, 8, near_key(&state, i))));
    let mut bytes = changed(&before, &more);
    arrange(r, &mut bytes);
    more.extend(FREE.map(|at| set(at, 1, bytes[at].into())));
    puts.extend(more.into_iter().filter(|put| put.changes(&before)));
    puts
}

/// The level and every key raised or lowered by as much, to a level.
fn shift(state: &State, level: u64) -> Vec<Put> {
    let by = level.wrapping_sub(state.level);
    let held = (0..256).filter(|&i| state.places[i].held == 1);
    let keys = held.map(|i| (at::KEYS + 8 * i, state.places[i].key.wrapping_add(by)));
    let mut puts = vec![set(at::LEVEL, 8, level)];
    puts.extend(keys.map(|(at, key)| set(at, 8, key)));
    puts
}

/// Another level: the highest or one above it, the lowest, or any, with the keys; or without them, just below or above what the keys allow.
fn level(r: &mut Random, state: &State) -> Vec<Put> {
    let most = state.evictions * MOST_RISE;
    let any = r.below(most + 1);
    let held = || state.places.iter().filter(|it| it.held == 1);
    let highest = held().map(|it| it.key).min().unwrap_or(any);
    let lowest = held().map(|it| it.key.saturating_sub(worth(it))).max();
    let alone = [highest, highest + 1, lowest.unwrap_or(any)];
    match r.below(5) {
        0 => vec![set(at::LEVEL, 8, r.pick(&alone).min(most))],
        1 => vec![set(at::LEVEL, 8, alone[2].saturating_sub(1))],
        _ => shift(state, r.pick(&[most + 1, most + 1, most, 0, any])),
    }
}

/// Another key: of the first item below the level, of the last above what it is worth; or of any item, in reach, with the heap in order.
fn key(r: &mut Random, s: &[u8], state: &State, i: usize) -> Vec<Put> {
    let (Some(&first), Some(&last)) = (state.in_heap().first(), state.in_heap().last()) else {
        return vec![set(at::KEYS + 8 * i, 8, r.pick(&[1, 1 << 63]))];
    };
    let key_of = |item: u8| at::KEYS + 8 * usize::from(item);
    let more = r.pick(&[1, 1, 1 << 40, 1 << 63]);
    match r.below(4) {
        0 => {
            let below = state.level.saturating_sub(r.pick(&[1, 1, 1 << 40]));
            vec![set(key_of(first), 8, below)]
        }
        1 => {
            let most = state.level + worth(&state.places[usize::from(last)]);
            vec![set(key_of(last), 8, most + more)]
        }
        _ => {
            let it = &state.places[i];
            let put = set(at::KEYS + 8 * i, 8, state.level + r.below(worth(it) + 1));
            mended(r, s, vec![put])
        }
    }
}

/// The heap with an item twice, with one that is not held, out of order, arranged otherwise, or with a byte behind it.
fn heap(r: &mut Random, s: &[u8], state: &State) -> Vec<Put> {
    let items = state.in_heap();
    let size = items.len();
    let any = r.below(256) as usize;
    let strange = (0..256)
        .map(|i| (any + i) % 256)
        .find(|&i| state.places[i].held == 0);
    let past = state.n.min(255).max(any as u64);
    let at_item = |j: usize| at::HEAP + j;
    let at_place = |item: u8| at::PLACES + usize::from(item);
    let below = 1 + r.below(size.max(2) as u64 - 1) as usize;
    let above = (below - 1) / 2;
    match r.below(7) {
        0 if size > 1 => vec![set(at_item(below), 1, items[above].into())],
        1 if size > 0 => vec![set(at_item(0), 1, strange.unwrap_or(0) as u64)],
        2 if size > 0 => vec![set(at_item(0), 1, past)],
        3 if size > 1 => vec![
            set(at_item(below), 1, items[above].into()),
            set(at_item(above), 1, items[below].into()),
            set(at_place(items[below]), 1, above as u64),
            set(at_place(items[above]), 1, below as u64),
        ],
        4 if size < 256 => {
            let behind = size + r.below((256 - size) as u64) as usize;
            let place = r.pick(&[size, 255, behind]);
            vec![set(at_item(place), 1, r.between(1, 255))]
        }
        5 if size > 0 => {
            let item = r.pick(items);
            vec![add(s, at_place(item), 1, r.pick(&[1, -1, 7, 128]))]
        }
        _ => mended(r, s, Vec::new()),
    }
}

/// One change of the queue, at item `i` where it is of one item.
pub fn queue(r: &mut Random, s: &[u8], state: &State, i: usize) -> Vec<Put> {
    match r.below(10) {
        0 => vec![add(s, at::USED, 4, r.pick(&[1, -1, 1 << 16]))],
        1 | 2 => level(r, state),
        3 | 4 => key(r, s, state, i),
        5 => vec![set(at::PLACES + i, 1, r.between(1, 255))],
        _ => heap(r, s, state),
    }
}
