//! How the heap of a state is arranged is free. So two states are compared but for these bytes, and the arrangement of each is tested by
//! what is said of it (paper 02, and docs/LAYOUT.md): it has each held item once and nothing else, in order of key and then of number, with the
//! place of each beside it, and 0 in every byte that is not in use.

use std::ops::Range;

use crate::plain::{STATE_BYTES, at};

/// The bytes that are free: the items by their places, and the place of each item.
pub const FREE: Range<usize> = at::HEAP..STATE_BYTES;

/// Whether two states have the same bytes, those of the arrangement apart. Bytes that are no state are compared whole.
pub fn same_apart(a: &[u8], b: &[u8]) -> bool {
    if a.len() != STATE_BYTES || b.len() != STATE_BYTES {
        return a == b;
    }
    a[..FREE.start] == b[..FREE.start]
}

/// What is wrong with the arrangement of a state, if anything is.
pub fn fault(s: &[u8]) -> Option<String> {
    let held: Vec<usize> = (0..256).filter(|&i| s[at::HELD + i] == 1).collect();
    let items = &s[at::HEAP..at::HEAP + 256];
    let places = &s[at::PLACES..at::PLACES + 256];
    let (used, unused) = items.split_at(held.len());
    let mut sorted: Vec<usize> = used.iter().map(|&item| item.into()).collect();
    sorted.sort();
    if sorted != held {
        return Some(format!("the heap has {sorted:?}, held are {held:?}"));
    }
    if unused.iter().any(|&byte| byte != 0) {
        return Some("a byte behind the heap is not 0".to_string());
    }
    let order = |place: usize| {
        let item = usize::from(used[place]);
        let bytes = &s[at::KEYS + 8 * item..][..8];
        (u64::from_le_bytes(bytes.try_into().unwrap()), item)
    };
    if let Some(place) = (1..used.len()).find(|&j| order((j - 1) / 2) > order(j)) {
        return Some(format!("the item at {place} goes before the one above it"));
    }
    let mut expected = [0; 256];
    for (place, &item) in used.iter().enumerate() {
        expected[usize::from(item)] = place as u8;
    }
    let wrong = (0..256).find(|&i| places[i] != expected[i])?;
    Some(format!("the place of item {wrong} is {}", places[wrong]))
}
