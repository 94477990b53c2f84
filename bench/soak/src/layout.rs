//! The fields of a state by the table of docs/LAYOUT.md, and numbers at places of the bytes.

use bench::plain::{STATE_BYTES, at};

pub struct Field {
    pub name: &'static str,
    pub at: usize,
    pub width: usize,
    pub entries: usize,
}

const fn field(name: &'static str, at: usize, width: usize, entries: usize) -> Field {
    Field {
        name,
        at,
        width,
        entries,
    }
}

pub const FIELDS: [Field; 32] = [
    field("the number of the layout", at::FORMAT, 4, 1),
    field("k", at::K, 4, 1),
    field("n", at::N, 2, 1),
    field("closed", at::CLOSED, 2, 1),
    field("steps", at::STEPS, 4, 1),
    field("hits", at::HITS, 4, 1),
    field("loads", at::LOADS, 4, 1),
    field("evictions", at::EVICTIONS, 4, 1),
    field("dirtyevictions", at::DIRTY_EVICTIONS, 4, 1),
    field("writebacks", at::WRITEBACKS, 4, 1),
    field("flushes", at::FLUSHES, 4, 1),
    field("loadcost", at::LOAD_COST, 8, 1),
    field("writecost", at::WRITE_COST, 8, 1),
    field("dirty", at::DIRTY, 8, 4),
    field("loadcredit", at::LOAD_CREDIT, 8, 256),
    field("writecredit", at::WRITE_CREDIT, 8, 256),
    field("minutes", at::MINUTES, 4, 256),
    field("itemloads", at::ITEM_LOADS, 4, 256),
    field("itemwritebacks", at::ITEM_WRITEBACKS, 4, 256),
    field("load", at::LOAD, 2, 256),
    field("write", at::WRITE, 2, 256),
    field("blocks", at::BLOCKS, 1, 256),
    field("held", at::HELD, 1, 256),
    field("rule", at::RULE, 4, 1),
    field("left", at::LEFT, 8, 4),
    field("arrivals", at::ARRIVALS, 4, 1),
    field("retirements", at::RETIREMENTS, 4, 1),
    field("used", at::USED, 4, 1),
    field("level", at::LEVEL, 8, 1),
    field("keys", at::KEYS, 8, 256),
    field("heap", at::HEAP, 1, 256),
    field("places", at::PLACES, 1, 256),
];

/// The fields lie end to end, so that no byte is without one.
const _: () = {
    let (mut i, mut end) = (0, 0);
    while i < FIELDS.len() {
        assert!(FIELDS[i].at == end);
        end += FIELDS[i].width * FIELDS[i].entries;
        i += 1;
    }
    assert!(end == STATE_BYTES);
};

/// The field to which a byte belongs, and the entry.
pub fn field_of(place: usize) -> String {
    let field = FIELDS
        .iter()
        .rfind(|field| field.at <= place)
        .expect("the first field is at 0");
    let entry = (place - field.at) / field.width;
    if entry >= field.entries {
        "past the state".to_string()
    } else if field.entries == 1 {
        field.name.to_string()
    } else {
        format!("{} {entry}", field.name)
    }
}

/// The number of `width` bytes at a place.
#[inline]
pub fn get(s: &[u8], at: usize, width: usize) -> u64 {
    let mut bytes = [0; 8];
    bytes[..width].copy_from_slice(&s[at..at + width]);
    u64::from_le_bytes(bytes)
}

/// Puts the low `width` bytes of a number at a place.
pub fn put(s: &mut [u8], at: usize, width: usize, value: u64) {
    s[at..at + width].copy_from_slice(&value.to_le_bytes()[..width]);
}
