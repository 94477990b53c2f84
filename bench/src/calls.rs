//! The calls of the library and of the plain implementation, under one type.

use crate::plain::{self, Numbers};

unsafe extern "C" {
    fn recorder_open(
        state: *mut u8,
        state_len: usize,
        k: u32,
        rule: u32,
        catalog: *const u8,
        catalog_len: usize,
    ) -> u32;
    fn recorder_step(
        state: *mut u8,
        state_len: usize,
        kind: u32,
        item: u32,
        minutes: u32,
        blocks: u32,
        load: u32,
        write: u32,
    ) -> u32;
    fn recorder_close(state: *mut u8, state_len: usize) -> u32;
    fn recorder_report(
        state: *const u8,
        state_len: usize,
        page: *mut u8,
        page_len: usize,
        length: *mut usize,
    ) -> u32;
    fn recorder_sentence(
        number: u32,
        line: u32,
        item: u32,
        page: *mut u8,
        page_len: usize,
        length: *mut usize,
    ) -> u32;
    fn recorder_log(
        heading: u32,
        steps: *const u8,
        steps_len: usize,
        page: *mut u8,
        page_len: usize,
        length: *mut usize,
    ) -> u64;
}

#[derive(Clone, Copy)]
pub struct Calls {
    pub open: fn(&mut [u8], u32, u32, &[u8]) -> u32,
    pub step: fn(&mut [u8], Numbers) -> u32,
    pub close: fn(&mut [u8]) -> u32,
    pub report: fn(&[u8], &mut [u8], &mut usize) -> u32,
}

// SAFETY, of each call: the pointer is good for the length beside it, what is written is borrowed alone, and the
// library has no condition on the values.
pub const LIBRARY: Calls = Calls {
    open: |s, k, rule, catalog| unsafe {
        let (items, items_len) = (catalog.as_ptr(), catalog.len());
        recorder_open(s.as_mut_ptr(), s.len(), k, rule, items, items_len)
    },
    step: |s, [kind, item, minutes, blocks, load, write]| unsafe {
        let (state, state_len) = (s.as_mut_ptr(), s.len());
        recorder_step(state, state_len, kind, item, minutes, blocks, load, write)
    },
    close: |s| unsafe { recorder_close(s.as_mut_ptr(), s.len()) },
    report: |s, page, length| unsafe {
        recorder_report(s.as_ptr(), s.len(), page.as_mut_ptr(), page.len(), length)
    },
};

/// The library's sentence of a refusal. It has no state, so it is none of the calls above; in plain Rust it is part of the program
/// `season` (bench/season), and the soak compares the two.
pub fn sentence(number: u32, line: u32, item: u32, page: &mut [u8], length: &mut usize) -> u32 {
    // SAFETY: as of the calls above.
    unsafe { recorder_sentence(number, line, item, page.as_mut_ptr(), page.len(), length) }
}

/// The library's log of a list of steps, 24 bytes each, under a heading: a number in the low half of the answer, its line in the high
/// half. It has no state either; in plain Rust it is `plain_season::log::write`, and bench/log and the soak compare the two.
pub fn log(heading: u32, steps: &[u8], page: &mut [u8], length: &mut usize) -> u64 {
    let (list, list_len) = (steps.as_ptr(), steps.len());
    let (text, text_len) = (page.as_mut_ptr(), page.len());
    // SAFETY: as of the calls above.
    unsafe { recorder_log(heading, list, list_len, text, text_len, length) }
}

/// The plain step under a name of its own, as the library's has one, so that callgrind can count what is below it.
#[unsafe(no_mangle)]
#[inline(never)]
#[allow(clippy::too_many_arguments)]
pub extern "C" fn plain_step(
    state: *mut u8,
    state_len: usize,
    kind: u32,
    item: u32,
    minutes: u32,
    blocks: u32,
    load: u32,
    write: u32,
) -> u32 {
    // SAFETY: called below alone, with the pointer and length of a slice.
    let state = unsafe { std::slice::from_raw_parts_mut(state, state_len) };
    plain::step(state, [kind, item, minutes, blocks, load, write])
}

pub const PLAIN: Calls = Calls {
    open: plain::open,
    step: |s, [kind, item, minutes, blocks, load, write]| {
        let (state, state_len) = (s.as_mut_ptr(), s.len());
        plain_step(state, state_len, kind, item, minutes, blocks, load, write)
    },
    close: plain::close,
    report: plain::report,
};
