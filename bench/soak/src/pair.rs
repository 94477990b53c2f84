//! One state for the library and one for the plain Rust, always with the same bytes but for the arrangement of the heap: every call is made
//! on both, and the answers and all other bytes are compared. The arrangement of each is tested by what is said of one.

use bench::arrangement::{fault, same_apart};
use bench::calls::{self, Calls, LIBRARY};
use bench::plain::{self, Numbers};
use bench::random::Random;

use crate::layout::field_of;
use crate::run::{Asked, Run, kept};

/// The plain calls, with a step from which a panic can be caught.
const PLAIN: Calls = Calls {
    step: plain::step,
    ..calls::PLAIN
};

/// A call that may change a state.
#[derive(Clone, Copy, Debug)]
pub enum Call<'a> {
    Open {
        k: u32,
        rule: u32,
        catalog: &'a [u8],
    },
    Step(Numbers),
    Close,
}

impl Call<'_> {
    fn make(&self, calls: Calls, state: &mut [u8]) -> u32 {
        match *self {
            Call::Open { k, rule, catalog } => (calls.open)(state, k, rule, catalog),
            Call::Step(numbers) => (calls.step)(state, numbers),
            Call::Close => (calls.close)(state),
        }
    }

    fn asked(&self) -> Asked {
        match self {
            Call::Open { .. } => Asked::Open,
            Call::Step(_) => Asked::Step,
            Call::Close => Asked::Close,
        }
    }
}

/// How many bytes before and behind what is lent are looked at, and what they are.
const GUARD: usize = 64;
const FENCE: u8 = 0xC3;

/// What stands in the place of a text's length before it is told.
pub const UNTOLD: usize = 12_345;

/// Bytes that are lent to the library, at some address, between guards.
pub struct Lent {
    arena: Vec<u8>,
    start: usize,
    end: usize,
}

impl Lent {
    pub fn of(bytes: &[u8], shift: usize) -> Lent {
        let start = GUARD + shift;
        let end = start + bytes.len();
        let mut arena = vec![FENCE; end + GUARD];
        arena[start..end].copy_from_slice(bytes);
        Lent { arena, start, end }
    }

    pub fn bytes(&self) -> &[u8] {
        &self.arena[self.start..self.end]
    }

    pub fn bytes_mut(&mut self) -> &mut [u8] {
        &mut self.arena[self.start..self.end]
    }

    pub fn guards_kept(&self) -> bool {
        let fence = |bytes: &[u8]| bytes.iter().all(|&byte| byte == FENCE);
        fence(&self.arena[..self.start]) && fence(&self.arena[self.end..])
    }
}

pub struct Pair {
    library: Lent,
    plain: Vec<u8>,
    /// The states of both before the call.
    library_before: Vec<u8>,
    plain_before: Vec<u8>,
}

impl Pair {
    pub fn of(r: &mut Random, bytes: &[u8]) -> Pair {
        Pair {
            library: Lent::of(bytes, r.below(16) as usize),
            plain: bytes.to_vec(),
            library_before: bytes.to_vec(),
            plain_before: bytes.to_vec(),
        }
    }

    pub fn state(&self) -> &[u8] {
        &self.plain
    }

    /// Puts the bytes of a state of the same length in place of both.
    pub fn set(&mut self, bytes: &[u8]) {
        self.plain.copy_from_slice(bytes);
        self.library.bytes_mut().copy_from_slice(bytes);
    }

    fn note_before(&mut self) {
        self.plain_before.copy_from_slice(&self.plain);
        self.library_before.copy_from_slice(self.library.bytes());
    }

    /// Whether no byte of either has changed.
    fn both_kept(&self) -> bool {
        self.plain == self.plain_before && self.library.bytes() == self.library_before
    }

    /// What is wrong with the heap of one of the two.
    fn heap_fault(&self) -> Option<String> {
        let library = fault(self.library.bytes()).map(|what| format!("of the library: {what}"));
        library.or_else(|| fault(&self.plain).map(|what| format!("of the plain Rust: {what}")))
    }

    /// Makes a call on both.
    pub fn make(&mut self, run: &mut Run, call: Call) -> u32 {
        self.note_before();
        let library = call.make(LIBRARY, self.library.bytes_mut());
        let plain = call.make(PLAIN, &mut self.plain);
        run.calls += 1;
        if library != plain || !same_apart(self.library.bytes(), &self.plain) {
            let what = format!("{call:?}: the library answers {library}, plain Rust {plain}");
            run.differ(&what, &self.details());
        }
        if plain != 0 && !self.both_kept() {
            let what = format!("{call:?}: refused ({plain}), and yet a byte has changed");
            run.differ(&what, &self.details());
        }
        if plain == 0
            && let Some(fault) = self.heap_fault()
        {
            run.differ(&format!("{call:?}: the heap {fault}"), &self.details());
        }
        if !self.library.guards_kept() {
            let what = format!("{call:?}: a byte outside the state has changed");
            run.differ(&what, &self.details());
        }
        run.tally.count(call.asked(), plain);
        plain
    }

    pub fn step(&mut self, run: &mut Run, numbers: Numbers) -> u32 {
        self.make(run, Call::Step(numbers))
    }

    /// The bytes that differ, and where the state before the call is.
    fn details(&self) -> Vec<String> {
        let bytes = self
            .library
            .bytes()
            .iter()
            .zip(&self.plain)
            .zip(&self.library_before);
        let mut lines: Vec<String> = bytes
            .enumerate()
            .filter(|(_, ((library, plain), _))| library != plain)
            .map(|(i, ((library, plain), before))| {
                let name = field_of(i);
                format!("byte {i} ({name}): before {before}, library {library}, plain Rust {plain}")
            })
            .collect();
        let more = lines.len().saturating_sub(40);
        lines.truncate(40);
        lines.push(format!("{more} more bytes differ"));
        let file = kept("soak-difference.state", &self.library_before);
        lines.push(format!("the state before the call: {file}"));
        lines
    }

    /// Has both write a report on a page of so many bytes. Answers the number and, if it was written, the text.
    pub fn report(&mut self, run: &mut Run, page_len: usize) -> (u32, Vec<u8>) {
        let byte = |i: usize| (i as u8).wrapping_mul(7) ^ 0xA5;
        let mut page: Vec<u8> = (0..page_len).map(byte).collect();
        let mut lent = Lent::of(&page, page_len % 8);
        let (mut length, mut told) = (UNTOLD, UNTOLD);
        self.note_before();
        let library = (LIBRARY.report)(self.library.bytes(), lent.bytes_mut(), &mut told);
        let plain = (PLAIN.report)(&self.plain, &mut page, &mut length);
        run.calls += 1;
        if library != plain || told != length || lent.bytes() != page {
            let what = format!(
                "report on a page of {page_len}: the library answers {library}, length {told}; \
                 plain Rust {plain}, length {length}"
            );
            let pages = vec![
                kept("soak-difference.library-page", lent.bytes()),
                kept("soak-difference.plain-page", &page),
            ];
            run.differ(&what, &[self.details(), pages].concat());
        }
        let written = if plain == 0 { length } else { 0 };
        let state_kept = self.both_kept();
        let page_kept = (written..page_len).all(|i| page[i] == byte(i));
        let length_kept = plain == 0 || length == UNTOLD;
        let guards_kept = lent.guards_kept() && self.library.guards_kept();
        if !(state_kept && page_kept && length_kept && guards_kept) {
            run.differ("report: what is to be kept has changed", &self.details());
        }
        run.tally.count(Asked::Report, plain);
        page.truncate(written);
        (plain, page)
    }
}
