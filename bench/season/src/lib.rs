//! The program `season` in plain Rust: the same text, the same checks on every line, the same step rule, the same report as
//! the proved program, which this is the yardstick for. It is written for this one job: the cache is changed in place, and
//! no step tests the whole state as the library's calls do, since nobody else can have written to it.

pub mod cache;
mod heap;
pub mod log;
mod plan;
pub mod report;
mod sentence;
mod text;
mod write;

pub use sentence::sentence;
pub use text::MAX_BYTES;
pub use write::text;

use cache::Cache;

/// An item of the catalog (paper 01: a sail).
#[derive(Clone, Copy)]
pub struct Item {
    pub blocks: u32,
    pub load: u64,
    pub write: u64,
}

/// Which of its credits an item loses from first, when another is evicted (paper 02: the rule of a locker).
#[derive(Clone, Copy, Debug, PartialEq)]
pub enum Deduction {
    WriteFirst,
    LoadFirst,
}

impl Deduction {
    /// In the order of paper 02, by which a call names them 0 and 1.
    pub const ALL: [Deduction; 2] = [Deduction::WriteFirst, Deduction::LoadFirst];

    /// The word in the text.
    pub fn word(self) -> &'static str {
        match self {
            Deduction::WriteFirst => "write-first",
            Deduction::LoadFirst => "load-first",
        }
    }
}

#[derive(Clone, Copy)]
pub enum Step {
    Read {
        item: usize,
    },
    Write {
        item: usize,
        minutes: u32,
    },
    /// Paper 01: a landing.
    Flush,
    /// Paper 02: A, adds the next sail number.
    Arrive {
        item: usize,
        listed: Item,
    },
    /// Paper 02: Q, retires a sail.
    Retire {
        item: usize,
    },
}

/// What a rival plan does before a step is served.
#[derive(Clone, Copy)]
pub enum Act {
    /// Paper 01: D, drops a held sail.
    Evict { item: usize },
    /// Paper 01: F, fetches a sail not held.
    Fetch { item: usize },
}

/// Why a text is refused; with the item of the step or act, where the refusal tells it. The other rows of the papers' tables are of
/// calls and never fall due here: a text of 65,536 bytes has no 1,000,000 steps, and the report has all the room that it needs.
#[derive(Clone, Copy)]
pub enum Reason {
    Malformed,                      // torn
    Heading,                        // heading
    OutOfRange,                     // off the tape
    OutOfSequence,                  // miscounted
    PlanTooLarge,                   // outsized rival
    UnknownItem { item: usize },    // stranger
    ItemTooLarge { item: usize },   // too bulky
    ActOutOfOrder,                  // out of turn
    NotHeld { item: usize },        // not aboard
    AlreadyHeld { item: usize },    // aboard
    OverCapacity,                   // overstowed
    RequestNotHeld { item: usize }, // missing
    InputTooLong,                   // long roll
    UnknownRule,                    // odd rule
    NotNextNumber { item: usize },  // misnumbered
    RetiredItem { item: usize },    // gone
}

#[derive(Clone, Copy)]
pub struct Refusal {
    pub reason: Reason,
    /// Counted from 1; 0 for a text that is too long.
    pub line: usize,
}

impl Reason {
    fn on(self, line: usize) -> Refusal {
        Refusal { reason: self, line }
    }

    /// The number in paper 01's table.
    fn number(self) -> u32 {
        match self {
            Reason::Malformed => 1,
            Reason::Heading => 2,
            Reason::OutOfRange => 3,
            Reason::OutOfSequence => 4,
            Reason::PlanTooLarge => 5,
            Reason::UnknownItem { .. } => 6,
            Reason::ItemTooLarge { .. } => 7,
            Reason::ActOutOfOrder => 10,
            Reason::NotHeld { .. } => 11,
            Reason::AlreadyHeld { .. } => 12,
            Reason::OverCapacity => 13,
            Reason::RequestNotHeld { .. } => 14,
            Reason::InputTooLong => 16,
            Reason::UnknownRule => 18,
            Reason::NotNextNumber { .. } => 19,
            Reason::RetiredItem { .. } => 20,
        }
    }

    /// The item that it tells, 0 if it tells none.
    fn item(self) -> usize {
        match self {
            Reason::UnknownItem { item }
            | Reason::ItemTooLarge { item }
            | Reason::NotHeld { item }
            | Reason::AlreadyHeld { item }
            | Reason::RequestNotHeld { item }
            | Reason::NotNextNumber { item }
            | Reason::RetiredItem { item } => item,
            _ => 0,
        }
    }
}

/// What the program prints for a text.
pub fn output(text: &[u8]) -> String {
    report_on(text).unwrap_or_else(report::refused)
}

fn report_on(text: &[u8]) -> Result<String, Refusal> {
    let season = text::parse(text)?;
    let rival = plan::price(&season)?;
    let mut cache = Cache::open(season.k, season.rule, season.catalog());
    for &step in &season.steps {
        cache.step(step);
    }
    cache.close();
    Ok(report::report(&cache.counts, season.k, season.h, rival))
}
