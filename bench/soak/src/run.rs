//! Where a run stands, what was answered so far, and how a difference is told.

use bench::random::Random;

use crate::changes::Put;

#[derive(Clone, Copy, Debug, PartialEq)]
pub enum Part {
    Seasons,
    Texts,
    States,
    Plans,
    Sentences,
    Logs,
}

impl Part {
    pub const ALL: [Part; 6] = [
        Part::Seasons,
        Part::Texts,
        Part::States,
        Part::Plans,
        Part::Sentences,
        Part::Logs,
    ];

    pub fn name(self) -> &'static str {
        match self {
            Part::Seasons => "seasons",
            Part::Texts => "texts",
            Part::States => "states",
            Part::Plans => "plans",
            Part::Sentences => "sentences",
            Part::Logs => "logs",
        }
    }
}

/// What was asked.
#[derive(Clone, Copy)]
pub enum Asked {
    Open,
    Step,
    Close,
    Report,
    Text,
    Sentence,
    Log,
    LogText,
}

pub const ASKED: [&str; 8] = [
    "open", "step", "close", "report", "text", "sentence", "log", "log text",
];

/// How often each number was answered, to each kind of question.
#[derive(Default)]
pub struct Tally {
    pub answers: [[u64; 21]; 8],
    /// Texts as long as one may be that were taken.
    pub longest_taken: u64,
    /// Logs as long as one may be that were written, and that were taken.
    pub longest_logs: [u64; 2],
    /// Refused texts whose sentence tells a sail.
    pub sails_told: u64,
}

impl Tally {
    pub fn count(&mut self, asked: Asked, answer: u32) {
        self.answers[asked as usize][answer as usize] += 1;
    }

    pub fn add(&mut self, other: &Tally) {
        let more = other.answers.as_flattened();
        let all = self.answers.as_flattened_mut();
        all.iter_mut()
            .zip(more)
            .for_each(|(sum, count)| *sum += count);
        self.longest_taken += other.longest_taken;
        self.longest_logs[0] += other.longest_logs[0];
        self.longest_logs[1] += other.longest_logs[1];
        self.sails_told += other.sails_told;
    }

    pub fn questions(&self) -> u64 {
        self.answers.as_flattened().iter().sum()
    }
}

/// A run over the cases of the six parts. Each case has random numbers of its own, so that it can be repeated by itself.
pub struct Run {
    pub seed: u64,
    pub part: Part,
    pub number: u64,
    /// The calls made in this case.
    pub calls: u64,
    /// What was changed in the state that is asked about.
    pub changes: Vec<Put>,
    pub tally: Tally,
}

impl Run {
    pub fn new(seed: u64, part: Part) -> Run {
        Run {
            seed,
            part,
            number: 0,
            calls: 0,
            changes: Vec::new(),
            tally: Tally::default(),
        }
    }

    pub fn random(&self) -> Random {
        let part = Random(self.seed).next() ^ self.part as u64;
        Random(Random(part).next() ^ self.number)
    }

    /// Says what differs, and ends the program.
    pub fn differ(&self, what: &str, details: &[String]) -> ! {
        let (part, number) = (self.part.name(), self.number);
        println!(
            "DIFFERENCE: seed {}, {part} {number}, call {}: {what}",
            self.seed, self.calls
        );
        let changes = self.changes.iter().map(Put::tell);
        for line in changes.chain(details.iter().cloned()) {
            println!("  {line}");
        }
        println!(
            "to repeat it: make soak SEED={} ONLY={part}:{number}",
            self.seed
        );
        std::process::exit(1);
    }
}

/// Keeps what a difference is about in a file, and says where.
pub fn kept(name: &str, bytes: &[u8]) -> String {
    let file = std::env::temp_dir().join(name);
    match std::fs::write(&file, bytes) {
        Ok(()) => format!("in {}", file.display()),
        Err(error) => format!("not kept: {error}"),
    }
}
