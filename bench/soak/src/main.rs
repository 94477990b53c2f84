//! A long differential run: the recorder's exported calls and the programs `season` and `check_log` against plain Rust, on random
//! seasons, texts, hostile states, small seasons beside their cheapest plans, sentences and logs. It ends at the first difference,
//! with status 1. bench/soak/run builds and runs it, with the programs that rt has built:
//!   soak program=season check_log=check_log seed=1 seasons=1000 texts=1000 states=10000 plans=1000 sentences=1000 logs=1000
//!   soak program=season check_log=check_log seed=1 only=seasons:123
//! With trace=1 each case is named before it is run.

mod changes;
mod cheapest;
mod damage;
mod hostile;
mod layout;
mod locker;
mod logs;
mod pair;
mod plans;
mod program;
mod queue;
mod queues;
mod rule;
mod run;
mod seasons;
mod sentences;
mod summary;
mod texts;

use std::panic::{AssertUnwindSafe, catch_unwind};
use std::time::Instant;

use hostile::Seen;
use plans::Worst;
use program::Program;
use run::{Part, Run, Tally};

/// The words `name=value` of the command line.
struct Words(Vec<(String, String)>);

impl Words {
    fn of_command_line() -> Words {
        let split = |word: String| match word.split_once('=') {
            Some((name, value)) => (name.to_string(), value.to_string()),
            None => usage(&word),
        };
        Words(std::env::args().skip(1).map(split).collect())
    }

    /// An empty value is none.
    fn value(&self, name: &str) -> Option<&str> {
        let (_, value) = self.0.iter().find(|(n, _)| n == name)?;
        Some(value.as_str()).filter(|value| !value.is_empty())
    }

    fn number(&self, name: &str) -> u64 {
        let value = self.value(name).unwrap_or("0");
        value.parse().unwrap_or_else(|_| usage(name))
    }
}

fn usage(word: &str) -> ! {
    eprintln!("soak: {word} is not understood");
    eprintln!(
        "usage: soak program=FILE check_log=FILE [seed=N] [seasons=N] [texts=N] [states=N] [plans=N] [sentences=N] [logs=N]"
    );
    eprintln!("       soak program=FILE check_log=FILE [seed=N] only=PART:N");
    std::process::exit(2);
}

/// The whole run, and what it has seen.
struct Soak {
    program: Program,
    check_log: Program,
    seed: u64,
    trace: bool,
    begun: Instant,
    seen: Seen,
    worst: Worst,
    tally: Tally,
    /// Seasons, texts, states, small seasons, sentences and logs.
    done: [u64; 6],
}

impl Soak {
    fn case(&mut self, run: &mut Run) {
        run.calls = 0;
        match run.part {
            Part::Seasons => seasons::case(run),
            Part::Texts => texts::case(run, &self.program),
            Part::States => hostile::case(run, &mut self.seen),
            Part::Plans => plans::case(run, &self.program, &mut self.worst),
            Part::Sentences => sentences::case(run),
            Part::Logs => logs::case(run, &self.check_log),
        }
    }

    /// One case. A panic, of the plain Rust or of this program, counts as a difference.
    fn caught_case(&mut self, run: &mut Run) {
        if self.trace {
            println!("{}:{}", run.part.name(), run.number);
        }
        let caught = catch_unwind(AssertUnwindSafe(|| self.case(run)));
        if caught.is_err() {
            run.differ("a panic", &[]);
        }
    }

    /// All cases of a part, with a line at each tenth.
    fn part(&mut self, part: Part, count: u64) {
        let to_a_case = match part {
            Part::Seasons => 1,
            Part::Texts => texts::TO_A_SEASON,
            Part::States => hostile::TO_A_START,
            Part::Plans => plans::TO_A_CLIMB,
            Part::Sentences => 1,
            Part::Logs => logs::TO_A_TEXT,
        };
        let cases = count.div_ceil(to_a_case);
        let mut run = Run::new(self.seed, part);
        for number in 0..cases {
            run.number = number;
            self.caught_case(&mut run);
            let done = (number + 1) * to_a_case;
            if (number + 1) % cases.div_ceil(10) == 0 || number + 1 == cases {
                let (name, all) = (part.name(), cases * to_a_case);
                let (questions, time) = (run.tally.questions(), self.begun.elapsed());
                println!(
                    "{name}: {done} of {all}, {questions} answers compared, {} s",
                    time.as_secs()
                );
            }
            self.done[part as usize] = done;
        }
        self.tally.add(&run.tally);
    }

    fn only(&mut self, which: &str) {
        let (name, number) = which.split_once(':').unwrap_or_else(|| usage("only"));
        let part = Part::ALL.into_iter().find(|part| part.name() == name);
        let mut run = Run::new(self.seed, part.unwrap_or_else(|| usage("only")));
        run.number = number.parse().unwrap_or_else(|_| usage("only"));
        self.caught_case(&mut run);
        let (seed, calls) = (self.seed, run.calls);
        println!("seed {seed}, {which}: {calls} calls, no difference");
    }
}

fn main() {
    let words = Words::of_command_line();
    let program = |name: &str| Program(words.value(name).unwrap_or_else(|| usage(name)).into());
    let mut soak = Soak {
        program: program("program"),
        check_log: program("check_log"),
        seed: words.number("seed"),
        trace: words.number("trace") != 0,
        begun: Instant::now(),
        seen: Seen::default(),
        worst: Worst::default(),
        tally: Tally::default(),
        done: [0; 6],
    };
    if let Some(which) = words.value("only") {
        soak.only(which);
        return;
    }
    for part in Part::ALL {
        soak.part(part, words.number(part.name()));
    }
    summary::print(&soak);
}
