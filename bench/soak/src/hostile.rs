//! Hostile states: valid ones, reached by a season or by none, with bytes and fields changed. Whether each is valid is asked
//! of the library, of the plain Rust, and of paper 01's sentences one by one.

use bench::plain::{self, INVALID_STATE, STATE_BYTES, TAKEN, at};
use bench::random::{Random, catalog, some_k, some_n, some_rule};
use bench::states;

use crate::changes::{Put, byte, field, together};
use crate::layout::get;
use crate::pair::{Call, Pair};
use crate::rule::{SENTENCES, State, broken, names};
use crate::run::Run;
use crate::seasons::{LONGEST_REPORT, arguments};

/// States to a case: a valid one, and those that are made of it.
pub const TO_A_START: u64 = 50;

/// How many states were valid, and how many broke each sentence, alone or with others.
pub struct Seen {
    pub states: u64,
    pub valid: u64,
    pub alone: [u64; SENTENCES],
    pub with_others: [u64; SENTENCES],
}

impl Default for Seen {
    fn default() -> Seen {
        Seen {
            states: 0,
            valid: 0,
            alone: [0; SENTENCES],
            with_others: [0; SENTENCES],
        }
    }
}

impl Seen {
    fn count(&mut self, broken: &[usize]) {
        self.states += 1;
        match broken {
            [] => self.valid += 1,
            [one] => self.alone[*one] += 1,
            several => several.iter().for_each(|&i| self.with_others[i] += 1),
        }
    }
}

/// The state that a season leads to.
fn reached(r: &mut Random) -> Vec<u8> {
    let n = some_n(r);
    let catalog = catalog(r, n);
    let k = some_k(r, &catalog);
    let mut s = vec![0; STATE_BYTES];
    assert_eq!(plain::open(&mut s, k, some_rule(r), &catalog), 0);
    for _ in 0..r.below(150) {
        let n = get(&s, at::N, 2) as usize;
        plain::step(&mut s, arguments(r, n));
    }
    if r.one_in(8) {
        plain::close(&mut s);
    }
    s
}

fn changes(r: &mut Random, s: &[u8], state: &State) -> Vec<Put> {
    match r.below(8) {
        0 => vec![byte(r, s)],
        1 | 2 => vec![field(r, s, state)],
        3 => vec![field(r, s, state), field(r, s, state)],
        4 | 5 => together(r, s, state),
        6 => {
            let mut puts = together(r, s, state);
            puts.push(field(r, s, state));
            puts
        }
        _ => [together(r, s, state), together(r, s, state)].concat(),
    }
}

/// A report, a step and a close of a state: 17 exactly if it breaks a sentence. Answers the sentences that it breaks.
fn ask(run: &mut Run, r: &mut Random, pair: &mut Pair, bytes: &[u8]) -> Vec<usize> {
    let state = State::of(bytes);
    let broken = broken(&state);
    let foul = !broken.is_empty();
    let n = state.n.min(256) as usize;
    pair.set(bytes);
    let (reported, text) = pair.report(run, LONGEST_REPORT);
    let closed = pair.make(run, Call::Close);
    pair.set(bytes);
    let stepped = pair.step(run, arguments(r, n));
    let refused = [closed, stepped].map(|answer| answer == INVALID_STATE);
    let expected = if foul { INVALID_STATE } else { TAKEN };
    if refused != [foul; 2] || reported != expected {
        let what =
            format!("both answer {reported} to a report, {closed} to a close, {stepped} to a step");
        let names = names();
        let sentences = broken.iter().map(|&i| format!("broken: {}", names[i]));
        run.differ(&what, &sentences.collect::<Vec<String>>());
    }
    if !foul {
        go_on(run, r, pair, n, text.len());
    }
    broken
}

/// Some more steps from a valid state, a close, and a report on pages of several sizes.
fn go_on(run: &mut Run, r: &mut Random, pair: &mut Pair, n: usize, about: usize) {
    for _ in 0..r.below(8) {
        pair.step(run, arguments(r, n));
    }
    pair.make(run, Call::Close);
    let fits = pair.report(run, LONGEST_REPORT).1.len();
    if r.one_in(4) {
        for page in [fits, fits - 1, about] {
            pair.report(run, page);
        }
    }
}

/// One case: a valid state, and what is made of it by changes.
pub fn case(run: &mut Run, seen: &mut Seen) {
    let r = &mut run.random();
    let start = if r.one_in(2) {
        reached(r)
    } else {
        let n = some_n(r);
        states::valid(r, n)
    };
    let state = State::of(&start);
    let mut pair = Pair::of(r, &start);
    seen.count(&ask(run, r, &mut pair, &start));
    let mut bytes = start.clone();
    for _ in 1..TO_A_START {
        run.changes = changes(r, &start, &state);
        bytes.copy_from_slice(&start);
        run.changes.iter().for_each(|put| put.make(&mut bytes));
        seen.count(&ask(run, r, &mut pair, &bytes));
    }
    run.changes.clear();
}
