//! ns per step: hits, misses under both rules of deduction, arrivals and departures in turn, and steps that are refused once the state
//! has been tested.

use std::hint::black_box;
use std::time::Instant;

use bench::calls::{Calls, LIBRARY, PLAIN};
use bench::plain::{
    self, ARRIVE, LOAD_FIRST, Numbers, OUT_OF_RANGE, READ, RETIRE, STATE_BYTES, WRITE, WRITE_FIRST,
    at, of_three,
};
use bench::random::Random;

const STEPS: usize = 1_000;
const ROUNDS: usize = 100;
/// How many evictions are counted.
const EVICTIONS: usize = 200;

/// A state to start from and steps to take, each answered by `answer`.
struct Log {
    start: Vec<u8>,
    steps: Vec<Numbers>,
    answer: u32,
    evictions: u32,
}

#[derive(Clone, Copy)]
enum Kind {
    Hit,
    Miss,
    Refused,
    Change,
}

impl Kind {
    /// Of how many items a log is measured. Where items arrive, the catalogue must have room for them.
    fn sizes(self) -> [u32; 3] {
        match self {
            Kind::Change => [3, 30, 200],
            _ => [3, 30, 256],
        }
    }
}

fn get32(s: &[u8], at: usize) -> u32 {
    u32::from_le_bytes(s[at..at + 4].try_into().unwrap())
}

/// `n` items of 1 to 4 blocks, under a rule of deduction. For hits the cache has room for all and holds them; for misses it has room for half, is
/// full, and each step asks for an item that is not held. Half of the steps are writes. Where items change, each number up to 255 arrives
/// in turn, and the lowest of those that have not left leaves: some are held, and dirty.
fn log(kind: Kind, rule: u32, n: u32) -> Log {
    let r = &mut Random(u64::from(n));
    let mut catalog = Vec::new();
    let mut all = 0;
    for i in 0..n {
        let blocks = 1 + i % 4;
        all += blocks;
        catalog.push(blocks as u8);
        catalog.extend((r.between(1, 1000) as u16).to_le_bytes());
        catalog.extend((r.between(1, 1000) as u16).to_le_bytes());
    }
    let k = if matches!(kind, Kind::Miss) {
        all / 2
    } else {
        all
    };
    let mut state = vec![0; STATE_BYTES];
    assert_eq!(plain::open(&mut state, k, rule, &catalog), 0);
    for i in 0..n {
        assert_eq!(plain::step(&mut state, of_three([WRITE, i, 60])), 0);
    }
    let start = state.clone();
    let mut steps = Vec::new();
    let mut answer = 0;
    if matches!(kind, Kind::Change) {
        for i in n..256 {
            steps.push([ARRIVE, i, 0, 1 + i % 4, 9, 7]);
            steps.push(of_three([RETIRE, i - n, 0]));
        }
        for &step in &steps {
            assert_eq!(plain::step(&mut state, step), 0);
        }
        return Log {
            evictions: get32(&state, at::EVICTIONS) - get32(&start, at::EVICTIONS),
            start,
            steps,
            answer,
        };
    }
    for _ in 0..STEPS {
        let wanted = matches!(kind, Kind::Miss);
        let item = loop {
            let i = r.below(u64::from(n)) as u32;
            if (state[at::HELD + i as usize] == 0) == wanted {
                break i;
            }
        };
        let step = match kind {
            Kind::Refused => of_three([0, item, 0]),
            _ => of_three([r.pick(&[READ, WRITE]), item, r.below(1441) as u32]),
        };
        answer = plain::step(&mut state, step);
        steps.push(step);
    }
    let moved = |at| get32(&state, at) - get32(&start, at);
    let (hits, loads) = (moved(at::HITS), moved(at::LOADS));
    match kind {
        Kind::Hit => assert_eq!((hits, answer), (STEPS as u32, 0)),
        Kind::Miss => assert_eq!((loads, answer), (STEPS as u32, 0)),
        _ => assert_eq!((hits + loads, answer), (0, OUT_OF_RANGE)),
    }
    Log {
        evictions: moved(at::EVICTIONS),
        start,
        steps,
        answer,
    }
}

/// ns per step of one run over the log, the copy of the start apart.
fn run(calls: Calls, log: &Log, state: &mut Vec<u8>) -> f64 {
    state.clone_from(&log.start);
    let step = black_box(calls).step;
    let begun = Instant::now();
    for &numbers in &log.steps {
        assert_eq!(step(state, numbers), log.answer);
    }
    begun.elapsed().as_nanos() as f64 / log.steps.len() as f64
}

/// Only a miss looks at the rule, so that the others are measured under the first alone.
const KINDS: [(&str, Kind, u32); 5] = [
    ("hit", Kind::Hit, WRITE_FIRST),
    ("miss", Kind::Miss, WRITE_FIRST),
    ("miss-load-first", Kind::Miss, LOAD_FIRST),
    ("refused", Kind::Refused, WRITE_FIRST),
    ("change", Kind::Change, WRITE_FIRST),
];

/// States in which `held` of 256 items of one block fill the cache, half of them dirty, each with a step that asks for another item and so evicts
/// one. With room, the cache has a block more and nothing else differs: the same step evicts none. So what the two take differs by one
/// eviction, whatever a step and the test of the state take.
fn evictions(held: u32, room: bool) -> Vec<(Vec<u8>, Numbers)> {
    let r = &mut Random(u64::from(held));
    let mut catalog = Vec::new();
    for _ in 0..256 {
        catalog.push(1);
        catalog.extend((r.between(1, 1000) as u16).to_le_bytes());
        catalog.extend((r.between(1, 1000) as u16).to_le_bytes());
    }
    let mut state = vec![0; STATE_BYTES];
    assert_eq!(plain::open(&mut state, held, WRITE_FIRST, &catalog), 0);
    let mut taken = Vec::new();
    while taken.len() < EVICTIONS {
        let item = r.below(256) as usize;
        let step = of_three([r.pick(&[READ, WRITE]), item as u32, 60]);
        let evictions = get32(&state, at::EVICTIONS);
        // At first the cache fills, and then every item has its turn to go.
        if state[at::HELD + item] == 0 && evictions >= 4 * held {
            let mut start = state.clone();
            start[at::K..at::K + 4].copy_from_slice(&(held + u32::from(room)).to_le_bytes());
            taken.push((start, step));
        }
        assert_eq!(plain::step(&mut state, step), 0);
    }
    taken
}

/// Takes the steps that each evict an item, or those that find room, once.
fn take_evictions(room: bool, held: u32, calls: Calls) {
    let step = black_box(calls).step;
    let all = evictions(held, room);
    for (start, numbers) in &all {
        let mut state = start.clone();
        assert_eq!(step(&mut state, *numbers), 0);
        let evicted = get32(&state, at::EVICTIONS) - get32(start, at::EVICTIONS);
        assert_eq!(evicted, u32::from(!room));
    }
    println!("{}", all.len());
}

/// Takes the steps of one log, once. What is outside the calls of step is not to be counted.
pub fn take(kind: &str, n: u32, which: &str) {
    let calls = match which {
        "library" => LIBRARY,
        "plain" => PLAIN,
        _ => panic!("library or plain"),
    };
    if let "evict" | "room" = kind {
        take_evictions(kind == "room", n, calls);
        return;
    }
    let (_, kind, rule) = KINDS
        .into_iter()
        .find(|(name, _, _)| *name == kind)
        .expect("hit, miss, miss-load-first, refused, change, evict or room");
    let log = log(kind, rule, n);
    run(calls, &log, &mut Vec::new());
    println!("{}", log.steps.len());
}

pub fn table() {
    println!(
        "ns per step: the least of {ROUNDS} rounds of {STEPS} steps, fewer where items change, library and plain Rust in turn"
    );
    println!("step             items  evictions a step  library ns  plain Rust ns  ratio");
    let mut state = Vec::new();
    for (name, kind, rule) in KINDS {
        for n in kind.sizes() {
            let log = log(kind, rule, n);
            let (mut library, mut plain) = (f64::MAX, f64::MAX);
            for _ in 0..ROUNDS {
                library = library.min(run(LIBRARY, &log, &mut state));
                plain = plain.min(run(PLAIN, &log, &mut state));
            }
            let evictions = f64::from(log.evictions) / log.steps.len() as f64;
            let ratio = library / plain;
            println!(
                "{name:<16} {n:>5}  {evictions:>16.2}  {library:>10.0}  {plain:>13.0}  {ratio:>5.2}"
            );
        }
    }
    println!("a refused step (kind 0, answer 3) is the test of the whole state and nothing else");
}
