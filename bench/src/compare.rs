//! Equal answers and equal bytes: every call is made on both implementations, on openings and logs at random, on damaged
//! states, and on valid states that no log leads to. The heap may be arranged in one way by the one and in another by the other.

use bench::arrangement::{fault, same_apart};
use bench::calls::{LIBRARY, PLAIN};
use bench::plain::{
    self, ARRIVE, FLUSH, LOAD_FIRST, MAX_STEPS, Numbers, READ, RETIRE, STATE_BYTES, WRITE,
    WRITE_FIRST, at, of_three,
};
use bench::random::{Random, catalog, odd_rule, some_k, some_n, some_rule};
use bench::states;

/// One state for each implementation, always with the same bytes but for the arrangement of the heap.
#[derive(Clone)]
struct Pair {
    library: Vec<u8>,
    plain: Vec<u8>,
}

/// How often each number was answered.
#[derive(Default)]
pub struct Tally {
    pub answers: [u64; 21],
}

impl Pair {
    fn of(bytes: Vec<u8>) -> Pair {
        Pair {
            plain: bytes.clone(),
            library: bytes,
        }
    }

    /// Tells a difference, keeps the library's state before the call, and ends the program.
    fn differ(&self, what: &str, before: &Pair) -> ! {
        println!("DIFFERENCE: {what}");
        let bytes = self.library.iter().zip(&self.plain).enumerate();
        for (i, (a, b)) in bytes.filter(|(_, (a, b))| a != b).take(20) {
            let was = before.library[i];
            println!("  byte {i}: before {was}, library {a}, plain Rust {b}");
        }
        let file = std::env::temp_dir().join("recorder-difference.state");
        std::fs::write(&file, &before.library).expect("the state is written");
        println!("  the state before the call is in {}", file.display());
        std::process::exit(1);
    }

    /// Looks at what both answered. A refused call leaves every byte of each; behind an accepted one both have the same bytes but for the
    /// arrangement, which is as it may be.
    fn both(
        &self,
        tally: &mut Tally,
        what: &str,
        before: &Pair,
        [library, plain]: [u32; 2],
    ) -> u32 {
        if library != plain || !same_apart(&self.library, &self.plain) {
            let what = format!("{what}: the library answers {library}, plain Rust {plain}");
            self.differ(&what, before);
        }
        if plain != 0 && (self.plain != before.plain || self.library != before.library) {
            let what = format!("{what}: refused ({plain}), and yet a byte has changed");
            self.differ(&what, before);
        }
        if plain == 0 {
            for (whose, state) in [("library", &self.library), ("plain Rust", &self.plain)] {
                if let Some(fault) = fault(state) {
                    self.differ(&format!("{what}: the heap of the {whose}: {fault}"), before);
                }
            }
        }
        tally.answers[plain as usize] += 1;
        plain
    }

    fn open(&mut self, tally: &mut Tally, k: u32, rule: u32, catalog: &[u8]) -> u32 {
        let before = self.clone();
        let answers = [
            (LIBRARY.open)(&mut self.library, k, rule, catalog),
            (PLAIN.open)(&mut self.plain, k, rule, catalog),
        ];
        let what = format!("open {k} {rule} {catalog:?}");
        self.both(tally, &what, &before, answers)
    }

    fn step(&mut self, tally: &mut Tally, numbers: Numbers) -> u32 {
        let before = self.clone();
        let answers = [
            (LIBRARY.step)(&mut self.library, numbers),
            (PLAIN.step)(&mut self.plain, numbers),
        ];
        self.both(tally, &format!("step {numbers:?}"), &before, answers)
    }

    /// How many items the catalog has now.
    fn count(&self) -> usize {
        usize::from(u16::from_le_bytes([
            self.plain[at::N],
            self.plain[at::N + 1],
        ]))
    }

    fn close(&mut self, tally: &mut Tally) -> u32 {
        let before = self.clone();
        let answers = [
            (LIBRARY.close)(&mut self.library),
            (PLAIN.close)(&mut self.plain),
        ];
        self.both(tally, "close", &before, answers)
    }
}

/// The arguments of a step: mostly good ones, over the first `n` items; at times one arrives or leaves.
fn arguments(r: &mut Random, n: usize) -> Numbers {
    if r.one_in(25) {
        let any = [0, 5, 65, 76, 81, 82, 87, 255, 256, 1440, 1441, u32::MAX];
        return [0; 6].map(|_| r.pick(&any));
    }
    if r.one_in(20) {
        let next = (n as u32).saturating_add(r.pick(&[0, 0, 0, 0, 1, u32::MAX]));
        let blocks = r.pick(&[1, 2, 4, 16, 0, 17]);
        let costs = [0, 1, 9, 65_535, 65_536];
        return [
            ARRIVE,
            next,
            r.next() as u32,
            blocks,
            r.pick(&costs),
            r.pick(&costs),
        ];
    }
    let kind = if r.one_in(12) {
        FLUSH
    } else if r.one_in(25) {
        RETIRE
    } else {
        r.pick(&[READ, WRITE])
    };
    let item = if n == 0 || r.one_in(40) {
        r.below(257) as u32
    } else {
        r.below(n as u64) as u32
    };
    let minutes = if r.one_in(40) {
        r.next() as u32
    } else {
        r.below(1441) as u32
    };
    of_three([kind, item, minutes])
}

/// The state of one of the two for both, with some bytes changed: any, or a number by little.
fn damaged(r: &mut Random, s: &Pair) -> Pair {
    let mut state = r.pick(&[&s.plain, &s.library]).clone();
    for _ in 0..r.pick(&[1, 1, 1, 2, 3]) {
        let n = state[at::N] as usize;
        let i = r.pick(&[0, 1, 2, n, r.0 as usize % 256, 255]).min(255);
        let any = r.below(STATE_BYTES as u64) as usize;
        let head = r.below(at::LOAD_CREDIT as u64) as usize;
        let rule = at::RULE + r.below(4) as usize;
        let behind = at::LEFT + r.below((at::KEYS - at::LEFT) as u64) as usize;
        let queue = at::KEYS + r.below((STATE_BYTES - at::KEYS) as u64) as usize;
        let place = r.pick(&[
            any,
            head,
            at::LOAD_CREDIT + 8 * i,
            at::WRITE_CREDIT + 8 * i,
            at::MINUTES + 4 * i,
            at::ITEM_LOADS + 4 * i,
            at::ITEM_WRITEBACKS + 4 * i,
            at::LOAD + 2 * i,
            at::WRITE + 2 * i,
            at::BLOCKS + i,
            at::HELD + i,
            rule,
            behind,
            queue,
            at::KEYS + 8 * i,
            at::HEAP + i,
            at::PLACES + i,
        ]);
        let old = state[place];
        let bit = 1 << r.below(8);
        let new = r.pick(&[
            old.wrapping_add(1),
            old.wrapping_sub(1),
            old ^ bit,
            0,
            1,
            255,
        ]);
        state[place] = new;
    }
    Pair::of(state)
}

/// A log at random; on the way, copies of the state are damaged and called.
fn random_log(r: &mut Random, tally: &mut Tally) {
    let n = some_n(r);
    let catalog = catalog(r, n);
    let k = some_k(r, &catalog);
    let mut pair = Pair::of(vec![r.next() as u8; STATE_BYTES]);
    assert_eq!(pair.open(tally, k, some_rule(r), &catalog), 0);
    for _ in 0..150 {
        let n = pair.count();
        pair.step(tally, arguments(r, n));
        if r.one_in(4) {
            let mut other = damaged(r, &pair);
            for _ in 0..3 {
                other.step(tally, arguments(r, n));
            }
            other.close(tally);
        }
        if r.one_in(150) {
            pair.close(tally);
        }
    }
    pair.close(tally);
    pair.close(tally);
    pair.step(tally, arguments(r, n));
}

fn random_opening(r: &mut Random, tally: &mut Tally) {
    let n = some_n(r);
    let mut bytes = catalog(r, n);
    match r.below(6) {
        0 => bytes.truncate(r.below(bytes.len() as u64 + 1) as usize),
        1 => bytes.resize(r.pick(&[1279, 1280, 1281, 1285, 4096]), 1),
        2 if n > 0 => bytes[5 * r.below(n as u64) as usize] = r.pick(&[0, 17, 255]),
        _ => {}
    }
    let k = r.pick(&[0, 1, 2, 16, 4095, 4096, 4097, u32::MAX]);
    let right = STATE_BYTES;
    let len = r.pick(&[right, right, right, right, 0, 1, right - 1, right + 1]);
    let mut pair = Pair::of((0..len).map(|_| r.next() as u8).collect());
    let rule = match r.below(4) {
        0 => odd_rule(r),
        _ => some_rule(r),
    };
    pair.open(tally, k, rule, &bytes);
    pair.step(tally, of_three([READ, 0, 0]));
    pair.close(tally);
}

fn from_valid(r: &mut Random, tally: &mut Tally) {
    let n = some_n(r);
    let start = Pair::of(states::valid(r, n));
    assert_ne!(
        start.clone().close(tally),
        plain::INVALID_STATE,
        "the generator makes valid states"
    );
    let mut pair = start.clone();
    for _ in 0..20 {
        let n = pair.count();
        pair.step(tally, arguments(r, n));
    }
    pair.close(tally);
    for _ in 0..20 {
        let mut other = damaged(r, &start);
        other.step(tally, arguments(r, n));
        other.close(tally);
    }
}

/// Every byte of a state in turn, with some other values.
fn each_byte(r: &mut Random, tally: &mut Tally, n: usize) {
    let start = Pair::of(states::valid(r, n));
    for place in 0..STATE_BYTES {
        let old = start.plain[place];
        for new in [old.wrapping_add(1), old.wrapping_sub(1), old ^ 0x80, 17] {
            let mut pair = start.clone();
            pair.plain[place] = new;
            pair.library[place] = new;
            pair.step(tally, arguments(r, n));
            pair.close(tally);
        }
    }
}

/// A whole log of 1,000,000 steps by a rule, and what comes after it.
fn longest_log(r: &mut Random, tally: &mut Tally, rule: u32) {
    let mut pair = Pair::of(vec![0; STATE_BYTES]);
    let items = [
        [1, 4, 0, 6, 0],
        [2, 6, 0, 2, 0],
        [1, 3, 0, 9, 0],
        [16, 255, 255, 255, 255],
    ];
    assert_eq!(pair.open(tally, 17, rule, items.as_flattened()), 0);
    for _ in 0..MAX_STEPS {
        let kind = if r.one_in(50) {
            FLUSH
        } else {
            r.pick(&[READ, WRITE])
        };
        let numbers = of_three([kind, r.below(4) as u32, 1440]);
        assert_eq!(pair.step(tally, numbers), 0);
    }
    for numbers in [[READ, 0, 0], [0, 0, 0], [ARRIVE, 4, 0], [RETIRE, 0, 0]] {
        assert_eq!(pair.step(tally, of_three(numbers)), plain::LOG_FULL);
    }
    assert_eq!(pair.close(tally), 0);
    assert_eq!(pair.close(tally), plain::CLOSED);
}

/// Compares both; a difference ends the program.
pub fn compare() -> Tally {
    let r = &mut Random(1);
    let tally = &mut Tally::default();
    for _ in 0..2_000 {
        random_opening(r, tally);
    }
    for _ in 0..600 {
        random_log(r, tally);
    }
    for _ in 0..600 {
        from_valid(r, tally);
    }
    for n in [0, 3, 30, 256] {
        each_byte(r, tally, n);
    }
    for rule in [WRITE_FIRST, LOAD_FIRST] {
        longest_log(r, tally, rule);
    }
    std::mem::take(tally)
}
