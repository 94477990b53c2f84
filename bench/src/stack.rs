//! The stack that each exported call takes: the bytes below are painted, the call is made, and the deepest byte that has another
//! colour is looked for. What memcpy and memset of the C library take is part of it, and so are some bytes of the closure here.

use std::hint::black_box;
use std::thread;

use bench::calls::{self, LIBRARY};
use bench::plain::{
    ARRIVE, FLUSH, LOAD_FIRST, READ, RETIRE, STATE_BYTES, WRITE, WRITE_FIRST, of_three,
};

/// How far down is painted, in a thread whose stack is larger; and how far the frame of the painter itself may reach.
const DEPTH: usize = 256 * 1024;
const OWN: usize = 160;
const PAINT: u8 = 0xA7;

#[inline(never)]
fn paint() {
    let mut here = 0u8;
    let top = black_box(&raw mut here);
    for i in OWN..DEPTH {
        // SAFETY: below this frame and within the thread's stack, where nothing is in use.
        unsafe { top.sub(i).write_volatile(PAINT) };
    }
}

/// How far down the bytes have another colour.
#[inline(never)]
fn touched() -> usize {
    let mut here = 0u8;
    let top = black_box(&raw mut here);
    // SAFETY: as in `paint`, which has written them.
    let kept = |i: usize| unsafe { top.sub(i).read_volatile() } == PAINT;
    (OWN..DEPTH).rev().find(|&i| !kept(i)).unwrap_or(OWN)
}

/// At most so many bytes are taken by a call.
#[inline(never)]
fn taken_by(call: &mut dyn FnMut()) -> usize {
    paint();
    call();
    touched()
}

/// The most that each call takes, over a few states: a catalog of 3 and one of 256 items, the latter by both rules, little and much
/// held, clean and dirty, and with items that arrive and leave; and the sentence of each number that has one, with the longest line and
/// item; and a log with a step of each kind, on a page and on none.
fn most() -> [usize; 6] {
    let [
        mut open,
        mut step,
        mut close,
        mut report,
        mut sentence,
        mut log,
    ] = [0; 6];
    for (n, rule) in [(3u32, WRITE_FIRST), (256, WRITE_FIRST), (256, LOAD_FIRST)] {
        let catalog: Vec<u8> = (0..n)
            .flat_map(|i| [1 + (i % 4) as u8, 9, 0, 7, 0])
            .collect();
        let mut state = vec![0; STATE_BYTES];
        let mut page = vec![0; 8_192];
        open = open.max(taken_by(&mut || {
            assert_eq!((LIBRARY.open)(&mut state, n, rule, &catalog), 0);
        }));
        for kind in [WRITE, READ, WRITE, FLUSH] {
            for i in 0..n {
                step = step.max(taken_by(&mut || {
                    assert_eq!((LIBRARY.step)(&mut state, of_three([kind, i, 60])), 0);
                }));
            }
            report = report.max(taken_by(&mut || {
                assert_eq!((LIBRARY.report)(&state, &mut page, &mut 0), 0);
            }));
            let mut closed = state.clone();
            close = close.max(taken_by(&mut || {
                assert_eq!((LIBRARY.close)(&mut closed), 0);
            }));
        }
    }
    let mut state = vec![0; STATE_BYTES];
    assert_eq!((LIBRARY.open)(&mut state, 1, WRITE_FIRST, &[]), 0);
    for i in 0..256 {
        for numbers in [
            [ARRIVE, i, 0, 1, 9, 7],
            of_three([WRITE, i, 60]),
            of_three([RETIRE, i, 0]),
        ] {
            step = step.max(taken_by(&mut || {
                assert_eq!((LIBRARY.step)(&mut state, numbers), 0);
            }));
        }
    }
    for number in (1..=27).filter(|&number| number != 23) {
        let mut page = vec![0; 64];
        sentence = sentence.max(taken_by(&mut || {
            let answer = calls::sentence(number, u32::MAX, u32::MAX, &mut page, &mut 0);
            assert_eq!(answer, 0);
        }));
    }
    let steps = [
        of_three([READ, 255, 0]),
        of_three([WRITE, 255, 1440]),
        of_three([FLUSH, 0, 0]),
        [ARRIVE, 255, 0, 16, 65_535, 65_535],
        of_three([RETIRE, 255, 0]),
    ];
    let list: Vec<u8> = steps
        .as_flattened()
        .iter()
        .flat_map(|number| number.to_le_bytes())
        .collect();
    for (page_len, expected) in [(128, 0), (0, 15)] {
        let mut page = vec![0; page_len];
        log = log.max(taken_by(&mut || {
            assert_eq!(calls::log(1, &list, &mut page, &mut 0), expected);
        }));
    }
    [open, step, close, report, sentence, log]
}

pub fn table() {
    let bytes = thread::Builder::new()
        .stack_size(4 * DEPTH)
        .spawn(most)
        .expect("a thread")
        .join()
        .expect("each call is taken");
    println!("bytes of stack at most, memcpy and memset of the C library included:");
    let names = ["open", "step", "close", "report", "sentence", "log"];
    for (name, bytes) in names.iter().zip(bytes) {
        println!("  {name:<8} {bytes:>6}");
    }
}
