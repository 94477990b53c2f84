//! Lists of steps at random, six numbers a step, for the log's writer: in range under a heading, out of it, wild, and not whole.

use crate::plain::{ARRIVE, FLUSH, Numbers, READ, RETIRE, WRITE};
use crate::random::Random;

/// The most bytes that a log may have, and those of its line of names under each heading, the three names and the six.
pub const LOG_BYTES: usize = 65_536;
pub const NAMES_BYTES: [usize; 2] = [18, 36];

/// The bytes that are lent for a list: each number has four, the low byte first.
pub fn bytes_of(steps: &[Numbers]) -> Vec<u8> {
    let numbers = steps.as_flattened().iter();
    numbers.flat_map(|number| number.to_le_bytes()).collect()
}

/// A number of up to so many digits, each count of them as often, and not above `last`.
fn some_digits(r: &mut Random, digits: u64, last: u32) -> u32 {
    let end = 10u64.pow(r.between(1, digits) as u32);
    (r.below(end) as u32).min(last)
}

/// A step in range under a heading, with any numbers where nothing is looked at.
pub fn good_step(r: &mut Random, heading: u32) -> Numbers {
    let mut unseen = || {
        let any = r.next() as u32;
        r.pick(&[0, 256, 1441, u32::MAX, any])
    };
    let [a, b, c, d] = [0; 4].map(|_| unseen());
    let item = some_digits(r, 3, 255);
    match r.below(if heading == 1 { 8 } else { 5 }) {
        0 => [FLUSH, r.pick(&[item, a]), b, c, d, a],
        1 | 2 => [READ, item, a, b, c, d],
        3 | 4 => [WRITE, item, some_digits(r, 4, 1440), a, b, c],
        5 => [RETIRE, item, a, b, c, d],
        _ => {
            let blocks = r.between(1, 16) as u32;
            let costs = [0; 2].map(|_| some_digits(r, 5, 65_535));
            [ARRIVE, item, a, blocks, costs[0], costs[1]]
        }
    }
}

/// A step out of range under a heading, at times by little.
pub fn faulty_step(r: &mut Random, heading: u32) -> Numbers {
    let good = good_step(r, heading);
    let any = r.next() as u32;
    let bit = 1 << r.between(8, 31);
    let mut step = good;
    match r.below(8) {
        0 => step[0] = any | 1 << 31,
        1 => step[0] = r.pick(&[0, 64, 66, 75, 77, 80, 83, 86, 88, 97, 113, 114, 119, 255]),
        2 => step[0] ^= bit,
        3 => {
            step[0] = r.pick(&[READ, WRITE, ARRIVE, RETIRE]);
            step[1] = r.pick(&[256, 257, 255 | bit, u32::MAX]);
        }
        4 => {
            let minutes = r.pick(&[1441, 1442, 1440 | 1 << 16, u32::MAX]);
            step = [WRITE, good[1] & 255, minutes, good[3], good[4], good[5]];
        }
        5 => {
            step = [ARRIVE, good[1] & 255, good[2], 1, 9, 65_535];
            let place = r.between(3, 5) as usize;
            step[place] = match place {
                3 => r.pick(&[0, 17, 16 | bit, u32::MAX]),
                _ => r.pick(&[65_536, 65_535 | 1 << 16, u32::MAX]),
            };
        }
        6 if heading == 0 => step = [r.pick(&[ARRIVE, RETIRE]), good[1] & 255, 0, 1, 1, 1],
        _ => step[0] = step[0].swap_bytes(),
    }
    step
}

/// How many bytes the line of a step in range has under a heading.
fn line_bytes([kind, item, minutes, blocks, load, write]: Numbers, heading: u32) -> usize {
    let digits = |number: u32| number.checked_ilog10().unwrap_or(0) as usize + 1;
    let rest = 6 * heading as usize;
    match kind {
        READ | RETIRE => 5 + digits(item) + rest,
        WRITE => 4 + digits(item) + digits(minutes) + rest,
        ARRIVE => 8 + digits(item) + digits(blocks) + digits(load) + digits(write),
        _ => 6 + rest,
    }
}

/// A step whose line has so many bytes: a write of 6 to 11 under the three names, an arrival of 12 to 23 under the six.
fn step_of_bytes(bytes: usize, heading: u32) -> Numbers {
    if heading == 0 {
        let item_digits = (bytes - 5).min(3);
        let minutes_digits = bytes - 4 - item_digits;
        let item = [5, 42, 217][item_digits - 1];
        return [WRITE, item, [7, 45, 600, 1440][minutes_digits - 1], 0, 0, 0];
    }
    let mut more = bytes - 12;
    let mut digits = |most: usize| {
        let some = more.min(most);
        more -= some;
        some
    };
    let cost = [8, 90, 700, 6_000, 50_000];
    let (item, blocks) = ([5, 42, 217][digits(2)], [3, 14][digits(1)]);
    [ARRIVE, item, 0, blocks, cost[digits(4)], cost[digits(4)]]
}

/// Steps in range whose log has so many bytes under a heading: more than one line of names and three steps.
pub fn steps_of_bytes(r: &mut Random, heading: u32, bytes: usize) -> Vec<Numbers> {
    let mut steps = Vec::new();
    let mut lacks = bytes - NAMES_BYTES[heading as usize];
    let (shortest, longest) = if heading == 1 { (12, 23) } else { (6, 11) };
    while lacks > 2 * longest {
        let step = good_step(r, heading);
        lacks -= line_bytes(step, heading);
        steps.push(step);
    }
    // What is left are two lines.
    let first = (lacks - shortest).min(longest);
    steps.extend([first, lacks - first].map(|bytes| step_of_bytes(bytes, heading)));
    steps
}

/// A heading's number: mostly one of the two.
pub fn some_heading(r: &mut Random) -> u32 {
    let odd = r.pick(&[2, 3, 256, 1 << 31, u32::MAX]);
    if r.one_in(40) { odd } else { r.below(2) as u32 }
}

/// How many steps a list has: mostly few.
fn some_count(r: &mut Random) -> u64 {
    let most = r.pick(&[1, 4, 12, 40, 40, 200]);
    if r.one_in(400) {
        12_000
    } else {
        r.below(most + 1)
    }
}

/// A list of steps for a heading: in range, of just the most bytes or about so, with one or two steps out of range, or all of it wild; and
/// at times with some bytes more than its steps, or cut off in one.
pub fn some_list(r: &mut Random, heading: u32) -> Vec<u8> {
    let heading = heading.min(1);
    let count = some_count(r);
    let mut steps: Vec<Numbers> = (0..count).map(|_| good_step(r, heading)).collect();
    if r.one_in(200) {
        let bytes = LOG_BYTES - 3 + r.below(7) as usize;
        steps = steps_of_bytes(r, heading, bytes);
    }
    let faults = r.pick(&[0, 0, 0, 0, 0, 1, 1, 2]);
    for _ in 0..faults {
        let any = r.below(steps.len() as u64 + 1) as usize;
        let place = r.pick(&[0, any, any, steps.len()]);
        steps.insert(place, faulty_step(r, heading));
    }
    if r.one_in(30) {
        steps
            .iter_mut()
            .for_each(|step| *step = [0; 6].map(|_| r.next() as u32));
    }
    let mut list = bytes_of(&steps);
    if r.one_in(8) {
        let rest = r.between(1, 23) as usize;
        let last = bytes_of(&[good_step(r, heading)]);
        list.extend_from_slice(&last[..rest]);
    }
    list
}
