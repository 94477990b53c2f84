//! A log alone, the third table of a text (paper 02: 'The recorder writes its own log'): written from a list of steps, and read into
//! one, each in one pass. A list has 24 bytes a step: kind, item, minutes, blocks, load and write, four bytes each, low byte first. A log
//! has one of two headings, the three names or the six; a number tells which, 0 or 1.

use crate::report::refused;
use crate::text::MAX_BYTES;
use crate::{Reason, Refusal};

const STEP_BYTES: usize = 24;

/// A step's numbers: kind, item, minutes, blocks, load and write.
type Numbers = [u32; 6];

const NAMES: [&[u8]; 2] = [
    b"step sail minutes\n",
    b"step sail minutes blocks load write\n",
];

const READ: u32 = b'R' as u32;
const WRITE: u32 = b'W' as u32;
const FLUSH: u32 = b'L' as u32; // landing
const ARRIVE: u32 = b'A' as u32;
const RETIRE: u32 = b'Q' as u32;

const LAST_ITEM: u32 = 255;
const MOST_MINUTES: u32 = 1440;
const MOST_BLOCKS: u32 = 16;
const MOST_COST: u32 = 65_535;

// The writer's refusals.
const OUT_OF_RANGE: u64 = 3; // off the tape
const SHORT_PAGE: u64 = 15; // short page

/// Room for a line; the longest, `A 255 - 16 65535 65535`, has 23 bytes with its line feed.
const LINE: usize = 32;

/// Puts a number of at most four digits at a place of a line. Answers the place behind it.
fn put_number(line: &mut [u8; LINE], mut at: usize, number: u32) -> usize {
    for power in [1000, 100, 10] {
        if number >= power {
            line[at] = b'0' + (number / power % 10) as u8;
            at += 1;
        }
    }
    line[at] = b'0' + (number % 10) as u8;
    at + 1
}

/// The same of at most five.
fn put_cost(line: &mut [u8; LINE], at: usize, number: u32) -> usize {
    if number < 10_000 {
        return put_number(line, at, number);
    }
    line[at] = b'0' + (number / 10_000) as u8;
    for (place, power) in [1000, 100, 10, 1].into_iter().enumerate() {
        line[at + 1 + place] = b'0' + (number / power % 10) as u8;
    }
    at + 5
}

/// Puts what stands behind a step's minutes, where it has no more values.
fn put_end<const SIX: bool>(line: &mut [u8; LINE], at: usize) -> usize {
    let end: &[u8] = if SIX { b" - - -\n" } else { b"\n" };
    line[at..at + end.len()].copy_from_slice(end);
    at + end.len()
}

/// Puts the line of a step, under the six names or the three. Answers how many bytes it has; none for a step out of range.
#[inline(always)]
fn put_step<const SIX: bool>(line: &mut [u8; LINE], step: Numbers) -> Option<usize> {
    let [kind, item, minutes, blocks, load, write] = step;
    match kind {
        READ if item <= LAST_ITEM => {
            line[..2].copy_from_slice(b"R ");
            let at = put_number(line, 2, item);
            line[at..at + 2].copy_from_slice(b" -");
            Some(put_end::<SIX>(line, at + 2))
        }
        WRITE if item <= LAST_ITEM && minutes <= MOST_MINUTES => {
            line[..2].copy_from_slice(b"W ");
            let at = put_number(line, 2, item);
            line[at] = b' ';
            let at = put_number(line, at + 1, minutes);
            Some(put_end::<SIX>(line, at))
        }
        FLUSH => {
            line[..5].copy_from_slice(b"L - -");
            Some(put_end::<SIX>(line, 5))
        }
        ARRIVE if SIX && item <= LAST_ITEM && is_item(blocks, load, write) => {
            line[..2].copy_from_slice(b"A ");
            let at = put_number(line, 2, item);
            line[at..at + 3].copy_from_slice(b" - ");
            let at = put_number(line, at + 3, blocks);
            line[at] = b' ';
            let at = put_cost(line, at + 1, load);
            line[at] = b' ';
            let at = put_cost(line, at + 1, write);
            line[at] = b'\n';
            Some(at + 1)
        }
        RETIRE if SIX && item <= LAST_ITEM => {
            line[..2].copy_from_slice(b"Q ");
            let at = put_number(line, 2, item);
            line[at..at + 2].copy_from_slice(b" -");
            Some(put_end::<SIX>(line, at + 2))
        }
        _ => None,
    }
}

fn is_item(blocks: u32, load: u32, write: u32) -> bool {
    (1..=MOST_BLOCKS).contains(&blocks) && load <= MOST_COST && write <= MOST_COST
}

fn numbers(step: &[u8; STEP_BYTES]) -> Numbers {
    [0, 4, 8, 12, 16, 20]
        .map(|at| u32::from_le_bytes([step[at], step[at + 1], step[at + 2], step[at + 3]]))
}

/// What is out of range is told with its line in the high half of the answer, as far as 32 bits hold it.
fn out_of_range(line: usize) -> u64 {
    let line = u32::try_from(line).unwrap_or(u32::MAX);
    u64::from(line) << 32 | OUT_OF_RANGE
}

/// Writes the log of a list under a heading at the start of the page and tells its length. Answers a number in the low half and its line
/// in the high half. The text is made aside, since the page has to be as it was if a step is refused: this is faster than to measure it
/// first.
pub fn write(heading: u32, list: &[u8], page: &mut [u8], length: &mut usize) -> u64 {
    match heading {
        0 => write_under::<false>(list, page, length),
        1 => write_under::<true>(list, page, length),
        _ => out_of_range(1),
    }
}

fn write_under<const SIX: bool>(list: &[u8], page: &mut [u8], length: &mut usize) -> u64 {
    // A text that is too long ends a byte past the limit, and there is room for a line more.
    let mut text = [0; MAX_BYTES + 1 + LINE];
    let names = NAMES[usize::from(SIX)];
    text[..names.len()].copy_from_slice(names);
    let mut end = names.len();
    let (steps, rest) = list.as_chunks();
    for (place, step) in steps.iter().enumerate() {
        let line = text[end..].first_chunk_mut().expect("room for a line");
        let Some(bytes) = put_step::<SIX>(line, numbers(step)) else {
            return out_of_range(place + 2);
        };
        end = (end + bytes).min(MAX_BYTES + 1);
    }
    if !rest.is_empty() {
        return out_of_range(steps.len() + 2);
    }
    match page.get_mut(..end) {
        Some(start) if end <= MAX_BYTES => {
            start.copy_from_slice(&text[..end]);
            *length = end;
            0
        }
        _ => SHORT_PAGE,
    }
}

/// The text that is not yet read.
struct Bytes<'a>(&'a [u8]);

impl Bytes<'_> {
    /// What stands next has to be this.
    #[inline(always)]
    fn due<const N: usize>(&mut self, bytes: &[u8; N]) -> Option<()> {
        self.0 = self.0.strip_prefix(bytes)?;
        Some(())
    }

    /// A number of any count of digits; no zero stands in front of another digit. One of 100,000 or more counts as that, which is
    /// outside every range too.
    #[inline(always)]
    fn number(&mut self) -> Option<u32> {
        let [first @ b'0'..=b'9', rest @ ..] = self.0 else {
            return None;
        };
        self.0 = rest;
        let mut value = u32::from(first - b'0');
        if value != 0 {
            while let [digit @ b'0'..=b'9', rest @ ..] = self.0 {
                self.0 = rest;
                value = (10 * value + u32::from(digit - b'0')).min(100_000);
            }
        }
        Some(value)
    }

    fn number_or_dash(&mut self) -> Option<()> {
        self.due(b"-").or_else(|| self.number().map(|_| ()))
    }

    /// What stands behind a step's minutes, where it has no more values.
    #[inline(always)]
    fn end<const SIX: bool>(&mut self) -> Option<()> {
        if SIX {
            self.due(b" - - -\n")
        } else {
            self.due(b"\n")
        }
    }

    /// The step on the next line, under the six names or the three: none if the line has not the shape that its kind wants, up to its
    /// line feed; and then none if it is out of range.
    #[inline(always)]
    fn step<const SIX: bool>(&mut self) -> Option<Option<Numbers>> {
        let [kind @ b'A'..=b'Z', b' ', rest @ ..] = self.0 else {
            return None;
        };
        self.0 = rest;
        let step = match kind {
            b'R' => {
                let item = self.number()?;
                self.due(b" -")?;
                self.end::<SIX>()?;
                (item <= LAST_ITEM).then_some([READ, item, 0, 0, 0, 0])
            }
            b'W' => {
                let item = self.number()?;
                self.due(b" ")?;
                let minutes = self.number()?;
                self.end::<SIX>()?;
                (item <= LAST_ITEM && minutes <= MOST_MINUTES)
                    .then_some([WRITE, item, minutes, 0, 0, 0])
            }
            b'L' => {
                self.due(b"- -")?;
                self.end::<SIX>()?;
                Some([FLUSH, 0, 0, 0, 0, 0])
            }
            b'A' if SIX => {
                let item = self.number()?;
                self.due(b" - ")?;
                let blocks = self.number()?;
                self.due(b" ")?;
                let load = self.number()?;
                self.due(b" ")?;
                let write = self.number()?;
                self.due(b"\n")?;
                (item <= LAST_ITEM && is_item(blocks, load, write))
                    .then_some([ARRIVE, item, 0, blocks, load, write])
            }
            b'Q' if SIX => {
                let item = self.number()?;
                self.due(b" -")?;
                self.end::<SIX>()?;
                (item <= LAST_ITEM).then_some([RETIRE, item, 0, 0, 0, 0])
            }
            _ => {
                self.number_or_dash()?;
                for _ in 0..if SIX { 4 } else { 1 } {
                    self.due(b" ")?;
                    self.number_or_dash()?;
                }
                self.due(b"\n")?;
                None
            }
        };
        Some(step)
    }
}

/// The number of a log's heading, and its steps, each as the bytes that a list has of it; or the refusal of its first faulty line.
pub fn read(text: &[u8]) -> Result<(u32, Vec<[[u8; 4]; 6]>), Refusal> {
    if text.len() > MAX_BYTES {
        return Err(Reason::InputTooLong.on(0));
    }
    if let Some(rest) = text.strip_prefix(NAMES[0]) {
        return Ok((0, steps::<false>(rest)?));
    }
    if let Some(rest) = text.strip_prefix(NAMES[1]) {
        return Ok((1, steps::<true>(rest)?));
    }
    let ended = text.is_empty() || text.contains(&b'\n');
    let reason = if ended {
        Reason::Heading
    } else {
        Reason::Malformed
    };
    Err(reason.on(1))
}

fn steps<const SIX: bool>(text: &[u8]) -> Result<Vec<[[u8; 4]; 6]>, Refusal> {
    // A line has six bytes or more.
    let mut steps = Vec::with_capacity(text.len() / 6);
    let mut bytes = Bytes(text);
    let mut line = 1;
    while !bytes.0.is_empty() {
        line += 1;
        match bytes.step::<SIX>() {
            Some(Some(step)) => steps.push(step.map(u32::to_le_bytes)),
            Some(None) => return Err(Reason::OutOfRange.on(line)),
            None => return Err(Reason::Malformed.on(line)),
        }
    }
    Ok(steps)
}

/// What the program `check_log` prints for a log: the text of its steps, or its refusal.
pub fn output(text: &[u8]) -> Vec<u8> {
    let (heading, steps) = match read(text) {
        Ok(read) => read,
        Err(refusal) => return refused(refusal).into_bytes(),
    };
    let list = steps.as_flattened().as_flattened();
    let mut page = vec![0; MAX_BYTES];
    let mut length = 0;
    let answer = write(heading, list, &mut page, &mut length);
    assert_eq!(answer, 0, "what was read can be written");
    page.truncate(length);
    page
}
