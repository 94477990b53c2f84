//! Refusals in words: the library's sentence against that of the plain program `season`, for numbers in and out of the table, lines,
//! items and pages of all lengths. Every answer, the told length and all bytes of the page are compared.

use bench::calls;
use bench::plain::{OUT_OF_RANGE, SHORT_PAGE, TAKEN};
use bench::random::Random;

use crate::pair::{Lent, UNTOLD};
use crate::run::{Asked, Run};

/// The longest sentence there can be (RECORDER_SENTENCE_BYTES).
const LONGEST_SENTENCE: usize = 47;

/// A refusal's number: mostly one of the table or just past it, at times a wild one, or one of the table with a bit more.
fn some_number(r: &mut Random) -> u32 {
    let near = r.below(31) as u32;
    let any = r.next() as u32;
    let bit = 1 << r.below(32);
    match r.below(10) {
        0 => any,
        1 => near ^ bit,
        2 => r.pick(&[0, 22, 23, 24, 27, 28, u32::MAX]),
        _ => near,
    }
}

/// A line or an item: each count of digits at its ends, and of each size.
fn some_digits(r: &mut Random) -> u32 {
    let power = 10u32.pow(r.below(10) as u32);
    let any = r.next() as u32 >> r.below(32);
    r.pick(&[0, power - 1, power, u32::MAX, any, any])
}

/// One case: a refusal, on pages of just the right size, of a byte less, of one more, large ones, small ones and none. A refusal
/// without a word has no right size, and is asked for on any.
pub fn case(run: &mut Run) {
    let r = &mut run.random();
    let refusal = [some_number(r), some_digits(r), some_digits(r)];
    let [number, line, item] = refusal;
    let text = plain_season::sentence(number, line as usize, item as usize);
    let fits = text.as_ref().map_or(1, String::len);
    if fits > LONGEST_SENTENCE {
        let what = format!("a sentence of {fits} bytes in plain Rust");
        run.differ(&what, &[format!("{refusal:?}")]);
    }
    let short = r.below(fits as u64) as usize;
    let large = fits + r.below(100) as usize;
    for page_len in [fits, fits - 1, fits + 1, LONGEST_SENTENCE, large, short, 0] {
        compare(run, r, refusal, text.as_deref(), page_len);
    }
}

/// The library's sentence on a page of so many bytes. The plain one is none if the number has no word.
fn compare(run: &mut Run, r: &mut Random, refusal: [u32; 3], plain: Option<&str>, page_len: usize) {
    let blank: Vec<u8> = (0..page_len).map(|_| r.next() as u8).collect();
    let mut page = blank.clone();
    let (expected, length) = match plain {
        None => (OUT_OF_RANGE, UNTOLD),
        Some(text) if text.len() > page_len => (SHORT_PAGE, UNTOLD),
        Some(text) => {
            page[..text.len()].copy_from_slice(text.as_bytes());
            (TAKEN, text.len())
        }
    };

    let mut lent = Lent::of(&blank, r.below(16) as usize);
    let mut told = UNTOLD;
    let [number, line, item] = refusal;
    let answer = calls::sentence(number, line, item, lent.bytes_mut(), &mut told);
    run.calls += 1;
    if answer != expected || told != length || lent.bytes() != page || !lent.guards_kept() {
        let what = format!(
            "number {number}, line {line}, item {item} on a page of {page_len}: the library answers {answer}, length {told}; \
             it is to be {expected}, length {length}"
        );
        let details = [
            format!("plain Rust: {plain:?}"),
            format!("page before: {blank:?}"),
            format!("page after:  {:?}", lent.bytes()),
            format!("bytes around the page kept: {}", lent.guards_kept()),
        ];
        run.differ(&what, &details);
    }
    run.tally.count(Asked::Sentence, answer);
}
