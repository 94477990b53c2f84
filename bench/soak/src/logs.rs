//! Logs: lists of steps, written by the library and by the plain Rust on pages of all lengths; every answer, the told length, all bytes of
//! the page and of the list are compared. And logs alone as text, whole and damaged, through the program `check_log`.

use bench::calls;
use bench::lists::{LOG_BYTES, bytes_of, good_step, some_heading, some_list, steps_of_bytes};
use bench::random::Random;
use plain_season::log;

use crate::damage::{LOG, damage};
use crate::pair::{Lent, UNTOLD};
use crate::program::Program;
use crate::run::{Asked, Run, kept};

/// Lists to a case, beside one text.
pub const TO_A_TEXT: u64 = 10;

/// One case: some lists, and a text.
pub fn case(run: &mut Run, program: &Program) {
    let r = &mut run.random();
    for _ in 0..TO_A_TEXT {
        let heading = some_heading(r);
        let list = some_list(r, heading);
        on_pages(run, r, heading, &list);
    }
    let mut text = some_text(r);
    if !r.one_in(4) {
        for _ in 0..r.pick(&[1, 1, 1, 2, 4]) {
            damage(r, &mut text, LOG);
        }
    }
    program.compare_log(run, &text);
}

/// The text of some steps in range under one of the headings, at times of just the most bytes or about so.
fn some_text(r: &mut Random) -> Vec<u8> {
    let heading = r.below(2) as u32;
    let most = r.pick(&[0, 1, 4, 12, 40, 200]);
    let count = r.below(most + 1);
    let mut steps: Vec<_> = (0..count).map(|_| good_step(r, heading)).collect();
    let mut page = vec![0; LOG_BYTES];
    let mut length = 0;
    if r.one_in(60) {
        let bytes = r.pick(&[LOG_BYTES - 1, LOG_BYTES, LOG_BYTES]);
        steps = steps_of_bytes(r, heading, bytes);
    }
    let answer = log::write(heading, &bytes_of(&steps), &mut page, &mut length);
    assert_eq!(answer, 0);
    page.truncate(length);
    if length == LOG_BYTES && r.one_in(4) {
        page.push(b'\n');
    }
    page
}

/// A list on pages of just the right size, of a byte less, of one more, on the longest, a small one and none. A list that is refused has
/// no right size, and is asked for on any.
fn on_pages(run: &mut Run, r: &mut Random, heading: u32, list: &[u8]) {
    let fits = compare(run, r, heading, list, LOG_BYTES);
    let short = r.below(fits as u64 + 1) as usize;
    for page_len in [
        fits,
        fits.saturating_sub(1),
        fits + 1,
        LOG_BYTES + 1,
        short,
        0,
    ] {
        compare(run, r, heading, list, page_len);
    }
}

/// The log of a list under a heading on a page of so many bytes. Answers the text's length, or 0.
fn compare(run: &mut Run, r: &mut Random, heading: u32, list: &[u8], page_len: usize) -> usize {
    let blank = vec![r.next() as u8; page_len];
    let (mut page, mut length) = (blank.clone(), UNTOLD);
    let expected = log::write(heading, list, &mut page, &mut length);

    let steps = Lent::of(list, r.below(16) as usize);
    let mut lent = Lent::of(&blank, r.below(16) as usize);
    let mut told = UNTOLD;
    let answer = calls::log(heading, steps.bytes(), lent.bytes_mut(), &mut told);
    run.calls += 1;

    let kept_else = lent.guards_kept() && steps.guards_kept() && steps.bytes() == list;
    let written = if expected == 0 { length } else { 0 };
    let page_kept = page[written..] == blank[written..] && (expected == 0 || length == UNTOLD);
    if answer != expected || told != length || lent.bytes() != page || !kept_else || !page_kept {
        let what = format!(
            "a list of {} bytes, heading {heading}, on a page of {page_len}: the library answers {}, line {}, length {told}; \
             plain Rust {}, line {}, length {length}",
            list.len(),
            answer as u32,
            answer >> 32,
            expected as u32,
            expected >> 32
        );
        let details = [
            kept("soak-difference.list", list),
            kept("soak-difference.library-page", lent.bytes()),
            kept("soak-difference.plain-page", &page),
            format!("the list and the bytes around it and around the page kept: {kept_else}"),
            format!(
                "what is to be kept of the page and the length kept by plain Rust: {page_kept}"
            ),
        ];
        run.differ(&what, &details);
    }
    run.tally.count(Asked::Log, answer as u32);
    run.tally.longest_logs[0] += u64::from(written == LOG_BYTES);
    written
}
