//! The log's writer, `recorder_log`, against plain Rust that does the same checked work. bench/log/run builds and runs it:
//!   bench_log                             equal answers, pages and lengths, on lists and pages at random
//!   bench_log write NAME library|plain    writes one of the largest logs once, for callgrind to count; prints how many steps it has
//!   bench_log text NAME                   prints it
//!   bench_log list <VECTOR                what plain Rust answers to a vector of tests/vectors/lists
//! The largest logs: mixed, flushes (six bytes a line, so the most steps) and writes (eleven bytes a line, so the fewest), under the
//! three names; and six, all kinds mixed under the six names.

use std::io::{self, Read, Write};

use bench::calls;
use bench::lists::{LOG_BYTES, bytes_of, some_heading, some_list, steps_of_bytes};
use bench::plain::{FLUSH, Numbers, WRITE, of_three};
use bench::random::Random;
use plain_season::log;

/// What stands in the place of a text's length before it is told.
const UNTOLD: usize = 12_345;

type Writer = fn(u32, &[u8], &mut [u8], &mut usize) -> u64;

/// The plain writer under a name of its own, as the library's has one, so that callgrind can count what is below it.
#[unsafe(no_mangle)]
#[inline(never)]
fn plain_log_writer(heading: u32, steps: &[u8], page: &mut [u8], length: &mut usize) -> u64 {
    log::write(heading, steps, page, length)
}

/// One of the largest logs, as many steps as there is room for, and the number of its heading.
fn largest(name: &str) -> (u32, Vec<Numbers>) {
    let all = |step, bytes| vec![of_three(step); (LOG_BYTES - 18) / bytes];
    match name {
        "mixed" => (0, steps_of_bytes(&mut Random(1), 0, LOG_BYTES)),
        "flushes" => (0, all([FLUSH, 0, 0], 6)),
        "writes" => (0, all([WRITE, 255, 1440], 11)),
        "six" => (1, steps_of_bytes(&mut Random(1), 1, LOG_BYTES)),
        _ => usage(),
    }
}

fn usage() -> ! {
    eprintln!("usage: bench_log [write NAME library|plain | text NAME | list]");
    eprintln!("NAME is mixed, flushes, writes or six");
    std::process::exit(2);
}

/// Has both write a list under a heading on a page of so many bytes; a difference ends the program. Answers the number and the length.
fn both(heading: u32, list: &[u8], page_len: usize) -> (u64, usize) {
    let blank: Vec<u8> = (0..page_len)
        .map(|i| (i as u8).wrapping_mul(7) ^ 0xA5)
        .collect();
    let made = [calls::log as Writer, plain_log_writer].map(|writer| {
        let (mut page, mut length) = (blank.clone(), UNTOLD);
        let answer = writer(heading, list, &mut page, &mut length);
        (answer, length, page)
    });
    let [library, plain] = &made;
    let written = if plain.0 == 0 { plain.1 } else { 0 };
    let kept = plain.2[written..] == blank[written..] && (plain.0 == 0 || plain.1 == UNTOLD);
    if library != plain || !kept {
        println!(
            "DIFFERENCE: a list of {} bytes, heading {heading}, on a page of {page_len}: the library answers {:#x}, length {}; plain Rust {:#x}, length {}",
            list.len(),
            library.0,
            library.1,
            plain.0,
            plain.1
        );
        let file = std::env::temp_dir().join("log-difference.list");
        std::fs::write(&file, list).expect("the list is written");
        println!("  the list is in {}", file.display());
        std::process::exit(1);
    }
    (plain.0 & 0xFFFF_FFFF, written)
}

/// Lists and pages at random. A page of just the right size, a byte less and more, the largest, a small one and none.
fn compare() {
    let r = &mut Random(1);
    let mut answers = [0u64; 16];
    let mut ask = |heading: u32, list: &[u8], page_len: usize| {
        let (number, length) = both(heading, list, page_len);
        answers[number as usize] += 1;
        length
    };
    for _ in 0..20_000 {
        let heading = some_heading(r);
        let list = some_list(r, heading);
        let fits = ask(heading, &list, LOG_BYTES);
        for page_len in [
            fits,
            fits.saturating_sub(1),
            fits + 1,
            r.below(60) as usize,
            0,
        ] {
            ask(heading, &list, page_len);
        }
    }
    for name in ["mixed", "flushes", "writes", "six"] {
        let (heading, steps) = largest(name);
        assert!(
            ask(heading, &bytes_of(&steps), LOG_BYTES) > LOG_BYTES - 11,
            "{name}: one of the largest"
        );
    }
    println!(
        "compared: {} lists, equal answers, pages and lengths; answered 0: {}, 3: {}, 15: {}",
        answers.iter().sum::<u64>(),
        answers[0],
        answers[3],
        answers[15]
    );
}

/// Writes one of the largest logs, once. What is outside the call is not to be counted.
fn write(name: &str, which: &str) {
    let writer: Writer = match which {
        "library" => calls::log,
        "plain" => plain_log_writer,
        _ => usage(),
    };
    let (heading, steps) = largest(name);
    let (mut page, mut length) = (vec![0; LOG_BYTES], 0);
    let answer = writer(heading, &bytes_of(&steps), &mut page, &mut length);
    assert_eq!(answer, 0);
    println!("{}", steps.len());
}

fn text(name: &str) -> io::Result<()> {
    let (heading, steps) = largest(name);
    let (mut page, mut length) = (vec![0; LOG_BYTES], 0);
    let answer = log::write(heading, &bytes_of(&steps), &mut page, &mut length);
    assert_eq!(answer, 0);
    io::stdout().write_all(&page[..length])
}

/// A vector: the number of the heading and the length of the page, then the numbers of the steps.
fn list() -> io::Result<()> {
    let mut vector = String::new();
    io::stdin().read_to_string(&mut vector)?;
    let mut numbers = vector
        .split_ascii_whitespace()
        .map(|word| word.parse::<u32>().expect("a vector has numbers"));
    let heading = numbers.next().expect("the number of the heading");
    let page_len = numbers.next().expect("the length of the page");
    let list: Vec<u8> = numbers.flat_map(u32::to_le_bytes).collect();
    let (mut page, mut length) = (vec![0; page_len as usize], 0);
    let answer = log::write(heading, &list, &mut page, &mut length);
    if answer != 0 {
        let (number, line) = (answer & 0xFFFF_FFFF, answer >> 32);
        println!("{number} {line}");
    }
    io::stdout().write_all(&page[..length])
}

fn main() -> io::Result<()> {
    let words: Vec<String> = std::env::args().skip(1).collect();
    let words: Vec<&str> = words.iter().map(String::as_str).collect();
    match words.as_slice() {
        [] => compare(),
        ["write", name, which] => write(name, which),
        ["text", name] => text(name)?,
        ["list"] => list()?,
        _ => usage(),
    }
    Ok(())
}
