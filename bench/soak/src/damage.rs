//! Damage to a season's text, or to a log alone: to its bytes, its lines, its fields and its length.

use bench::random::Random;
use plain_season::MAX_BYTES;

/// Fields that stand at the edge of something, or are no numbers.
const FIELDS: [&str; 48] = [
    "0",
    "1",
    "2",
    "5",
    "6",
    "15",
    "16",
    "17",
    "254",
    "255",
    "256",
    "257",
    "1439",
    "1440",
    "1441",
    "4095",
    "4096",
    "4097",
    "65535",
    "65536",
    "999999",
    "1000000",
    "1000001",
    "4294967295",
    "4294967296",
    "4294967297",
    "18446744073709551615",
    "18446744073709551616",
    "18446744073709551617",
    "340282366920938463463374607431768211457",
    "-",
    "--",
    "00",
    "01",
    "+1",
    "-1",
    "1.0",
    "1e2",
    "0x1",
    "",
    "R",
    "W",
    "L",
    "A",
    "Q",
    "D",
    "F",
    "²",
];

const KINDS: [&str; 16] = [
    "R", "W", "L", "D", "F", "A", "Q", "Z", "@", "[", "r", "w", "RR", "", "-", "0",
];

/// For each field of each table, values around its limits, and ones of another shape.
const SIZE: &[&str] = &["0", "1", "2", "4095", "4096", "4097", "-", "01"];
const SAIL: &[&str] = &["0", "1", "2", "254", "255", "256", "257", "-", "00"];
const BLOCKS: &[&str] = &["0", "1", "2", "15", "16", "17", "-", "x"];
const COST: &[&str] = &["0", "1", "65534", "65535", "65536", "-", "065535"];
const STEP: &[&str] = &["R", "W", "L", "A", "Q", "D", "F", "r", "WW", "1", "-"];
const MINUTES: &[&str] = &["0", "5", "1439", "1440", "1441", "-", "--", "06"];
const RULE: &[&str] = &[
    "write-first",
    "load-first",
    "write-firs",
    "load-firstt",
    "Load-first",
    "loadfirst",
    "load-first\r",
    "-",
    "0",
    "1",
    "",
];
const AT: &[&str] = &["0", "1", "2", "8", "999999", "1000000", "-", "00"];
const ACT: &[&str] = &["D", "F", "R", "W", "L", "A", "Z", "d", "DF", "0", "-"];
type Tables = [&'static [&'static [&'static str]]];

/// The tables of a season's text, and of a log alone.
pub const SEASON: &Tables = &[
    &[SIZE, SIZE, RULE],
    &[SAIL, BLOCKS, COST, COST],
    &[STEP, SAIL, MINUTES, BLOCKS, COST, COST],
    &[AT, ACT, SAIL],
];
pub const LOG: &Tables = &[&[STEP, SAIL, MINUTES, BLOCKS, COST, COST]];

const BYTES: &[u8] = b" \n\n-0123456789RWLDFX\t\r\0\x0B\xA0\xFF:/@[";

/// A place below `end`, or 0.
fn place(r: &mut Random, end: usize) -> usize {
    r.below(end.max(1) as u64) as usize
}

fn lines(text: &[u8]) -> Vec<Vec<u8>> {
    text.split_inclusive(|&byte| byte == b'\n')
        .map(<[u8]>::to_vec)
        .collect()
}

fn byte(r: &mut Random, text: &mut Vec<u8>) {
    let at = place(r, text.len());
    let any = r.next() as u8;
    let mut new = r.pick(BYTES);
    if r.one_in(4) {
        new = any;
    }
    match r.below(3) {
        0 => text.insert(at, new),
        1 if !text.is_empty() => drop(text.remove(at)),
        _ if !text.is_empty() => text[at] = new,
        _ => {}
    }
}

/// A line dropped, doubled, moved, joined to the next, or swapped with another.
fn line(r: &mut Random, text: &mut Vec<u8>) {
    let mut lines = lines(text);
    if lines.is_empty() {
        return;
    }
    let (i, j) = (place(r, lines.len()), place(r, lines.len()));
    let next = (i + 1).min(lines.len() - 1);
    match r.below(8) {
        0 => drop(lines.remove(i)),
        1 => lines.insert(i, lines[i].clone()),
        2 => lines.insert(j, lines[i].clone()),
        3 => lines.swap(i, j),
        4 => lines.swap(i, next),
        5 => drop(lines[i].pop()),
        6 => lines.insert(i, b"\n".to_vec()),
        _ => lines.retain(|line| line != b"\n"),
    }
    *text = lines.concat();
}

/// A field or two of a value line at the limits of their own ranges, or of another shape.
fn limits(r: &mut Random, text: &mut Vec<u8>, tables: &Tables) {
    let mut lines = lines(text);
    let table = place(r, tables.len());
    let blanks = (0..lines.len()).filter(|&i| lines[i] == b"\n");
    let ends: Vec<usize> = blanks.chain([lines.len()]).collect();
    let starts: Vec<usize> = [0]
        .into_iter()
        .chain(ends.iter().map(|end| end + 1))
        .collect();
    let Some(&end) = ends.get(table) else {
        return;
    };
    let first = starts[table] + 1;
    if first >= end {
        return;
    }
    let line = &mut lines[first + place(r, end - first)];
    let bare = line.strip_suffix(b"\n").unwrap_or(line);
    let mut fields = split(bare);
    for _ in 0..r.pick(&[1, 1, 2, 3]) {
        let i = place(r, fields.len().min(tables[table].len()));
        fields[i] = r.pick(tables[table][i]).into();
        if r.one_in(8) {
            by_one(r, &mut fields[i]);
        }
    }
    *line = fields.join(&b' ');
    line.push(b'\n');
    *text = lines.concat();
}

fn split(line: &[u8]) -> Vec<Vec<u8>> {
    line.split(|&byte| byte == b' ')
        .map(<[u8]>::to_vec)
        .collect()
}

/// A field of a line changed, dropped, doubled, swapped with another, or its number written otherwise.
fn field(r: &mut Random, text: &mut Vec<u8>) {
    let mut lines = lines(text);
    if lines.is_empty() {
        return;
    }
    let i = place(r, lines.len());
    let feed = lines[i].ends_with(b"\n");
    let bare = lines[i].strip_suffix(b"\n").unwrap_or(&lines[i]);
    let mut fields = split(bare);
    let (a, b) = (place(r, fields.len()), place(r, fields.len()));
    match r.below(12) {
        0..=3 => fields[a] = r.pick(&FIELDS).into(),
        4 => fields[a] = r.pick(&KINDS).into(),
        5 => drop(fields.remove(a)),
        6 => fields.insert(a, r.pick(&FIELDS).into()),
        7 => fields.swap(a, b),
        8 => fields[a].insert(0, r.pick(b"0+- ")),
        9 => fields[a].push(r.pick(b"0123456789- ")),
        10 => by_one(r, &mut fields[a]),
        _ => other_case(&mut fields[a]),
    }
    lines[i] = fields.join(&b' ');
    lines[i].extend(feed.then_some(b'\n'));
    *text = lines.concat();
}

/// Small letters for capitals, and the other way round.
fn other_case(field: &mut [u8]) {
    let letters = field.iter_mut().filter(|byte| byte.is_ascii_alphabetic());
    letters.for_each(|byte| *byte ^= 0x20);
}

/// A number one more or less.
fn by_one(r: &mut Random, field: &mut Vec<u8>) {
    let number = std::str::from_utf8(field)
        .ok()
        .and_then(|word| word.parse::<u64>().ok());
    if let Some(number) = number {
        let other = r.pick(&[number.wrapping_add(1), number.saturating_sub(1)]);
        *field = other.to_string().into_bytes();
    }
}

/// Spaces and line ends as other programs write them.
fn blanks(r: &mut Random, text: &mut Vec<u8>) {
    let mut lines = lines(text);
    if lines.is_empty() {
        return;
    }
    let i = place(r, lines.len());
    let line = &mut lines[i];
    let end = line.len().saturating_sub(1);
    let space = line.iter().position(|&byte| byte == b' ');
    match r.below(6) {
        0 => line.insert(end, b' '),
        1 => line.insert(0, b' '),
        2 => line.insert(end, b'\r'),
        3 => line.insert(space.unwrap_or(end), b' '),
        4 => line[space.unwrap_or(end)] = b'\t',
        _ => line.insert(end, r.pick(b"\0\n\t-0")),
    }
    *text = lines.concat();
}

/// The end: cut off, without its line feed, or with something behind it.
fn end(r: &mut Random, text: &mut Vec<u8>) {
    match r.below(6) {
        0 => text.truncate(place(r, text.len())),
        1 => drop(text.pop()),
        2 => text.push(b'\n'),
        3 => text.push(r.pick(BYTES)),
        4 => text.extend_from_within(..),
        _ => {
            let at = text.len().saturating_sub(place(r, 40));
            text.truncate(at);
        }
    }
}

/// One number of very many digits, so that the text is as long as one may be, or about so.
fn huge(r: &mut Random, text: &mut Vec<u8>) {
    let digits: Vec<usize> = (0..text.len())
        .filter(|&i| text[i].is_ascii_digit())
        .collect();
    if digits.is_empty() {
        return;
    }
    let at = r.pick(&digits);
    let digit = r.pick(b"0019");
    let long = MAX_BYTES + place(r, 5) - 2;
    let count = r.pick(&[1, 10, 25, 100, long.saturating_sub(text.len())]);
    text.splice(at..at, std::iter::repeat_n(digit, count));
}

/// A table left out, doubled, or swapped with another. Tables are split by blank lines.
fn table(r: &mut Random, text: &mut Vec<u8>) {
    let lines = lines(text);
    let mut tables: Vec<Vec<u8>> = lines
        .split(|line| line == b"\n")
        .map(<[Vec<u8>]>::concat)
        .collect();
    let (i, j) = (place(r, tables.len()), place(r, tables.len()));
    match r.below(3) {
        0 => drop(tables.remove(i)),
        1 => tables.insert(i, tables[i].clone()),
        _ => tables.swap(i, j),
    }
    *text = tables.join(&b'\n');
}

/// The other of the two headings over the steps, whose lines stay as they are.
fn other_heading(text: &mut Vec<u8>) {
    const THREE: &[u8] = b"step sail minutes\n";
    const SIX: &[u8] = b"step sail minutes blocks load write\n";
    let mut lines = lines(text);
    for line in &mut lines {
        match line.as_slice() {
            THREE => *line = SIX.to_vec(),
            SIX => *line = THREE.to_vec(),
            _ => {}
        }
    }
    *text = lines.concat();
}

/// The heading of the first table and the third field of its line: one of the two headings and one of the rules, whether they go
/// together or not; an odd word, with any bytes that a field may have; an empty field, a field more or less. At times k and h are out
/// of range too, or h above k, so that it is seen which refusal comes first.
pub fn spoil_rule(r: &mut Random, text: &mut Vec<u8>) {
    let mut lines = lines(text);
    if lines.len() < 2 {
        return;
    }
    let heading: &[u8] = r.pick(&[b"locker rival rule", b"locker rival rule", b"locker rival"]);
    let bare = lines[1].strip_suffix(b"\n").unwrap_or(&lines[1]);
    let mut fields = split(bare);
    fields.truncate(2);
    let count = r.pick(&[0, 1, 1, 1, 1, 1, 1, 2]);
    fields.extend((0..count).map(|_| word(r)));
    if r.one_in(4) {
        let i = place(r, fields.len().min(2));
        fields[i] = r.pick(SIZE).into();
    }
    lines[0] = [heading, b"\n"].concat();
    lines[1] = fields.join(&b' ');
    lines[1].push(b'\n');
    *text = lines.concat();
}

/// A word in the place of a rule: one of the two, one that differs from it by a byte, or any bytes but space and line feed.
fn word(r: &mut Random) -> Vec<u8> {
    let mut word = r.pick(RULE).as_bytes().to_vec();
    if r.one_in(3) {
        byte(r, &mut word);
    }
    if r.one_in(8) {
        let count = r.pick(&[1, 2, 11, 300]);
        word = (0..count).map(|_| r.next() as u8).collect();
    }
    word.retain(|&byte| byte != b' ' && byte != b'\n');
    word
}

/// Damages a text of such tables once.
pub fn damage(r: &mut Random, text: &mut Vec<u8>, tables: &Tables) {
    match r.below(33) {
        32 => other_heading(text),
        0..=4 => byte(r, text),
        5..=8 => line(r, text),
        9..=20 => limits(r, text, tables),
        21..=25 => field(r, text),
        26..=27 => blanks(r, text),
        28..=29 => end(r, text),
        30 => huge(r, text),
        _ => table(r, text),
    }
}
