//! The programs `season` and `check_log`, run once for each text.

use std::io::{Read, Write};
use std::path::PathBuf;
use std::process::{Command, Stdio};

use crate::run::{Asked, Run, kept};

pub struct Program(pub PathBuf);

impl Program {
    /// What it prints for a text. It may leave bytes of a text that is too long unread.
    fn output(&self, text: &[u8]) -> std::io::Result<Vec<u8>> {
        let mut child = Command::new(&self.0)
            .stdin(Stdio::piped())
            .stdout(Stdio::piped())
            .spawn()?;
        let mut input = child.stdin.take().expect("it is piped");
        let unread = input.write_all(text).is_err();
        drop(input);
        let mut out = Vec::new();
        let mut output = child.stdout.take().expect("it is piped");
        output.read_to_end(&mut out)?;
        let status = child.wait()?;
        if !status.success() || unread && text.len() <= plain_season::MAX_BYTES {
            out.extend(format!("(ended with {status}, text left unread: {unread})").bytes());
        }
        Ok(out)
    }

    /// Has the program answer a text, as the plain Rust has.
    fn same(&self, run: &mut Run, text: &[u8], plain: &[u8]) {
        run.calls += 1;
        let proved = match self.output(text) {
            Ok(proved) => proved,
            Err(error) => panic!("{}: {error}", self.0.display()),
        };
        if proved != plain {
            let what = format!("a text of {} bytes is answered in two ways", text.len());
            let details = [
                kept("soak-difference.text", text),
                format!("the program:\n{}", String::from_utf8_lossy(&proved)),
                format!("plain Rust:\n{}", String::from_utf8_lossy(plain)),
            ];
            run.differ(&what, &details);
        }
    }

    /// Has `check_log` and the plain Rust answer a log alone. What is taken has to be printed as it is.
    pub fn compare_log(&self, run: &mut Run, text: &[u8]) {
        let plain = plain_season::log::output(text);
        self.same(run, text, &plain);
        let number = number(&String::from_utf8_lossy(&plain));
        if number == 0 && plain != text {
            run.differ(
                "a log that was taken is not printed as it is",
                &[kept("soak-difference.text", text)],
            );
        }
        run.tally.count(Asked::LogText, number);
        let longest_taken = number == 0 && text.len() == plain_season::MAX_BYTES;
        run.tally.longest_logs[1] += u64::from(longest_taken);
    }

    /// Has `season` and the plain Rust answer a text. Answers what both print.
    pub fn compare(&self, run: &mut Run, text: &[u8]) -> String {
        let plain = plain_season::output(text);
        self.same(run, text, plain.as_bytes());
        if let Some(sail) = sail(&plain) {
            if field_of_sail(&plain, text) != Some(sail.as_bytes()) {
                let details = [kept("soak-difference.text", text), plain.clone()];
                run.differ("a sail is told that does not stand on the line", &details);
            }
            run.tally.sails_told += 1;
        }
        let number = number(&plain);
        run.tally.count(Asked::Text, number);
        let longest_taken = number == 0 && text.len() == plain_season::MAX_BYTES;
        run.tally.longest_taken += u64::from(longest_taken);
        plain
    }
}

/// The number that a text is refused with, 0 if it is taken.
pub fn number(output: &str) -> u32 {
    let refusal = output.strip_prefix("refusal line\n");
    let number = refusal.and_then(|rest| rest.split(' ').next());
    number.map_or(0, |number| {
        number.parse().expect("a refusal has its number")
    })
}

/// The sail that the sentence of a refusal tells, if it tells one.
fn sail(output: &str) -> Option<&str> {
    let (_, sail) = output.split_once(", sail ")?;
    sail.strip_suffix(".\n")
}

/// Where the sail of a refused step or act stands in the text: on the line that the refusal names, behind the kind, which is first in
/// a step's line and second in an act's.
fn field_of_sail<'a>(output: &str, text: &'a [u8]) -> Option<&'a [u8]> {
    let (_, line) = output.lines().nth(1)?.split_once(' ')?;
    let line: usize = line.parse().ok()?;
    let mut lines = text.split(|&byte| byte == b'\n');
    let mut fields = lines.nth(line.checked_sub(1)?)?.split(|&byte| byte == b' ');
    fields.find(|field| matches!(field, [b'A'..=b'Z']))?;
    fields.next()
}

/// The last line of a report: from hits to total, rival, left and right.
pub fn figures(output: &str) -> Vec<u64> {
    let last = output.lines().next_back().unwrap_or("");
    let numbers = last.split(' ').map(str::parse);
    numbers
        .collect::<Result<_, _>>()
        .expect("a report's totals are numbers")
}
