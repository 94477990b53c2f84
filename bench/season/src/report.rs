//! The report of a closed season, and the output of a refused text.

use std::fmt::{self, Write};

use crate::cache::Counts;
use crate::{sentence, Refusal};

/// The report on a closed cache of `k` blocks, beside a plan of `h` blocks that costs `rival`.
pub fn report(counts: &Counts, k: u32, h: u32, rival: u64) -> String {
    let total = counts.load_cost + counts.write_cost;
    let left = u64::from(k - h + 1) * total;
    let right = u64::from(k) * rival;
    let figures = format!(" {rival} {left} {right}");
    written(counts, " rival left right", &figures)
}

/// The report on a cache by itself, open or closed.
pub fn alone(counts: &Counts) -> String {
    written(counts, "", "")
}

/// A refusal: its names, its number and line, and its sentence.
pub fn refused(Refusal { reason, line }: Refusal) -> String {
    let number = reason.number();
    let sentence = sentence(number, line, reason.item()).expect("each reason has its word");
    format!("refusal line\n{number} {line}\n{sentence}")
}

/// A report whose last two lines end so.
fn written(counts: &Counts, names: &str, figures: &str) -> String {
    let mut out = String::new();
    write_report(&mut out, counts, names, figures).expect("a String takes every write");
    out
}

fn write_report(out: &mut String, counts: &Counts, names: &str, figures: &str) -> fmt::Result {
    writeln!(out, "sail tenths loads writebacks")?;
    for (i, item) in counts.items.iter().enumerate() {
        writeln!(
            out,
            "{i} {} {} {}",
            item.minutes / 6,
            item.loads,
            item.writebacks
        )?;
    }
    writeln!(
        out,
        "\nhits loads loadcost drops dirtydrops writebacks writecost total{names}"
    )?;
    writeln!(
        out,
        "{} {} {} {} {} {} {} {}{figures}",
        counts.hits,
        counts.loads,
        counts.load_cost,
        counts.evictions,
        counts.dirty_evictions,
        counts.writebacks,
        counts.write_cost,
        counts.load_cost + counts.write_cost,
    )
}
