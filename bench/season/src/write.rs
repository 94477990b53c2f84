//! A season as text, in the layout of the papers.

use std::fmt::{self, Write};

use crate::{Act, Deduction, Item, Step};

/// The first table is headed by its three names if a rule is given, else by the two of paper 01; the third by its six names if an item
/// arrives or leaves, or if they are asked for.
pub fn text(
    [k, h]: [u32; 2],
    rule: Option<Deduction>,
    catalog: &[Item],
    steps: &[Step],
    acts: &[(usize, Act)],
    six: bool,
) -> String {
    let mut out = match rule {
        None => format!("locker rival\n{k} {h}\n"),
        Some(rule) => format!("locker rival rule\n{k} {h} {}\n", rule.word()),
    };
    out += "\nsail blocks load write\n";
    let changes = |step: &Step| matches!(step, Step::Arrive { .. } | Step::Retire { .. });
    let six = six || steps.iter().any(changes);
    write_tables(&mut out, catalog, steps, acts, six).expect("a String takes every write");
    out
}

fn write_tables(
    out: &mut String,
    catalog: &[Item],
    steps: &[Step],
    acts: &[(usize, Act)],
    six: bool,
) -> fmt::Result {
    for (i, item) in catalog.iter().enumerate() {
        writeln!(out, "{i} {} {} {}", item.blocks, item.load, item.write)?;
    }
    let (names, rest) = if six {
        (" blocks load write", " - - -")
    } else {
        ("", "")
    };
    writeln!(out, "\nstep sail minutes{names}")?;
    for step in steps {
        match step {
            Step::Read { item } => writeln!(out, "R {item} -{rest}"),
            Step::Write { item, minutes } => writeln!(out, "W {item} {minutes}{rest}"),
            Step::Flush => writeln!(out, "L - -{rest}"),
            Step::Arrive { item, listed } => {
                let Item {
                    blocks,
                    load,
                    write,
                } = listed;
                writeln!(out, "A {item} - {blocks} {load} {write}")
            }
            Step::Retire { item } => writeln!(out, "Q {item} -{rest}"),
        }?;
    }
    writeln!(out, "\nat act sail")?;
    for (at, act) in acts {
        match act {
            Act::Evict { item } => writeln!(out, "{at} D {item}"),
            Act::Fetch { item } => writeln!(out, "{at} F {item}"),
        }?;
    }
    Ok(())
}
