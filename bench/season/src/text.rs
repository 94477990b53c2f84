//! The text input: four tables, read line by line up to the first faulty line.

use crate::{Act, Deduction, Item, Reason, Refusal, Step};

pub const MAX_BYTES: usize = 65_536;

/// An accepted text.
pub struct Season {
    pub k: u32,
    pub h: u32,
    pub rule: Deduction,
    /// The items of the second table, and behind them those that arrive.
    pub items: Vec<Item>,
    /// How many the second table has.
    pub listed: usize,
    pub steps: Vec<Step>,
    /// Each act with the step before which it stands, in the order of the steps.
    pub acts: Vec<(usize, Act)>,
    /// The lines on which the first step and the first act stand, for the plan's refusals.
    pub first_step_line: usize,
    pub first_act_line: usize,
}

impl Season {
    /// The items of the second table.
    pub fn catalog(&self) -> &[Item] {
        &self.items[..self.listed]
    }
}

/// An item, the first place of an act that may name it, and the place of the step at which it leaves, if it does.
struct Known {
    item: Item,
    since: usize,
    until: Option<usize>,
}

pub fn parse(text: &[u8]) -> Result<Season, Refusal> {
    let mut lines = Lines {
        rest: text,
        number: 0,
    };
    if text.len() > MAX_BYTES {
        return Err(lines.refusal(Reason::InputTooLong));
    }

    let names = lines.due()?;
    let with_rule = names == b"locker rival rule";
    if !with_rule && names != b"locker rival" {
        return Err(lines.refusal(Reason::Heading));
    }
    let line = lines.due()?;
    let (k, h, rule) = sizes(line, with_rule).map_err(|reason| lines.refusal(reason))?;
    if lines.value()?.is_some() {
        return Err(lines.refusal(Reason::Malformed));
    }

    lines.heading(b"sail blocks load write")?;
    let mut items = Vec::new();
    while let Some(line) = lines.value()? {
        let item = item(line, items.len()).map_err(|reason| lines.refusal(reason))?;
        items.push(Known {
            item,
            since: 0,
            until: None,
        });
    }
    let listed = items.len();

    let names = lines.due()?;
    let six = names == b"step sail minutes blocks load write";
    if !six && names != b"step sail minutes" {
        return Err(lines.refusal(Reason::Heading));
    }
    let first_step_line = lines.number + 1;
    let mut steps = Vec::new();
    while let Some(line) = lines.value()? {
        let step = step(line, six)
            .and_then(|step| allowed(step, k, &items))
            .map_err(|reason| lines.refusal(reason))?;
        match step {
            Step::Arrive { listed, .. } => items.push(Known {
                item: listed,
                since: steps.len() + 1,
                until: None,
            }),
            Step::Retire { item } => items[item].until = Some(steps.len()),
            _ => {}
        }
        steps.push(step);
    }

    lines.heading(b"at act sail")?;
    let first_act_line = lines.number + 1;
    let mut acts = Vec::new();
    let mut earliest = 0;
    while let Some(line) = lines.next_line()? {
        let (at, act) =
            act(line, earliest, steps.len(), &items).map_err(|reason| lines.refusal(reason))?;
        acts.push((at, act));
        earliest = at;
    }

    Ok(Season {
        k,
        h,
        rule,
        items: items.into_iter().map(|known| known.item).collect(),
        listed,
        steps,
        acts,
        first_step_line,
        first_act_line,
    })
}

struct Lines<'a> {
    rest: &'a [u8],
    /// The line that was read last, or the one behind the end.
    number: usize,
}

impl<'a> Lines<'a> {
    fn refusal(&self, reason: Reason) -> Refusal {
        reason.on(self.number)
    }

    /// The next line without its line feed; none at the end of the text.
    fn next_line(&mut self) -> Result<Option<&'a [u8]>, Refusal> {
        self.number += 1;
        if self.rest.is_empty() {
            return Ok(None);
        }
        match self.rest.iter().position(|&byte| byte == b'\n') {
            Some(end) => {
                let line = &self.rest[..end];
                self.rest = &self.rest[end + 1..];
                Ok(Some(line))
            }
            None => Err(self.refusal(Reason::Malformed)),
        }
    }

    /// A line that has to be there.
    fn due(&mut self) -> Result<&'a [u8], Refusal> {
        self.next_line()?
            .ok_or_else(|| self.refusal(Reason::Heading))
    }

    fn heading(&mut self, names: &[u8]) -> Result<(), Refusal> {
        if self.due()? == names {
            Ok(())
        } else {
            Err(self.refusal(Reason::Heading))
        }
    }

    /// The next value line of a table that a blank line ends; none for the blank line.
    fn value(&mut self) -> Result<Option<&'a [u8]>, Refusal> {
        self.due().map(|line| Some(line).filter(|l| !l.is_empty()))
    }
}

/// The fields of a line that has to have so many. Of a space too many comes an empty field, which nothing accepts.
fn fields<const N: usize>(line: &[u8]) -> Result<[&[u8]; N], Reason> {
    let mut parts = line.split(|&byte| byte == b' ');
    let mut fields = [line; N];
    for field in &mut fields {
        *field = parts.next().ok_or(Reason::Malformed)?;
    }
    match parts.next() {
        None => Ok(fields),
        Some(_) => Err(Reason::Malformed),
    }
}

/// A number of any count of digits. One too large for the type counts as its largest, which is outside every range too.
fn number(field: &[u8]) -> Result<u32, Reason> {
    match field {
        b"0" => Ok(0),
        [b'1'..=b'9', ..] => field.iter().try_fold(0u32, |value, &byte| match byte {
            b'0'..=b'9' => Ok(value
                .saturating_mul(10)
                .saturating_add(u32::from(byte - b'0'))),
            _ => Err(Reason::Malformed),
        }),
        _ => Err(Reason::Malformed),
    }
}

fn dash(field: &[u8]) -> Result<(), Reason> {
    require(field == b"-", Reason::Malformed)
}

fn number_or_dash(field: &[u8]) -> Result<(), Reason> {
    dash(field).or_else(|_| number(field).map(|_| ()))
}

fn require(holds: bool, otherwise: Reason) -> Result<(), Reason> {
    if holds {
        Ok(())
    } else {
        Err(otherwise)
    }
}

/// A line of `locker rival`, or of `locker rival rule`: k, h and the rule, which is write-first where none is named.
fn sizes(line: &[u8], with_rule: bool) -> Result<(u32, u32, Deduction), Reason> {
    let (k, h, word) = if with_rule {
        let [k, h, word] = fields(line)?;
        (k, h, Some(word))
    } else {
        let [k, h] = fields(line)?;
        (k, h, None)
    };
    require(word != Some(b""), Reason::Malformed)?;
    let (k, h) = (number(k)?, number(h)?);
    let range = 1..=4096;
    require(range.contains(&k) && range.contains(&h), Reason::OutOfRange)?;
    let rule = word.map_or(Ok(Deduction::WriteFirst), rule_of_word)?;
    require(h <= k, Reason::PlanTooLarge)?;
    Ok((k, h, rule))
}

fn rule_of_word(word: &[u8]) -> Result<Deduction, Reason> {
    match word {
        b"write-first" => Ok(Deduction::WriteFirst),
        b"load-first" => Ok(Deduction::LoadFirst),
        _ => Err(Reason::UnknownRule),
    }
}

/// An item's number, 0 to 255.
fn item_number(i: u32) -> Result<usize, Reason> {
    require(i <= 255, Reason::OutOfRange)?;
    Ok(i as usize)
}

/// An item by its blocks and costs.
fn item_of([blocks, load, write]: [u32; 3]) -> Result<Item, Reason> {
    require(
        (1..=16).contains(&blocks) && load <= 65_535 && write <= 65_535,
        Reason::OutOfRange,
    )?;
    Ok(Item {
        blocks,
        load: load.into(),
        write: write.into(),
    })
}

/// A line of `sail blocks load write`, which has to be that of item `due`.
fn item(line: &[u8], due: usize) -> Result<Item, Reason> {
    let [i, blocks, load, write] = fields(line)?;
    let (i, values) = (number(i)?, [number(blocks)?, number(load)?, number(write)?]);
    let (i, item) = (item_number(i)?, item_of(values)?);
    require(i == due, Reason::OutOfSequence)?;
    Ok(item)
}

/// A line of the steps, under the three names or the six: its shape and its ranges.
fn step(line: &[u8], six: bool) -> Result<Step, Reason> {
    let [kind, item, minutes, blocks, load, write] = if six {
        fields(line)?
    } else {
        let [kind, item, minutes] = fields(line)?;
        [kind, item, minutes, b"-", b"-", b"-"]
    };
    let values = [blocks, load, write];
    match kind {
        b"R" => {
            let i = number(item)?;
            dash(minutes)?;
            values.into_iter().try_for_each(dash)?;
            Ok(Step::Read {
                item: item_number(i)?,
            })
        }
        b"W" => {
            let (i, minutes) = (number(item)?, number(minutes)?);
            values.into_iter().try_for_each(dash)?;
            require(minutes <= 1440, Reason::OutOfRange)?;
            let item = item_number(i)?;
            Ok(Step::Write { item, minutes })
        }
        b"L" => {
            dash(item)?;
            dash(minutes)?;
            values.into_iter().try_for_each(dash)?;
            Ok(Step::Flush)
        }
        b"A" if six => {
            let i = number(item)?;
            dash(minutes)?;
            let listed = item_of([number(blocks)?, number(load)?, number(write)?]);
            let item = item_number(i)?;
            Ok(Step::Arrive {
                item,
                listed: listed?,
            })
        }
        b"Q" if six => {
            let i = number(item)?;
            dash(minutes)?;
            values.into_iter().try_for_each(dash)?;
            Ok(Step::Retire {
                item: item_number(i)?,
            })
        }
        [b'A'..=b'Z'] => {
            number_or_dash(item)?;
            number_or_dash(minutes)?;
            values.into_iter().try_for_each(number_or_dash)?;
            Err(Reason::OutOfRange)
        }
        _ => Err(Reason::Malformed),
    }
}

/// The step, if the catalogue as the steps before have left it lets it through.
fn allowed(step: Step, k: u32, items: &[Known]) -> Result<Step, Reason> {
    let present = |item: usize| {
        let known = items.get(item).ok_or(Reason::UnknownItem { item })?;
        require(known.until.is_none(), Reason::RetiredItem { item })?;
        Ok(known.item)
    };
    match step {
        Step::Read { item } | Step::Write { item, .. } => {
            let Item { blocks, .. } = present(item)?;
            require(blocks <= k, Reason::ItemTooLarge { item })?;
        }
        Step::Flush => {}
        Step::Arrive { item, .. } => require(item == items.len(), Reason::NotNextNumber { item })?,
        Step::Retire { item } => {
            present(item)?;
        }
    }
    Ok(step)
}

/// A line of `at act sail`: the step before which it stands, and the act.
fn act(
    line: &[u8],
    earliest: usize,
    steps: usize,
    items: &[Known],
) -> Result<(usize, Act), Reason> {
    let [at, kind, item] = fields(line)?;
    let at = number(at)?;
    let (i, act) = match kind {
        b"D" => {
            let i = number(item)?;
            (i, Act::Evict { item: i as usize })
        }
        b"F" => {
            let i = number(item)?;
            (i, Act::Fetch { item: i as usize })
        }
        [b'A'..=b'Z'] => {
            number_or_dash(item)?;
            return Err(Reason::OutOfRange);
        }
        _ => return Err(Reason::Malformed),
    };
    require(at <= 999_999 && i <= 255, Reason::OutOfRange)?;
    let at = at as usize;
    require((earliest..steps).contains(&at), Reason::ActOutOfOrder)?;
    let item = i as usize;
    let known = items.get(item).filter(|known| known.since <= at);
    let known = known.ok_or(Reason::UnknownItem { item })?;
    let left = known.until.is_some_and(|until| until < at);
    require(!left, Reason::RetiredItem { item })?;
    Ok((at, act))
}
