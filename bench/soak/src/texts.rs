//! Seasons written as text, with a rival plan; then damaged. The program and the plain Rust answer each.

use bench::plain::{ARRIVE, FLUSH, Numbers, READ, RETIRE, STATE_BYTES, WRITE, of_three};
use bench::random::{Random, catalog, some_k, some_n};
use plain_season::{Act, Deduction, Item, MAX_BYTES, Step, text};

use crate::damage::{SEASON, damage, spoil_rule};
use crate::pair::{Call, Pair};
use crate::program::{Program, figures, number};
use crate::run::Run;
use crate::seasons::{LONGEST_REPORT, items};

/// Texts to a case: a season's own, and those that are made of it by damage.
pub const TO_A_SEASON: u64 = 4;

#[derive(Clone)]
pub struct Season {
    pub k: u32,
    pub h: u32,
    /// None is write-first too, and the text has the heading without a rule.
    pub rule: Option<Deduction>,
    /// The items of the opening.
    pub catalog: Vec<u8>,
    /// These, and behind them those that arrive.
    pub items: Vec<Item>,
    /// Whether the steps have the six names even if no item arrives or leaves.
    pub six: bool,
    pub steps: Vec<Step>,
    pub acts: Vec<(usize, Act)>,
}

impl Season {
    pub fn text(&self) -> String {
        let (sizes, listed) = ([self.k, self.h], &self.items[..self.listed()]);
        let Season {
            rule, steps, acts, ..
        } = self;
        text(sizes, *rule, listed, steps, acts, self.six)
    }

    /// How many items the opening has.
    pub fn listed(&self) -> usize {
        self.catalog.len() / 5
    }

    /// The opening as a call.
    pub fn opening(&self) -> Call<'_> {
        Call::Open {
            k: self.k,
            rule: self.rule.unwrap_or(Deduction::WriteFirst) as u32,
            catalog: &self.catalog,
        }
    }
}

/// The item that a step asks for.
pub fn requested(step: Step) -> Option<usize> {
    match step {
        Step::Read { item } | Step::Write { item, .. } => Some(item),
        Step::Flush | Step::Arrive { .. } | Step::Retire { .. } => None,
    }
}

/// The arguments of the call for a step.
pub fn arguments(step: Step) -> Numbers {
    match step {
        Step::Read { item } => of_three([READ, item as u32, 0]),
        Step::Write { item, minutes } => of_three([WRITE, item as u32, minutes]),
        Step::Flush => of_three([FLUSH, 0, 0]),
        Step::Arrive { item, listed } => {
            let Item {
                blocks,
                load,
                write,
            } = listed;
            [ARRIVE, item as u32, 0, blocks, load as u32, write as u32]
        }
        Step::Retire { item } => of_three([RETIRE, item as u32, 0]),
    }
}

/// The items that are there: of the first so many, those that have not left.
#[derive(Clone)]
pub struct Present(Vec<usize>);

impl Present {
    pub fn of_first(n: usize) -> Present {
        Present((0..n).collect())
    }

    pub fn has(&self, item: usize) -> bool {
        self.0.contains(&item)
    }

    pub fn after(&mut self, step: Step) {
        match step {
            Step::Arrive { item, .. } => self.0.push(item),
            Step::Retire { item } => self.0.retain(|&other| other != item),
            _ => {}
        }
    }
}

/// Steps over the items of at most so many blocks. At times new ones arrive, up to so many in all, and some leave.
pub fn some_steps(
    r: &mut Random,
    items: &mut Vec<Item>,
    most: u32,
    count: u64,
    (most_items, new_item): (usize, impl Fn(&mut Random) -> Item),
) -> Vec<Step> {
    let mut present = Present::of_first(items.len());
    let changes = r.pick(&[0, 0, 1, 4]);
    let mut steps = Vec::new();
    for _ in 0..count {
        let there = &present.0;
        let fitting: Vec<usize> = there
            .iter()
            .copied()
            .filter(|&i| items[i].blocks <= most)
            .collect();
        let step = match r.below(16) {
            n if n < changes && items.len() < most_items && (there.is_empty() || r.one_in(2)) => {
                let (item, listed) = (items.len(), new_item(r));
                items.push(listed);
                Step::Arrive { item, listed }
            }
            n if n < changes && !there.is_empty() => Step::Retire {
                item: r.pick(there),
            },
            _ if fitting.is_empty() => Step::Flush,
            4 | 5 => Step::Flush,
            6..=11 => Step::Write {
                item: r.pick(&fitting),
                minutes: r.pick(&[0, 5, 6, 90, 600, 1440]),
            },
            _ => Step::Read {
                item: r.pick(&fitting),
            },
        };
        present.after(step);
        steps.push(step);
    }
    steps
}

/// A plan that is legal if every requested item has at most `h` blocks: before each step it drops and fetches on a whim, has
/// the requested item, and then makes room by dropping any others.
pub fn some_plan(
    r: &mut Random,
    items: &[Item],
    listed: usize,
    h: u32,
    steps: &[Step],
) -> Vec<(usize, Act)> {
    let whims = r.pick(&[2, 4, 20, 1000]);
    let mut present = Present::of_first(listed);
    let mut held: Vec<usize> = Vec::new();
    let mut acts = Vec::new();
    for (at, &step) in steps.iter().enumerate() {
        let mut turn = |held: &mut Vec<usize>, item: usize| {
            let place = held.iter().position(|&other| other == item);
            let act = match place {
                Some(place) => {
                    held.swap_remove(place);
                    Act::Evict { item }
                }
                None => {
                    held.push(item);
                    Act::Fetch { item }
                }
            };
            acts.push((at, act));
        };
        while !present.0.is_empty() && r.one_in(whims) {
            turn(&mut held, r.pick(&present.0));
        }
        let wanted = requested(step);
        if let Some(item) = wanted.filter(|item| !held.contains(item)) {
            turn(&mut held, item);
        }
        while held.iter().map(|&i| items[i].blocks).sum::<u32>() > h {
            let others: Vec<usize> = held
                .iter()
                .copied()
                .filter(|&i| Some(i) != wanted)
                .collect();
            if others.is_empty() {
                break;
            }
            turn(&mut held, r.pick(&others));
        }
        present.after(step);
        held.retain(|&item| present.has(item));
    }
    acts
}

/// A season, mostly small, and mostly with a legal plan.
fn some_season(r: &mut Random) -> Season {
    let n = if r.one_in(3) {
        some_n(r)
    } else {
        r.below(6) as usize
    };
    let catalog = catalog(r, n);
    let mut items = items(&catalog);
    let mut k = some_k(r, &catalog);
    if r.one_in(5) {
        k = r.between(1, 16) as u32;
    }
    let largest = items.iter().map(|item| item.blocks).max().unwrap_or(1);
    let part = r.between(1, k.into()) as u32;
    let h = r.pick(&[k, part, largest.min(k), 1]);
    let most = match r.below(20) {
        0 | 1 => 16,
        2 => k,
        _ => h,
    };
    let count = r.pick(&[0, 1, 4, 12, 30, 60]);
    let count = if r.one_in(200) {
        3_000
    } else {
        r.below(count + 1)
    };
    let new_item = |r: &mut Random| Item {
        blocks: r.pick(&[1, 2, 3, 16]),
        load: r.pick(&[0, 1, 7, 65_535]),
        write: r.pick(&[0, 1, 9, 65_535]),
    };
    let steps = some_steps(r, &mut items, most, count, (256, new_item));
    let acts = some_plan(r, &items, n, h, &steps);
    let [write_first, load_first] = Deduction::ALL.map(Some);
    Season {
        k,
        h,
        rule: r.pick(&[None, write_first, load_first, load_first]),
        catalog,
        items,
        six: r.one_in(3),
        steps,
        acts,
    }
}

/// Spoils the plan: an act more or less, of another kind, of another item, or before another step.
fn spoil_plan(r: &mut Random, season: &mut Season) {
    let some = |r: &mut Random, end: usize| r.below(end.max(1) as u64) as usize;
    let item = some(r, season.items.len());
    let at = some(r, season.steps.len());
    let new = r.pick(&[Act::Evict { item }, Act::Fetch { item }]);
    let place = some(r, season.acts.len());
    if season.acts.is_empty() || r.one_in(3) {
        let place = season.acts.partition_point(|&(other, _)| other <= at);
        season.acts.insert(place, (at, new));
        return;
    }
    match r.below(4) {
        0 => drop(season.acts.remove(place)),
        1 => season.acts[place].1 = new,
        2 => season.acts[place].0 = at,
        _ => season.acts.truncate(place),
    }
}

/// Spoils what arrives and leaves: an arrival more, mostly of a number that is not the next one; or a departure more, behind which a
/// step or an act still names its item.
fn spoil_items(r: &mut Random, season: &mut Season) {
    let some = |r: &mut Random, end: usize| r.below(end.max(1) as u64) as usize;
    let Some(&listed) = season.items.first() else {
        return;
    };
    let next = season.items.len();
    let item = some(r, next);
    let from = some(r, season.steps.len() + 1);
    let later = from + 1 + some(r, season.steps.len() - from + 1);
    if r.one_in(3) {
        let item = r.pick(&[item, season.listed(), next, next + 1]);
        season.steps.insert(from, Step::Arrive { item, listed });
        return;
    }
    season.steps.insert(from, Step::Retire { item });
    let (read, again) = (Step::Read { item }, Step::Retire { item });
    let write = Step::Write { item, minutes: 6 };
    match r.below(4) {
        0 => season.steps.insert(later, read),
        1 => season.steps.insert(later, write),
        2 => season.steps.insert(later, again),
        _ => {
            let place = season.acts.partition_point(|&(other, _)| other <= later);
            let act = r.pick(&[Act::Evict { item }, Act::Fetch { item }]);
            season.acts.insert(place, (later, act));
        }
    }
}

/// Lengthens the text of a season to so many bytes, by writes behind its last step that need no act, with more digits for
/// the minutes of some.
fn lengthen(season: &mut Season, bytes: usize) {
    let mut present = Present::of_first(season.listed());
    season.steps.iter().for_each(|&step| present.after(step));
    let mut wanted = season
        .steps
        .iter()
        .rev()
        .filter_map(|&step| requested(step));
    let Some(item) = wanted.find(|&item| present.has(item)) else {
        return;
    };
    let whole = season.text().len();
    let minutes = 6;
    season.steps.push(Step::Write { item, minutes });
    let line = season.text().len() - whole;
    season.steps.pop();
    let mut lacks = bytes.saturating_sub(whole);
    let count = lacks / line;
    lacks -= count * line;
    for _ in 0..count {
        let more = lacks.min(3);
        lacks -= more;
        let minutes = [6, 60, 600, 1200][more];
        season.steps.push(Step::Write { item, minutes });
    }
}

/// The report of a state alone with the rival's figures added to its last two lines.
fn beside_rival(alone: &str, figures: &[u64]) -> String {
    let (head, last) = alone.trim_end().rsplit_once('\n').unwrap_or_default();
    let [.., rival, left, right] = figures else {
        return String::new();
    };
    format!("{head} rival left right\n{last} {rival} {left} {right}\n")
}

/// The steps of an accepted text, and its closing, as calls: the report of the state is the text's but for the rival.
fn compare_calls(run: &mut Run, r: &mut Random, season: &Season, output: &str) {
    let mut pair = Pair::of(r, &[0; STATE_BYTES]);
    let mut answers = pair.make(run, season.opening());
    for &step in &season.steps {
        answers |= pair.step(run, arguments(step));
    }
    answers |= pair.make(run, Call::Close);
    let (reported, alone) = pair.report(run, LONGEST_REPORT);
    let alone = String::from_utf8_lossy(&alone);
    let figures = figures(output);
    if answers | reported != 0 || output != beside_rival(&alone, &figures) {
        let details = [season.text(), output.to_string(), alone.into_owned()];
        run.differ("an accepted text, and its steps as calls", &details);
    }
    if figures[9] > figures[10] {
        let details = [season.text(), output.to_string()];
        run.differ("left is above right", &details);
    }
}

/// One case: a season's text, then the same with a spoilt plan, with items spoilt, or damaged.
pub fn case(run: &mut Run, program: &Program) {
    let r = &mut run.random();
    let mut season = some_season(r);
    if r.one_in(60) {
        let bytes = r.pick(&[MAX_BYTES - 1, MAX_BYTES, MAX_BYTES, MAX_BYTES + 1]);
        lengthen(&mut season, bytes);
    }
    let whole = season.text();
    let output = program.compare(run, whole.as_bytes());
    if number(&output) == 0 {
        compare_calls(run, r, &season, &output);
    }
    for _ in 1..TO_A_SEASON {
        if r.one_in(5) {
            spoil_plan(r, &mut season);
            program.compare(run, season.text().as_bytes());
            continue;
        }
        if r.one_in(8) {
            let mut spoilt = season.clone();
            spoil_items(r, &mut spoilt);
            program.compare(run, spoilt.text().as_bytes());
            continue;
        }
        let mut text = whole.clone().into_bytes();
        let mut times = r.pick(&[1, 1, 1, 2, 4]);
        if r.one_in(6) {
            spoil_rule(r, &mut text);
            times -= 1;
        }
        for _ in 0..times {
            damage(r, &mut text, SEASON);
        }
        program.compare(run, &text);
    }
}
