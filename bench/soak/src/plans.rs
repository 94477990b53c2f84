//! The wear bound against the cheapest plan there is: small seasons, run by the library under both rules of deduction, beside every h
//! from 1 to k.

use bench::plain::{STATE_BYTES, UNIT, at};
use bench::random::Random;
use plain_season::{Deduction, Item, Step};

use crate::cheapest::Problem;
use crate::layout::get;
use crate::pair::{Call, Pair};
use crate::program::{Program, figures, number};
use crate::rule::State;
use crate::run::Run;
use crate::texts::{Present, Season, arguments, requested, some_plan, some_steps};

const MOST_ITEMS: u64 = 4;
const MOST_STEPS: usize = 8;
const MOST_K: usize = 6;

/// Seasons to a case: one at random, and its neighbours.
pub const TO_A_CLIMB: u64 = 20;

fn product(a: u64, b: u64) -> u128 {
    u128::from(a) * u128::from(b)
}

/// A season beside its cheapest plan, with the two sides of the bound.
pub struct Beside {
    pub left: u64,
    pub right: u64,
    pub text: String,
}

impl Beside {
    pub fn ratio(&self) -> f64 {
        self.left as f64 / self.right as f64
    }
}

/// What was seen of one rule: the worst beside a cheapest plan for each k and h, from 1 on.
#[derive(Default)]
pub struct OfRule {
    pub by_sizes: [[Option<Beside>; MOST_K]; MOST_K],
    /// The worst of all with the sharper left side: (h − 1) × the load credits held at the close added.
    pub sharpest: f64,
}

/// What was seen: of each rule, and how many plans.
#[derive(Default)]
pub struct Worst {
    pub of_rule: [OfRule; 2],
    pub compared: u64,
    pub none_legal: u64,
    /// Seasons of which the rules make different totals, and different counts of dirty evictions.
    pub totals_part: u64,
    pub dirty_evictions_part: u64,
}

impl OfRule {
    fn note(&mut self, season: &Season, left: u64, right: u64, text: impl FnOnce() -> String) {
        let place = &mut self.by_sizes[season.k as usize - 1][season.h as usize - 1];
        let worse = |other: &Beside| product(left, other.right) > product(other.left, right);
        if right > 0 && place.as_ref().is_none_or(worse) {
            let text = text();
            *place = Some(Beside { left, right, text });
        }
    }
}

/// A season of few items, few steps and small blocks.
fn small_season(r: &mut Random) -> Season {
    let n = r.between(1, MOST_ITEMS) as usize;
    let k = r.between(1, MOST_K as u64) as u32;
    let most_blocks = r.pick(&[1, 1, 2, 3]);
    let costs: &[u64] = r.pick(&[
        &[1][..],
        &[0, 1, 2, 3],
        &[0, 1],
        &[0, 1, 10, 100],
        &[0, 65_535],
    ]);
    let item = |r: &mut Random| Item {
        blocks: r.between(1, most_blocks) as u32,
        load: r.pick(costs),
        write: r.pick(costs),
    };
    let mut items: Vec<Item> = (0..n).map(|_| item(r)).collect();
    let catalog = items.iter().flat_map(bytes).collect();
    let count = r.pick(&[3, MOST_STEPS, MOST_STEPS]);
    let count = r.below(count as u64 + 1);
    Season {
        k,
        h: 1,
        rule: None,
        catalog,
        steps: some_steps(r, &mut items, k, count, (MOST_ITEMS as usize, item)),
        items,
        six: false,
        acts: Vec::new(),
    }
}

/// A season on which the rules can part, which they seldom do by chance: a dirty item loses a part of its credits, and is then read, so
/// that its load credit is full again and its write credit is not.
fn parting_season(r: &mut Random) -> Season {
    let item = |r: &mut Random| Item {
        blocks: 1,
        load: r.below(11),
        write: r.below(11),
    };
    let items: Vec<Item> = (0..MOST_ITEMS).map(|_| item(r)).collect();
    let write = Step::Write {
        item: 0,
        minutes: 60,
    };
    let reads = [1, 2, 0, 3, 1, 2].map(|item| Step::Read { item });
    Season {
        k: 2,
        h: 1,
        rule: None,
        catalog: items.iter().flat_map(bytes).collect(),
        steps: [write].into_iter().chain(reads).collect(),
        items,
        six: false,
        acts: Vec::new(),
    }
}

/// An item of a catalog in bytes.
fn bytes(item: &Item) -> [u8; 5] {
    let [a, b] = (item.load as u16).to_le_bytes();
    let [c, d] = (item.write as u16).to_le_bytes();
    [item.blocks as u8, a, b, c, d]
}

/// What a season has come to at its close.
struct Paid {
    total: u64,
    load_credits: u64,
    dirty_evictions: u64,
}

/// Runs a season through the calls.
fn paid(run: &mut Run, r: &mut Random, season: &Season) -> Paid {
    let mut pair = Pair::of(r, &[0; STATE_BYTES]);
    let mut answers = pair.make(run, season.opening());
    for &step in &season.steps {
        answers |= pair.step(run, arguments(step));
    }
    answers |= pair.make(run, Call::Close);
    if answers != 0 {
        run.differ("a good season is refused", &[season.text()]);
    }
    let s = pair.state();
    Paid {
        total: get(s, at::LOAD_COST, 8) + get(s, at::WRITE_COST, 8),
        load_credits: State::of(s).load_credits(),
        dirty_evictions: get(s, at::DIRTY_EVICTIONS, 4),
    }
}

fn problem(season: &Season) -> Problem<'_> {
    Problem {
        h: season.h,
        items: &season.items,
        steps: &season.steps,
    }
}

/// Both lines of the bound for one h and one rule. Answers the two sides of the first.
fn bound(run: &Run, season: &Season, worst: &mut OfRule, cheapest: u64, paid: &Paid) -> (u64, u64) {
    let (k, h) = (u64::from(season.k), u64::from(season.h));
    let (total, credits) = (paid.total, paid.load_credits);
    let (left, right) = (total * (k - h + 1), k * cheapest);
    let sharp = left * UNIT + (h - 1) * credits;
    let with_plan = || with_cheapest(season).text();
    if left > right || sharp > right * UNIT {
        let what = format!(
            "the bound: total {total}, load credits {credits}, k {k}, h {h}, cheapest plan {cheapest}"
        );
        run.differ(&what, &[with_plan()]);
    }
    worst.note(season, left, right, with_plan);
    if right > 0 {
        worst.sharpest = worst.sharpest.max(sharp as f64 / (right * UNIT) as f64);
    }
    (left, right)
}

/// The season with a cheapest plan as its rival.
fn with_cheapest(season: &Season) -> Season {
    Season {
        acts: problem(season).plan().expect("there is a legal plan"),
        catalog: season.catalog.clone(),
        items: season.items.clone(),
        steps: season.steps.clone(),
        ..*season
    }
}

/// The cheapest plan is legal and costs what was found, and no other plan costs less: as the plain Rust prices them, and at
/// times the program.
fn price(run: &mut Run, r: &mut Random, season: &Season, program: &Program) {
    let Some(cheapest) = problem(season).cost() else {
        return;
    };
    let mut season = with_cheapest(season);
    let text = season.text();
    let output = if r.one_in(50) {
        program.compare(run, text.as_bytes())
    } else {
        plain_season::output(text.as_bytes())
    };
    if number(&output) != 0 || figures(&output)[8] != cheapest {
        let what = format!("a plan that is to cost {cheapest}");
        run.differ(&what, &[text, output]);
    }
    for _ in 0..2 {
        let listed = season.listed();
        season.acts = some_plan(r, &season.items, listed, season.h, &season.steps);
        let output = plain_season::output(season.text().as_bytes());
        if number(&output) != 0 || figures(&output)[8] < cheapest {
            let what = format!("a plan that is legal and costs at least {cheapest}");
            run.differ(&what, &[season.text(), output]);
        }
    }
}

/// A season that differs little: in a step, the order of two steps, or a cost.
fn neighbour(r: &mut Random, season: &Season) -> Season {
    let mut other = Season {
        acts: Vec::new(),
        catalog: season.catalog.clone(),
        items: season.items.clone(),
        steps: season.steps.clone(),
        ..*season
    };
    let i = r.below(other.items.len() as u64) as usize;
    let costs = [0, 1, 2, other.items[i].load, other.items[i].write];
    let count = other.steps.len();
    let place = r.below(count.max(1) as u64) as usize;
    let step = match r.below(8) {
        0 => Step::Flush,
        1 => Step::Retire { item: i },
        2..=4 => Step::Write {
            item: i,
            minutes: 60,
        },
        _ => Step::Read { item: i },
    };
    match r.below(6) {
        0 => other.items[i].load = r.pick(&costs),
        1 => other.items[i].write = r.pick(&costs),
        2 if count > 1 => other.steps.swap(place, count - 1 - place),
        3 if count > 1 => drop(other.steps.remove(place)),
        4 if count > 0 => other.steps[place] = step,
        _ if count < MOST_STEPS => other.steps.insert(place, step),
        _ => {}
    }
    repair(&mut other);
    other
}

/// Leaves out the steps whose item is not there or too large, and the arrivals out of turn; gives each arrival its item's values.
fn repair(season: &mut Season) {
    let listed = season.listed();
    let mut present = Present::of_first(listed);
    let mut count = listed;
    let mut kept = Vec::new();
    for &step in &season.steps {
        let (sound, step) = match step {
            Step::Arrive { item, .. } => {
                let listed = season.items[item];
                (item == count, Step::Arrive { item, listed })
            }
            Step::Retire { item } => (present.has(item), step),
            _ => {
                let fits = |i: usize| present.has(i) && season.items[i].blocks <= season.k;
                (requested(step).is_none_or(fits), step)
            }
        };
        if sound {
            count += usize::from(matches!(step, Step::Arrive { .. }));
            present.after(step);
            kept.push(step);
        }
    }
    season.steps = kept;
    season.items.truncate(count);
    season.catalog = season.items[..listed].iter().flat_map(bytes).collect();
}

/// The bound of a season for both rules and every h. Answers the two sides for the rule and the h that are aimed at.
fn every_h(
    run: &mut Run,
    r: &mut Random,
    season: &mut Season,
    worst: &mut Worst,
    aim: (Deduction, u32),
) -> (u64, u64) {
    let paid = Deduction::ALL.map(|rule| {
        season.rule = Some(rule);
        paid(run, r, season)
    });
    let part = |figure: fn(&Paid) -> u64| u64::from(figure(&paid[0]) != figure(&paid[1]));
    worst.totals_part += part(|paid| paid.total);
    worst.dirty_evictions_part += part(|paid| paid.dirty_evictions);
    let mut sides = (0, 0);
    for h in 1..=season.k {
        season.h = h;
        let Some(cheapest) = problem(season).cost() else {
            worst.none_legal += 1;
            continue;
        };
        worst.compared += 1;
        for (i, rule) in Deduction::ALL.into_iter().enumerate() {
            season.rule = Some(rule);
            let found = bound(run, season, &mut worst.of_rule[i], cheapest, &paid[i]);
            if (rule, h) == aim {
                sides = found;
            }
        }
    }
    sides
}

/// One case: a small season, and neighbours of it, each of which is taken in its place if the bound is as close or closer.
pub fn case(run: &mut Run, program: &Program, worst: &mut Worst) {
    let r = &mut run.random();
    let mut best = if r.one_in(3) {
        parting_season(r)
    } else {
        small_season(r)
    };
    let aim = (
        r.pick(&Deduction::ALL),
        r.between(2.min(best.k.into()), best.k.into()) as u32,
    );
    let mut sides = every_h(run, r, &mut best, worst, aim);
    for _ in 1..TO_A_CLIMB {
        let mut season = neighbour(r, &best);
        let found = every_h(run, r, &mut season, worst, aim);
        season.h = r.between(1, season.k.into()) as u32;
        season.rule = r.pick(&[None, Some(aim.0)]);
        price(run, r, &season, program);
        if product(found.0, sides.1) >= product(sides.0, found.1) {
            (best, sides) = (season, found);
        }
    }
}
