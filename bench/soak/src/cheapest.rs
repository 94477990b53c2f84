//! The cheapest of all legal plans for a small season, by dynamic programming over what a plan holds. A holding has a digit
//! to base 3 for each item: 0 not held, 1 clean, 2 dirty.

use plain_season::{Act, Item, Step};

use crate::texts::requested;

/// A cost that no plan has.
const NONE: u64 = u64::MAX;

pub struct Problem<'a> {
    pub h: u32,
    pub items: &'a [Item],
    pub steps: &'a [Step],
}

impl Problem<'_> {
    fn holdings(&self) -> usize {
        3usize.pow(self.items.len() as u32)
    }

    fn digit(&self, holding: usize, i: usize) -> usize {
        holding / 3usize.pow(i as u32) % 3
    }

    /// Whether an act before step `t` may name item `i`: it has arrived at an earlier step, and not left at one.
    fn known(&self, i: usize, t: usize) -> bool {
        let before = &self.steps[..t];
        let later = self.steps[t..].iter();
        let mut comes =
            later.filter(|step| matches!(step, Step::Arrive { item, .. } if *item == i));
        let mut leaves = before
            .iter()
            .filter(|step| matches!(step, Step::Retire { item } if *item == i));
        comes.next().is_none() && leaves.next().is_none()
    }

    /// What one item's acts before step `t` cost between two digits; none makes it dirty. A dirty item becomes clean by D and F.
    fn act_cost(&self, t: usize, i: usize, from: usize, to: usize) -> u64 {
        let Item { load, write, .. } = self.items[i];
        if from != to && !self.known(i, t) {
            return NONE;
        }
        match (from, to) {
            (0, 1) => load,
            (2, 0) => write,
            (2, 1) => write + load,
            (0, 2) | (1, 2) => NONE,
            _ => 0,
        }
    }

    /// What the acts before step `t` cost between two holdings.
    fn acts_cost(&self, t: usize, from: usize, to: usize) -> u64 {
        let cost = |i| self.act_cost(t, i, self.digit(from, i), self.digit(to, i));
        (0..self.items.len()).map(cost).fold(0, u64::saturating_add)
    }

    /// The least costs behind any acts before step `t`, item by item.
    fn after_acts(&self, t: usize, mut costs: Vec<u64>) -> Vec<u64> {
        for i in 0..self.items.len() {
            let power = 3usize.pow(i as u32);
            let mut next = vec![NONE; costs.len()];
            for (holding, &cost) in costs.iter().enumerate() {
                let from = self.digit(holding, i);
                for to in 0..3 {
                    let there = holding - from * power + to * power;
                    let whole = cost.saturating_add(self.act_cost(t, i, from, to));
                    next[there] = next[there].min(whole);
                }
            }
            costs = next;
        }
        costs
    }

    /// The holding and the cost behind a step, if the step can be served from a holding.
    fn served(&self, holding: usize, step: Step) -> Option<(usize, u64)> {
        let held = (0..self.items.len()).filter(|&i| self.digit(holding, i) > 0);
        let blocks: u32 = held.map(|i| self.items[i].blocks).sum();
        let wanted = requested(step);
        if blocks > self.h || wanted.is_some_and(|i| self.digit(holding, i) == 0) {
            return None;
        }
        Some(match step {
            Step::Read { .. } => (holding, 0),
            Step::Write { item, .. } => {
                let power = 3usize.pow(item as u32);
                (holding + (2 - self.digit(holding, item)) * power, 0)
            }
            Step::Flush => self.flushed(holding),
            Step::Arrive { .. } => (holding, 0),
            Step::Retire { item } => {
                let digit = self.digit(holding, item);
                let paid = if digit == 2 {
                    self.items[item].write
                } else {
                    0
                };
                (holding - digit * 3usize.pow(item as u32), paid)
            }
        })
    }

    /// Every dirty item clean, and what that costs.
    fn flushed(&self, holding: usize) -> (usize, u64) {
        let dirty = (0..self.items.len()).filter(|&i| self.digit(holding, i) == 2);
        dirty.fold((holding, 0), |(holding, cost), i| {
            (holding - 3usize.pow(i as u32), cost + self.items[i].write)
        })
    }

    /// The least cost of each holding, at the start and behind each step.
    fn layers(&self) -> Vec<Vec<u64>> {
        let mut start = vec![NONE; self.holdings()];
        start[0] = 0;
        let mut layers = vec![start];
        for (t, &step) in self.steps.iter().enumerate() {
            let mut next = vec![NONE; self.holdings()];
            for (holding, cost) in self
                .after_acts(t, layers[t].clone())
                .into_iter()
                .enumerate()
            {
                if let Some((there, paid)) = self.served(holding, step) {
                    next[there] = next[there].min(cost.saturating_add(paid));
                }
            }
            layers.push(next);
        }
        layers
    }

    /// The least cost with the closing, and the holding before it; none if no plan is legal.
    fn best(&self, last: &[u64]) -> Option<(usize, u64)> {
        let closed = |(holding, &cost): (usize, &u64)| {
            let whole = cost.saturating_add(self.flushed(holding).1);
            (holding, whole)
        };
        let all = last.iter().enumerate().map(closed);
        all.filter(|&(_, cost)| cost != NONE)
            .min_by_key(|&(_, cost)| cost)
    }

    /// What the cheapest legal plan costs; none if there is none.
    pub fn cost(&self) -> Option<u64> {
        let layers = self.layers();
        self.best(&layers[self.steps.len()]).map(|(_, cost)| cost)
    }

    /// A cheapest plan, found from its end.
    pub fn plan(&self) -> Option<Vec<(usize, Act)>> {
        let layers = self.layers();
        let (mut holding, _) = self.best(&layers[self.steps.len()])?;
        let mut acts = Vec::new();
        for t in (0..self.steps.len()).rev() {
            let (from, to) = self.before(&layers[t], t, holding, layers[t + 1][holding])?;
            acts.splice(0..0, self.acts(from, to).into_iter().map(|act| (t, act)));
            holding = from;
        }
        Some(acts)
    }

    /// The holdings before and behind the acts of step `t`, from which a holding is reached at a cost.
    fn before(&self, costs: &[u64], t: usize, holding: usize, cost: u64) -> Option<(usize, usize)> {
        for to in 0..costs.len() {
            let Some((_, paid)) = self
                .served(to, self.steps[t])
                .filter(|&(there, _)| there == holding)
            else {
                continue;
            };
            for (from, before) in costs.iter().enumerate() {
                let acts = before.saturating_add(self.acts_cost(t, from, to));
                if acts.saturating_add(paid) == cost {
                    return Some((from, to));
                }
            }
        }
        None
    }

    fn acts(&self, from: usize, to: usize) -> Vec<Act> {
        let digits = |i| (self.digit(from, i), self.digit(to, i));
        let items = || 0..self.items.len();
        let evicted = items().filter(|&i| matches!(digits(i), (1, 0) | (2, 0 | 1)));
        let fetched = items().filter(|&i| matches!(digits(i), (0 | 2, 1)));
        let evict = |item| Act::Evict { item };
        let fetch = |item| Act::Fetch { item };
        evicted.map(evict).chain(fetched.map(fetch)).collect()
    }
}
