//! The rival plan of a text, run over its steps and priced.

use crate::text::Season;
use crate::{Act, Reason, Refusal, Step};

/// What the plan has of an item.
#[derive(Clone, Copy, PartialEq)]
enum Holding {
    Nothing,
    Clean,
    Dirty,
}

/// What the plan pays, the closing flush included; or its first fault.
pub fn price(season: &Season) -> Result<u64, Refusal> {
    let catalog = &season.items;
    let mut holdings = vec![Holding::Nothing; catalog.len()];
    let mut used = 0;
    let mut cost = 0;
    let mut acts = season.acts.iter().zip(season.first_act_line..).peekable();

    for (place, &step) in season.steps.iter().enumerate() {
        while let Some((&(_, act), line)) = acts.next_if(|(&(at, _), _)| at == place) {
            match act {
                Act::Evict { item } => {
                    match holdings[item] {
                        Holding::Nothing => return Err(Reason::NotHeld { item }.on(line)),
                        Holding::Clean => {}
                        Holding::Dirty => cost += catalog[item].write,
                    }
                    holdings[item] = Holding::Nothing;
                    used -= catalog[item].blocks;
                }
                Act::Fetch { item } => {
                    if holdings[item] != Holding::Nothing {
                        return Err(Reason::AlreadyHeld { item }.on(line));
                    }
                    holdings[item] = Holding::Clean;
                    used += catalog[item].blocks;
                    cost += catalog[item].load;
                }
            }
        }

        let line = season.first_step_line + place;
        if let Step::Read { item } | Step::Write { item, .. } = step {
            if holdings[item] == Holding::Nothing {
                return Err(Reason::RequestNotHeld { item }.on(line));
            }
        }
        if used > season.h {
            return Err(Reason::OverCapacity.on(line));
        }
        match step {
            Step::Read { .. } => {}
            Step::Write { item, .. } => holdings[item] = Holding::Dirty,
            Step::Flush => cost += flush(season, &mut holdings),
            Step::Arrive { .. } => {}
            Step::Retire { item } => {
                if holdings[item] != Holding::Nothing {
                    used -= catalog[item].blocks;
                }
                if holdings[item] == Holding::Dirty {
                    cost += catalog[item].write;
                }
                holdings[item] = Holding::Nothing;
            }
        }
    }
    Ok(cost + flush(season, &mut holdings))
}

/// Every dirty copy becomes clean; what that costs.
fn flush(season: &Season, holdings: &mut [Holding]) -> u64 {
    let mut cost = 0;
    for (holding, item) in holdings.iter_mut().zip(&season.items) {
        if *holding == Holding::Dirty {
            *holding = Holding::Clean;
            cost += item.write;
        }
    }
    cost
}
