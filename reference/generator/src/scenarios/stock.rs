//! All there is to make by the rules of an edition.

use super::chance::by_chance;
use super::choosing::{choosing_by_chance, choosing_table};
use super::scenario::Scenario;
use super::table::systematic;
use crate::random::Random;
use rules::edition::Edition;

/// The first tapes go through all scenarios once; after that every second
/// one is a scenario by chance and the others are mixed freely.
pub fn scenario_for(index: usize, all: &[Scenario], r: &mut Random) -> Scenario {
    if index < all.len() {
        all[index].clone()
    } else if index.is_multiple_of(2) {
        r.pick(all).clone()
    } else {
        by_chance(r)
    }
}

/// What tapes are made of.
pub struct Stock {
    edition: Edition,
    /// START as it was before R-12.
    former: Vec<Scenario>,
    /// START with a list of applications.
    choosing: Vec<Scenario>,
}

impl Stock {
    pub fn of(edition: Edition) -> Stock {
        let choosing = match edition {
            Edition::Landed => Vec::new(),
            Edition::Choosing => choosing_table(),
        };
        Stock { edition, former: systematic(), choosing }
    }

    /// Since R-12 every second tape has a list, and the others have not.
    pub fn scenario(&self, index: usize, r: &mut Random) -> Scenario {
        match self.edition {
            Edition::Landed => scenario_for(index, &self.former, r),
            Edition::Choosing if index.is_multiple_of(2) => {
                listed_scenario(index / 2, &self.choosing, r)
            }
            Edition::Choosing => {
                let mut scenario = scenario_for(index / 2, &self.former, r);
                scenario.plan.edition = self.edition;
                scenario
            }
        }
    }
}

/// Like `scenario_for`, with a list in START.
fn listed_scenario(index: usize, all: &[Scenario], r: &mut Random) -> Scenario {
    if index < all.len() {
        all[index].clone()
    } else if index.is_multiple_of(2) {
        r.pick(all).clone()
    } else {
        choosing_by_chance(r)
    }
}

/// A free mix by the rules of an edition.
pub fn by_chance_of(edition: Edition, r: &mut Random) -> Scenario {
    match edition {
        Edition::Landed => by_chance(r),
        Edition::Choosing if r.chance(60) => choosing_by_chance(r),
        Edition::Choosing => {
            let mut scenario = by_chance(r);
            scenario.plan.edition = edition;
            scenario
        }
    }
}
