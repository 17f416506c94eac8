//! Tapes whose START has a list of applications (02, R-12).

use super::chance::by_chance;
use super::scenario::{long_plan, Scenario};
use crate::damages::grown;
use crate::endings::{choices, endings, filled_up_to, Ending};
use crate::faults::{choosing_other, choosing_own};
use crate::random::Random;
use crate::sessions::fault::Fault;
use crate::sessions::plan::{Choosing, Place, Plan, Shopper};
use crate::tweaks::applications::{
    blocked, exact, falling_out, in_directory, indicators, long, occurring, odd, shopper, Named,
};
use crate::tweaks::{long_locators, verified};
use rules::choosing::Stage;
use rules::edition::Edition;

pub const STAGES: [Stage; 5] =
    [Stage::Pse, Stage::Directory, Stage::Aid, Stage::NextOccurrence, Stage::Final];

/// A session with these applications that certainly goes on to the second
/// request, if one of them is selected.
fn listed(number: usize, setups: &[Named], who: Shopper) -> Scenario {
    let mut plan = long_plan((number % 3) as u8);
    plan.edition = Edition::Choosing;
    plan.choosing = Some(Choosing {
        setups: setups.iter().map(|named| named.setup.clone()).collect(),
        shopper: who,
    });
    let labels: Vec<&str> = setups.iter().map(|named| &named.label[..]).collect();
    Scenario { label: format!("list: {}", labels.join(", ")), plan, ..Scenario::default() }
}

/// What applications there can be.
fn shapes() -> Vec<Named> {
    let mut all = vec![in_directory(1), in_directory(2), in_directory(5)];
    all.extend([exact(1), exact(3), exact(8), occurring(1), occurring(4), falling_out(3)]);
    all.extend(odd());
    all
}

/// All shapes with all priorities and all that is blocked, whoever chooses.
fn combined() -> Vec<Scenario> {
    const WAYS: [Shopper; 5] =
        [Shopper::Willing, Shopper::First, Shopper::Last, Shopper::GivesUp(0), Shopper::GivesUp(1)];
    let mut all = Vec::new();
    for shape in shapes() {
        for other in indicators().into_iter().chain(blocked()) {
            for can_choose in [true, true, false] {
                let who = WAYS[all.len() % WAYS.len()];
                let setups = [shape.clone(), other.clone(), shopper(can_choose)];
                all.push(listed(all.len(), &setups, who));
            }
        }
    }
    all
}

/// Selections about as long as may be, whoever chooses.
fn lengthy() -> Vec<Scenario> {
    let mut all = Vec::new();
    for shape in long() {
        for (can_choose, who) in [
            (true, Shopper::First),
            (true, Shopper::Last),
            (true, Shopper::Willing),
            (false, Shopper::Free),
        ] {
            all.push(listed(all.len(), &[shape.clone(), shopper(can_choose)], who));
        }
    }
    all
}

/// Applications with which a session certainly comes to the stage.
fn leading_to(stage: Stage) -> Named {
    match stage {
        Stage::Pse | Stage::Directory | Stage::Final => in_directory(3),
        Stage::Aid => exact(3),
        Stage::NextOccurrence => occurring(3),
    }
}

/// The answers of a stage that a fault befalls: the first, the second, all.
fn places(stage: Stage) -> [Place; 3] {
    [Place::ChoosingAt(stage, 1), Place::ChoosingAt(stage, 2), Place::Choosing(stage)]
}

fn with_fault(number: usize, place: Place, stage: Stage, fault: Fault) -> Scenario {
    let setups = [leading_to(stage), shopper(!number.is_multiple_of(4))];
    let mut scenario = listed(number, &setups, Shopper::Willing);
    scenario.label += &format!(", {place:?}: {}", fault.label);
    scenario.plan.faults.push((place, fault));
    scenario
}

/// Every fault at every stage: in all these answers what is peculiar to it, in
/// some of them what is not.
fn faulty() -> Vec<Scenario> {
    let mut all = Vec::new();
    for stage in STAGES {
        for fault in choosing_own(stage) {
            for place in places(stage) {
                all.push(with_fault(all.len(), place, stage, fault.clone()));
            }
        }
        for fault in choosing_other(stage) {
            let place = places(stage)[all.len() % 3];
            all.push(with_fault(all.len(), place, stage, fault));
        }
    }
    all
}

/// Every ending on a session with choices.
fn ended() -> Vec<Scenario> {
    let mut all = Vec::new();
    for ending in choices().into_iter().chain(endings()) {
        for shape in [in_directory(4), falling_out(3)] {
            let setups = [shape, shopper(true)];
            all.push(ending_with(listed(all.len(), &setups, Shopper::Willing), &ending));
        }
    }
    all
}

fn ending_with(mut scenario: Scenario, ending: &Ending) -> Scenario {
    scenario.label += &format!(", {}", ending.label);
    scenario.endings.push(ending.clone());
    scenario
}

/// The longest session there is, and what can be said of its length.
pub fn longest() -> Scenario {
    let setups = [falling_out(94), shopper(true)];
    let mut scenario = listed(1, &setups, Shopper::First);
    scenario.label += ", 500 records, verified";
    scenario.plan.tweaks.extend(long_locators().into_iter().find(|t| t.label.starts_with("500")));
    scenario.plan.tweaks.push(verified());
    scenario
}

/// Tapes at the limits of R-12, long ones and ones that are filled up.
fn limits() -> Vec<Scenario> {
    let most = Edition::Choosing.most_blocks();
    let mut all = vec![longest()];
    for ending in [filled_up_to(most - 1), filled_up_to(most)].into_iter().chain(choices()) {
        all.push(ending_with(longest(), &ending));
    }
    for (blocks, tail) in [
        (1024, 0),
        (1024, 1),
        (1025, 0),
        (most - 1, 0),
        (most - 1, 1),
        (most, 0),
        (most, 1),
        (most, 511),
        (most + 1, 0),
        (most + 1, 7),
    ] {
        for mut scenario in [longest(), listed(2, &[exact(2), shopper(true)], Shopper::First)] {
            let damage = grown(blocks, tail);
            scenario.label += &format!(", {}", damage.label);
            scenario.damages.push(damage);
            all.push(scenario);
        }
    }
    all
}

/// Everything about choosing an application, once.
pub fn choosing_table() -> Vec<Scenario> {
    [combined(), lengthy(), faulty(), ended(), limits()].concat()
}

fn any_shape(r: &mut Random) -> Named {
    let table = match r.below(20) {
        0 => long(),
        1..=6 => odd(),
        _ => shapes(),
    };
    r.pick(&table).clone()
}

/// What chance adds to a selection.
fn bend(scenario: &mut Scenario, r: &mut Random) {
    for _ in 0..*r.pick(&[0, 0, 0, 1, 1, 2]) {
        let stage = *r.pick(&STAGES);
        let table = if r.chance(60) { choosing_own(stage) } else { choosing_other(stage) };
        let fault = r.pick(&table).clone();
        let number = r.between(1, 3);
        let place =
            if r.chance(25) { Place::Choosing(stage) } else { Place::ChoosingAt(stage, number) };
        scenario.label += &format!("; {place:?}: {}", fault.label);
        scenario.plan.faults.push((place, fault));
    }
    if r.chance(30) {
        let ending = r.pick(&choices()).clone();
        scenario.label += &format!("; {}", ending.label);
        scenario.endings.push(ending);
    }
}

/// A free mix with a list in START.
pub fn choosing_by_chance(r: &mut Random) -> Scenario {
    let mut scenario = by_chance(r);
    let mut setups = vec![any_shape(r)];
    if r.chance(40) {
        setups.extend([r.pick(&indicators()).clone()]);
    }
    if r.chance(12) {
        setups.extend([r.pick(&blocked()).clone()]);
    }
    if r.chance(80) {
        setups.push(shopper(r.chance(70)));
    }
    let who = *r.pick(&[Shopper::Free, Shopper::Willing, Shopper::First, Shopper::Last]);
    let choosing = listed(0, &setups, who).plan.choosing;
    scenario.label += &setups.iter().map(|named| format!("; {}", named.label)).collect::<String>();
    scenario.plan = Plan { edition: Edition::Choosing, choosing, ..scenario.plan };
    bend(&mut scenario, r);
    scenario
}
