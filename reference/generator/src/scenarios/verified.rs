//! Sessions with cardholder verification, and such as only look like it (02,
//!

use super::scenario::{long_plan, Scenario};
use crate::endings::{results, without_capabilities};
use crate::faults::verification as record_faults;
use crate::sessions::plan::{Place, Plan};
use crate::sessions::start::any_capabilities;
use crate::sessions::tweak::{tweak, Tweak};
use crate::sessions::verification::RuleList;
use crate::tweaks::{
    cash, formerly, if_supported, limits, shapes, under_conditions, verified, verify_by, ways,
    with_means,
};

fn shaped(number: usize, change: Tweak) -> Scenario {
    let tweaks = vec![verified(), change.clone()];
    let plan = Plan { tweaks, ..long_plan((number % 3) as u8) };
    Scenario { label: change.label, reason: change.reason, plan, ..Scenario::default() }
}

/// 8E and 9F42 a second time or wrong, in one record or in several.
fn doubled() -> Vec<Scenario> {
    let mut all = Vec::new();
    for place in [Place::FirstRecord, Place::AnyRecord, Place::LastRecord] {
        for (number, (reason, fault)) in record_faults().into_iter().enumerate() {
            for (former, reason) in [(false, reason), (true, 0)] {
                let change = tweak(0, "", move |start, card, r| {
                    verify_by(RuleList::any(start.amount, r), start, card, r);
                    card.set(0x9F42, vec![0x09, 0x78], r);
                    start.capabilities = (!former).then(|| any_capabilities(r));
                });
                let plan = Plan {
                    tweaks: vec![change],
                    faults: vec![(place, fault.clone())],
                    ..long_plan((number % 3) as u8)
                };
                let name = if former { ", formerly" } else { "" };
                let label = format!("{place:?}: {}{name}", fault.label);
                all.push(Scenario { label, reason: Some(reason), plan, ..Scenario::default() });
            }
        }
    }
    all
}

fn in_shapes() -> Vec<Scenario> {
    let sized = shapes().into_iter().enumerate();
    let sized = sized.map(|(number, change)| shaped(number, change));
    sized.chain(doubled()).collect()
}

fn scenario(number: usize, results: Option<u8>, tweak: Tweak) -> Scenario {
    let plan = Plan { results, tweaks: vec![tweak.clone()], ..long_plan((number % 3) as u8) };
    let result = results.map(|result| format!(", results {result}")).unwrap_or_default();
    let label = format!("{}{result}", tweak.label);
    Scenario { label, reason: tweak.reason, plan, ..Scenario::default() }
}

/// Every list once, and every method and means with every result.
fn listed() -> Vec<Scenario> {
    let mut all = Vec::new();
    for result in 0..5 {
        all.extend(with_means().into_iter().map(|tweak| (Some(result), tweak)));
    }
    let others = [under_conditions(), if_supported(), limits(), cash(), ways()].concat();
    all.extend(others.into_iter().map(|tweak| (None, tweak)));
    let numbered = all.into_iter().enumerate();
    numbered.map(|(number, (results, tweak))| scenario(number, results, tweak)).collect()
}

/// Everything that can befall RESULTS: with a START of either size, and with
/// one that has lost its capabilities after the session was played.
fn with_changed_results() -> Vec<Scenario> {
    let mut all = Vec::new();
    for (number, ending) in results().into_iter().enumerate() {
        for (change, lost) in [(verified(), false), (formerly(), false), (verified(), true)] {
            let before = if lost { ", capabilities lost" } else { "" };
            let label = format!("{}{before}, {}", change.label, ending.label);
            let plan = Plan { tweaks: vec![change], ..long_plan((number % 3) as u8) };
            let endings = lost.then(without_capabilities).into_iter().chain([ending.clone()]);
            let endings = endings.collect();
            all.push(Scenario { label, plan, endings, ..Scenario::default() });
        }
    }
    all
}

pub fn verification() -> Vec<Scenario> {
    [listed(), in_shapes(), with_changed_results()].concat()
}

#[cfg(test)]
mod tests;
