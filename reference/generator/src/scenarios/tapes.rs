//! Tapes that end otherwise, are long or are damaged.

use super::scenario::{long_plan, Scenario};
use crate::damages::{damages, long_damages};
use crate::endings::{at_every_entry, endings};
use crate::sessions::plan::Plan;
use crate::sessions::tweak::Tweak;
use crate::tweaks::{counted, counted_verified, good_edges, long_locators, unverified, verified};

/// Sessions with as many entries as there can be, whole and not.
pub fn longest() -> Vec<Scenario> {
    let full: Vec<Tweak> =
        good_edges().into_iter().filter(|t| t.label.starts_with("500 records")).collect();
    let mut all = Vec::new();
    for tweak in full {
        for ending in endings()
            .into_iter()
            .take(4)
            .chain(endings().into_iter().filter(|e| e.label == "an entry too many"))
        {
            for last in [unverified(), verified()] {
                let mut plan = long_plan(1);
                let label = format!("{}, {}, {}", tweak.label, last.label, ending.label);
                plan.tweaks.extend([tweak.clone(), last]);
                let endings = vec![ending.clone()];
                all.push(Scenario { label, plan, endings, ..Scenario::default() });
            }
        }
    }
    all
}

/// Tapes at the limits of 02, R-8: long sessions and long tails of short
/// ones, with and without a broken rule before.
pub fn long_tapes() -> Vec<Scenario> {
    let all_endings = endings();
    let named = |label: &str| all_endings.iter().find(|e| e.label == label).cloned();
    let mut all = Vec::new();
    for (number, damage) in long_damages().into_iter().enumerate() {
        for (ending, long) in [("whole", true), ("whole", false), ("an entry dropped", false)] {
            let mut plan = long_plan(1 + (number % 2) as u8);
            if long {
                plan.tweaks.extend(long_locators().into_iter().nth(number));
            }
            let length = if long { "long" } else { "short" };
            let label = format!("{}, {length}, {ending}", damage.label);
            let endings = named(ending).into_iter().collect();
            let damages = vec![damage.clone()];
            all.push(Scenario { label, plan, endings, damages, ..Scenario::default() });
        }
    }
    all
}

/// Every ending on a session with all kinds of entries, and on a short one.
pub fn ended() -> Vec<Scenario> {
    let mut all = Vec::new();
    for (number, ending) in endings().into_iter().enumerate() {
        let long = long_plan(1 + (number % 2) as u8);
        let short = Plan { first: Some((number % 2) as u8), ..Plan::default() };
        for (plan, name) in [(long, "long"), (short, "short")] {
            let label = format!("{}, {name}", ending.label);
            all.push(Scenario {
                label,
                plan,
                endings: vec![ending.clone()],
                ..Scenario::default()
            });
        }
    }
    all
}

/// Sessions in which every list has entries that are filled with zeros, cut
/// and broken at every entry (02, R-6). Type 0 has no HOST; with verification
/// there is an entry more (02, R-7).
pub fn counted_tapes() -> Vec<Scenario> {
    let mut all = Vec::new();
    for (number, ending) in at_every_entry().into_iter().enumerate() {
        let online = (number % 2) as u8 + 1;
        for (kind, change) in
            [(online, counted()), (0, counted()), ((number % 3) as u8, counted_verified())]
        {
            let label = format!("type {kind}, {}, {}", change.label, ending.label);
            let plan = Plan { tweaks: vec![change], ..long_plan(kind) };
            let endings = vec![ending.clone()];
            all.push(Scenario { label, plan, endings, ..Scenario::default() });
        }
    }
    all
}

/// Every damage alone, and after a broken rule, and on a cut tape.
pub fn damaged() -> Vec<Scenario> {
    let all_endings = endings();
    let named = |label: &str| all_endings.iter().find(|e| e.label == label).cloned();
    let mut all = Vec::new();
    for damage in damages() {
        for ending in [
            "whole",
            "cut anywhere",
            "START empty",
            "COMMAND with another bit",
            "an entry too many",
        ] {
            all.push(Scenario {
                label: format!("{}, {ending}", damage.label),
                endings: named(ending).into_iter().collect(),
                damages: vec![damage.clone()],
                ..Scenario::default()
            });
        }
    }
    all
}
