//! Sessions as they are played, every outcome and every fault.

use super::scenario::{long_plan, Scenario};
use crate::faults::{anywhere, cryptogram, options, record, select};
use crate::sessions::card::Steer;
use crate::sessions::plan::{Place, Plan};
use crate::tweaks::{asked, bad_records, edges_of_money, good_edges, list_edges};

/// All types, requests, answers and issuer's replies.
pub fn outcomes() -> Vec<Scenario> {
    const STEERS: [(Steer, &str); 5] = [
        (Steer::Denial, "denial"),
        (Steer::Default, "default"),
        (Steer::Online, "online"),
        (Steer::OnlineAndDefault, "online and default"),
        (Steer::Clear, "no code"),
    ];
    let mut all = Vec::new();
    for kind in 0..3 {
        for (steer, name) in STEERS {
            for first in [0, 1, 3] {
                let plan = Plan {
                    kind: Some(kind),
                    steer: Some(steer),
                    first: Some(first),
                    ..Plan::default()
                };
                let label = format!("type {kind}, {name}, first {first}");
                all.push(Scenario { label, plan, ..Scenario::default() });
            }
            all.extend(online_outcomes(kind, steer, name));
        }
    }
    all
}

fn online_outcomes(kind: u8, steer: Steer, name: &str) -> Vec<Scenario> {
    let mut all = Vec::new();
    for host in [[1, 0x30, 0x30], [2, 0x35, 0x31], [3, 0, 0]] {
        for second in 0..4 {
            let plan = Plan {
                kind: Some(kind),
                steer: Some(steer),
                first: Some(2),
                second: Some(second),
                host: Some(host.to_vec()),
                ..Plan::default()
            };
            let label = format!("type {kind}, {name}, first 2, host {}, second {second}", host[0]);
            all.push(Scenario { label, plan, ..Scenario::default() });
        }
    }
    all
}

/// Every fault at every place, one to a session.
pub fn faults() -> Vec<Scenario> {
    let places = [
        (Place::Select, select()),
        (Place::Options, options()),
        (Place::FirstRecord, record()),
        (Place::AnyRecord, record()),
        (Place::LastRecord, record()),
        (Place::FirstCryptogram, cryptogram()),
        (Place::SecondCryptogram, cryptogram()),
    ];
    let mut all = Vec::new();
    for (index, (place, own)) in places.into_iter().enumerate() {
        for (number, fault) in anywhere().into_iter().chain(own).enumerate() {
            let mut plan = long_plan(((index + number) % 3) as u8);
            plan.faults.push((place, fault.clone()));
            let label = format!("{place:?}: {}", fault.label);
            all.push(Scenario { label, reason: fault.reason, plan, ..Scenario::default() });
        }
    }
    all
}

pub fn tweaked() -> Vec<Scenario> {
    let all = [edges_of_money(), good_edges(), list_edges(), bad_records(), asked()].concat();
    let mut out = Vec::new();
    for (number, tweak) in all.into_iter().enumerate() {
        let mut plan = long_plan((number % 3) as u8);
        if tweak.label.contains("amount") || tweak.label.contains("random") {
            plan = Plan { kind: Some(2), ..Plan::default() };
        }
        plan.tweaks.push(tweak.clone());
        let reason = tweak.reason.filter(|_| plan.tidy);
        out.push(Scenario { label: tweak.label, reason, plan, ..Scenario::default() });
    }
    out
}

/// 8D that cannot be filled, where it is needed and where it is not.
pub fn second_lists() -> Vec<Scenario> {
    let bad = list_edges().into_iter().filter(|t| t.label.starts_with("8D") && t.reason.is_none());
    let mut all = Vec::new();
    for tweak in bad {
        for kind in 0..3 {
            for first in [0, 2] {
                let mut plan = Plan { first: Some(first), ..long_plan(kind) };
                plan.tweaks.push(tweak.clone());
                let label = format!("type {kind}, first {first}, {}", tweak.label);
                let reason = Some(if first == 2 { 9 } else { 0 });
                all.push(Scenario { label, reason, plan, ..Scenario::default() });
            }
        }
    }
    all
}
