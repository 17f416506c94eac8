//! Free mixes of everything.

use super::scenario::Scenario;
use crate::damages::{damages, long_damages};
use crate::endings::any_ending;
use crate::faults::{anywhere, cryptogram, options, record, select};
use crate::random::Random;
use crate::sessions::fault::Fault;
use crate::sessions::plan::Place;
use crate::sessions::tweak::Tweak;
use crate::tweaks::{
    asked, bad_records, edges_of_money, good_edges, good_lists, list_edges, shapes,
};

fn any_fault(r: &mut Random) -> (Place, Fault) {
    let (place, own) = match r.below(6) {
        0 => (Place::Select, select()),
        1 => (Place::Options, options()),
        2 => (Place::AnyRecord, record()),
        3 => (Place::LastRecord, record()),
        4 => (Place::FirstCryptogram, cryptogram()),
        _ => (Place::SecondCryptogram, cryptogram()),
    };
    let table = if r.chance(50) { own } else { anywhere() };
    (place, r.pick(&table).clone())
}

fn any_tweak(r: &mut Random) -> Tweak {
    let table = match r.below(10) {
        0 => edges_of_money(),
        1 => good_edges(),
        2 => list_edges(),
        3 | 4 => asked(),
        5 => bad_records(),
        6 => shapes(),
        _ => good_lists(),
    };
    r.pick(&table).clone()
}

/// A free mix of everything.
pub fn by_chance(r: &mut Random) -> Scenario {
    let mut scenario = Scenario { label: "mix".to_string(), ..Scenario::default() };
    for _ in 0..*r.pick(&[0, 0, 1, 1, 2]) {
        let tweak = any_tweak(r);
        scenario.label += &format!("; {}", tweak.label);
        scenario.plan.tweaks.push(tweak);
    }
    for _ in 0..*r.pick(&[0, 0, 0, 1, 1, 2]) {
        let (place, fault) = any_fault(r);
        scenario.label += &format!("; {place:?}: {}", fault.label);
        scenario.plan.faults.push((place, fault));
    }
    for _ in 0..*r.pick(&[0, 0, 1, 1, 1, 2]) {
        let ending = any_ending(r);
        scenario.label += &format!("; {}", ending.label);
        scenario.endings.push(ending);
    }
    if r.chance(15) {
        let table = if r.chance(10) { long_damages() } else { damages() };
        let damage = r.pick(&table).clone();
        scenario.label += &format!("; {}", damage.label);
        scenario.damages.push(damage);
    }
    scenario
}
