//! One kind of tape.

use crate::damages::Damage;
use crate::endings::Ending;
use crate::sessions::card::Steer;
use crate::sessions::plan::Plan;

/// One kind of tape.
#[derive(Clone, Default)]
pub struct Scenario {
    pub label: String,
    /// The reason the session should end with, where that is certain.
    pub reason: Option<u8>,
    pub plan: Plan,
    pub endings: Vec<Ending>,
    pub damages: Vec<Damage>,
}

/// A plan that certainly reaches the second request and approves.
pub fn long_plan(kind: u8) -> Plan {
    Plan {
        kind: Some(kind),
        steer: Some(if kind == 2 { Steer::Online } else { Steer::Clear }),
        first: Some(2),
        second: Some(1),
        host: Some(vec![1, 0x30, 0x30]),
        tidy: true,
        ..Plan::default()
    }
}
