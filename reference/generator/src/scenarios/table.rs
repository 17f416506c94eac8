//! The table that goes through everything once.

use super::scenario::Scenario;
use super::sessions::{faults, outcomes, second_lists, tweaked};
use super::tapes::{counted_tapes, damaged, ended, long_tapes, longest};
use super::verified::verification;

pub fn systematic() -> Vec<Scenario> {
    [
        outcomes(),
        faults(),
        tweaked(),
        second_lists(),
        longest(),
        ended(),
        damaged(),
        counted_tapes(),
        long_tapes(),
        verification(),
    ]
    .concat()
}
