//! All ways to change the entries of a session that has been played.

mod choices;
mod ending;
pub mod entries;
mod orders;
mod payloads;
mod results;
mod starts;

pub use choices::choices;
pub use ending::Ending;
pub use entries::at_every_entry;
pub use orders::filled_up_to;
pub use results::{results, without_capabilities};

use crate::random::Random;
use orders::{additions, cuts, filled_up, silences, strangers};
use payloads::payloads;
use starts::starts;

/// A cut, a silence or something about RESULTS most of the time, else any
/// ending.
pub fn any_ending(r: &mut Random) -> Ending {
    let table = match r.below(5) {
        0 => cuts(),
        1 => silences(),
        2 => results(),
        _ => endings(),
    };
    r.pick(&table).clone()
}

pub fn endings() -> Vec<Ending> {
    let former = [cuts(), silences(), additions(), strangers(), payloads(), starts()].concat();
    [former, filled_up(), results()].concat()
}
