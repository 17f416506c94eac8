//! All ways to set up terminal and card.

pub mod applications;
mod asked;
mod cards;
mod dates;
mod lists;
mod money;
mod records;
mod shapes;
mod verified;

pub use asked::{asked, counted, counted_verified};
pub use cards::long_locators;
pub use lists::list_edges;
pub use money::edges_of_money;
pub use records::bad_records;
pub use shapes::shapes;
pub use verified::{cash, if_supported, limits, under_conditions, ways};
pub use verified::{formerly, good_lists, unverified, verified, verify_by, with_means};

use crate::sessions::tweak::Tweak;
use cards::{good_accounts, good_locators, optional_objects};
use dates::good_dates;

/// Dates, versions, locators and lists that stay good.
pub fn good_edges() -> Vec<Tweak> {
    let cards = [optional_objects(), good_locators(), good_accounts(), long_locators()].concat();
    [good_dates(), cards].concat()
}
