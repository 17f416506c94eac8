//! What is made: a table that goes through everything once, and free mixes.

mod chance;
mod choosing;
pub mod scenario;
mod sessions;
mod stock;
mod table;
mod tapes;
mod verified;

pub use chance::by_chance;
pub use choosing::choosing_by_chance;
pub use scenario::Scenario;
pub use stock::{by_chance_of, Stock};

#[cfg(test)]
pub use {choosing::longest as longest_with_list, stock::scenario_for, table::systematic};
