//! All ways to bend an answer.

mod anywhere;
mod choosing;
mod cryptogram;
mod elsewhere;
mod options;
mod record;
mod select;

pub use anywhere::anywhere;
pub use choosing::{choosing_other, choosing_own};
pub use cryptogram::cryptogram;
pub use options::options;
pub use record::{record, verification};
pub use select::select;
