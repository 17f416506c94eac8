//! The generator: tapes, call sequences, captures and other vectors, with the
//! answers of the rules. The rules know nothing of it.

mod random;

mod sessions;

mod damages;
mod endings;
mod faults;
mod tweaks;

mod scenarios;
mod tapes;

mod blocks;
mod books;
mod calls;
mod dress;
mod exchanges;
mod mixtures;
mod remains;
mod resets;

pub use blocks::make_blocks;
pub use books::make_books;
pub use calls::make_calls;
pub use dress::{dress_script, dress_tape, make_dressed};
pub use exchanges::make_exchanges;
pub use mixtures::{make_mixture, mixed_tapes, Mixture};
pub use remains::make_remains;
pub use resets::make_resets;
pub use tapes::{make, tapes};
