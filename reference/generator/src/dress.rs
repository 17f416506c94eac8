//! Dressed tapes (02, R-13): what is seen of the card's answers stays, all that
//! is ignored in them changes, and so must no line of the judge. Beside each
//! such tape one in which something is seen to change.

mod answer;
mod change;
mod clothes;
mod pieces;
mod programs;
mod tapes;
mod values;

pub use programs::{dress_script, dress_tape, make_dressed};

#[cfg(test)]
mod tests;
