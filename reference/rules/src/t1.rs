//! The T=1 layer (02, R-10; 000, I-5.2.4, I-5.2.5 and I-5.3.2): one end of an
//! exchange of blocks, the terminal's or the card's. Its state is handed in by
//! value at every event and comes back with the block to send.

pub mod block;
mod end;
mod events;

pub use end::End;
pub use events::*;

#[cfg(test)]
mod tests;
