//! What is made of one exchange.

/// A command and all bytes of the card.
#[derive(Clone)]
pub struct Made {
    pub command: Vec<u8>,
    pub card: Vec<u8>,
}
