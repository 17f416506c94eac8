//! What can happen to an end, where it then stands, and what comes of it.

use super::block::Topic;
use std::ops::Range;

/// The terminal's information field size; the first block says so.
pub const IFSD: u8 = 254;

#[derive(Clone, Copy, Debug, PartialEq, Eq)]
pub enum Role {
    Terminal,
    Card,
}

/// Where an end stands.
#[derive(Clone, Copy, Debug, PartialEq, Eq)]
pub enum Phase {
    /// Terminal: nothing has been sent.
    Start,
    /// Terminal: the first S(IFS request) is open.
    Hello,
    /// Terminal: a command can be sent.
    Idle,
    /// Card: no I-block has come yet.
    Listen,
    /// Card: a command is there and its answer can be sent.
    Busy,
    /// Card: its own S(request) is open.
    Ask,
    /// A block of a chain is out and its acknowledgement is due.
    Send,
    /// The last block is out and an I-block is due.
    Wait,
    /// A chain comes in.
    Recv,
    Over,
}

impl Phase {
    pub fn name(self) -> &'static str {
        match self {
            Phase::Start => "START",
            Phase::Hello => "HELLO",
            Phase::Idle => "IDLE",
            Phase::Listen => "LISTEN",
            Phase::Busy => "BUSY",
            Phase::Ask => "ASK",
            Phase::Send => "SEND",
            Phase::Wait => "WAIT",
            Phase::Recv => "RECV",
            Phase::Over => "OVER",
        }
    }
}

/// What can happen to an end.
#[derive(Clone, Debug, PartialEq, Eq)]
pub enum Event {
    /// Terminal: the first block is to go out.
    Hello,
    /// A message is to go out: a command, or the answer to one.
    Send(Vec<u8>),
    /// Card: an S(request) is to go out, with this value.
    Ask(Topic, u8),
    /// Bytes have come in.
    Block(Vec<u8>),
    /// The other end has said nothing in its time.
    Silence,
}

/// Why an exchange is over.
pub const LIMIT: &str = "LIMIT";
pub const ABORT: &str = "ABORT";
pub const SILENCE: &str = "SILENCE";
/// Why an event is turned away; nothing changes then.
pub const NOT_DUE: &str = "NOT-DUE";
pub const CLOSED: &str = "CLOSED";

/// What comes of an event.
#[derive(Clone, Debug, Default, PartialEq, Eq)]
pub struct Outcome {
    pub send: Option<Vec<u8>>,
    /// The place in the lent block of the information field that was taken.
    pub inf: Option<Range<usize>>,
    /// A message that is complete.
    pub message: Option<Vec<u8>>,
    pub end: Option<&'static str>,
    pub refusal: Option<&'static str>,
}

impl Outcome {
    pub fn sends(block: Vec<u8>) -> Outcome {
        Outcome { send: Some(block), ..Outcome::default() }
    }

    pub fn refused(name: &'static str) -> Outcome {
        Outcome { refusal: Some(name), ..Outcome::default() }
    }
}
