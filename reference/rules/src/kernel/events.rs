//! What goes into a session and what comes out.

/// Refusal numbers of 01's table that belong to this module.
pub const SHORT_BUFFER: u8 = 1;
pub const OVER: u8 = 2;
pub const BAD_START: u8 = 3;
pub const OUT_OF_TURN: u8 = 4;
pub const LONG_ANSWER: u8 = 5;
pub const BAD_HOST: u8 = 6;
/// 02, R-7.
pub const BAD_RESULTS: u8 = 12;
/// 02, R-12.
pub const BAD_CHOICE: u8 = 13;

pub type Decision = [u8; 9];

/// What a caller can hand to the kernel.
#[derive(Clone, Copy, Debug, PartialEq, Eq)]
pub enum Event<'a> {
    Start(&'a [u8]),
    Answer(&'a [u8]),
    Silence,
    Host(&'a [u8]),
    /// A byte for each rule of the verification list (02, R-7).
    Results(&'a [u8]),
    /// The place of the application that the shopper takes (02, R-12).
    Choice(&'a [u8]),
}

/// What the kernel gives back.
#[derive(Clone, Debug, PartialEq, Eq)]
pub enum Reply {
    Command(Vec<u8>),
    HostDue,
    /// So many results are due, one for each rule (02, R-7).
    ResultsDue(usize),
    /// A choice among so many that are shown is due (02, R-12).
    ChoiceDue(usize),
    Decision(Decision),
    Closed,
    Refused(u8),
}
