//! An ordinary judge of whole tapes, written for speed (02, R-14): the rules of
//! the reference and no proofs. It allocates nothing. START, the AFL and all
//! values are parts of the tape; what is copied is a command, into one buffer.
//!
//! There are several, by how the check of a block is done: `ordinary` takes
//! every byte in, eight at a time and two blocks side by side; `alike` tests the
//! zeros behind a payload and skips them; `hardware` uses the processor's own
//! means. All that follows is the same.

mod answers;
mod check;
mod decide;
mod follow;
mod known;
mod lists;
mod objects;
mod skip;
mod start;
mod tape;
mod verify;

#[cfg(target_arch = "aarch64")]
#[path = "hardware/aarch64.rs"]
mod instructions;
#[cfg(target_arch = "x86_64")]
#[path = "hardware/x86_64.rs"]
mod instructions;
#[cfg(not(any(target_arch = "x86_64", target_arch = "aarch64")))]
#[path = "hardware/none.rs"]
mod instructions;

use std::fmt;
use tape::{Block, Damage};

#[derive(Clone, Copy, Debug, PartialEq, Eq)]
pub enum Verdict {
    Pass,
    Fail,
    Inconclusive,
    Unreadable,
}

/// What is said of a tape: the judge's line.
#[derive(Clone, Copy, Debug, PartialEq, Eq)]
pub struct Finding {
    pub verdict: Verdict,
    pub place: usize,
    /// 0 unless unreadable.
    pub code: u8,
    /// Entries of object lists filled with zeros (02, R-6).
    pub zeros: usize,
}

impl fmt::Display for Finding {
    fn fmt(&self, f: &mut fmt::Formatter) -> fmt::Result {
        let word = match self.verdict {
            Verdict::Pass => "PASS",
            Verdict::Fail => "FAIL",
            Verdict::Inconclusive => "INCONCLUSIVE",
            Verdict::Unreadable => "UNREADABLE",
        };
        write!(f, "{word} {} {} {}", self.place, self.code, self.zeros)
    }
}

/// The finding on a tape, its blocks read by `read`.
#[inline(always)]
fn judged(tape: &[u8], read: impl FnOnce(&[Block], u32) -> Result<(), Damage>) -> Finding {
    let blocks = tape::blocks_of(tape).and_then(|blocks| {
        if let Some(first) = blocks.first() {
            read(blocks, tape::session_of(first))?;
        }
        Ok(blocks)
    });
    match blocks {
        Ok(blocks) => follow::follow(blocks),
        Err(Damage { place, code }) => {
            Finding { verdict: Verdict::Unreadable, place, code, zeros: 0 }
        }
    }
}

/// Every byte is taken in, eight in a turn, two blocks side by side.
pub mod ordinary {
    pub fn judge(tape: &[u8]) -> crate::Finding {
        crate::judged(tape, crate::check::read)
    }
}

/// Zeros behind the payload are tested and skipped.
pub mod alike {
    pub fn judge(tape: &[u8]) -> crate::Finding {
        crate::judged(tape, crate::skip::read)
    }
}

/// By the instructions of the processor.
pub mod hardware {
    /// Nothing where the processor has none that fit.
    pub fn judge() -> Option<fn(&[u8]) -> crate::Finding> {
        crate::instructions::are_there().then_some(judge_there)
    }

    fn judge_there(tape: &[u8]) -> crate::Finding {
        crate::judged(tape, crate::instructions::read)
    }
}

#[cfg(test)]
mod tests;
