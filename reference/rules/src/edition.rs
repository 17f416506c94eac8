//! Which requests of 02 hold. R-12, choosing the application, is written here
//! but has not landed; until it has, it holds only where it is asked for.

use crate::tape::{BLOCK, CHOICE, MOST_BLOCKS, RESULTS};
use crate::terminal::{ReadStart, Terminal};

/// The rules that a session, a tape or a judge goes by.
#[derive(Clone, Copy, Debug, Default, PartialEq, Eq)]
pub enum Edition {
    /// All requests that have landed.
    #[default]
    Landed,
    /// These and R-12.
    Choosing,
}

impl Edition {
    /// The blocks that a tape can have, whatever START it has (02, R-8 and R-12).
    pub fn most_blocks(self) -> usize {
        match self {
            Edition::Landed => MOST_BLOCKS,
            Edition::Choosing => 1536,
        }
    }

    pub fn longest_tape(self) -> usize {
        self.most_blocks() * BLOCK
    }

    /// Kinds of entries go from 1 to this one.
    pub fn last_kind(self) -> u8 {
        match self {
            Edition::Landed => RESULTS,
            Edition::Choosing => CHOICE,
        }
    }

    /// How a call's START is read: it has the latest size alone.
    pub fn called_start(self) -> ReadStart {
        match self {
            Edition::Landed => Terminal::read,
            Edition::Choosing => Terminal::read_choosing,
        }
    }

    /// How a tape's START is read: it may have any size there has been.
    pub fn taped_start(self) -> ReadStart {
        match self {
            Edition::Landed => Terminal::read_either,
            Edition::Choosing => Terminal::read_any,
        }
    }
}
