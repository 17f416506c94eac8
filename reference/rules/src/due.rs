//! What is due at each place of a tape, by 01 and 02: not whether the tape
//! keeps to it, but what it would have to hold.

use crate::edition::Edition;
use crate::hex;
use crate::judge::{Due, Follower, Judgement, Verdict};
use crate::tape;
use std::fmt;

impl fmt::Display for Due {
    fn fmt(&self, f: &mut fmt::Formatter) -> fmt::Result {
        match self {
            Due::Start => write!(f, "START"),
            Due::Command(command) => write!(f, "COMMAND {}", hex::text(command)),
            Due::Answer => write!(f, "ANSWER"),
            Due::Host => write!(f, "HOST"),
            Due::Results(count) => write!(f, "RESULTS {count}"),
            Due::Choice(shown) => write!(f, "CHOICE {shown}"),
            Due::Decision(decision) => write!(f, "DECISION {}", hex::text(decision)),
            Due::Finished | Due::Closed => write!(f, "NOTHING"),
        }
    }
}

/// A tape followed from entry to entry.
#[derive(Clone, Debug, PartialEq, Eq)]
pub struct Account {
    /// What was due before each entry, up to the one that breaks the rules; if
    /// none does, also what is due behind the last. Nothing of a tape that
    /// cannot be read.
    pub dues: Vec<Due>,
    pub judgement: Judgement,
}

impl Account {
    pub fn of(bytes: &[u8]) -> Account {
        Account::by(Edition::default(), bytes)
    }

    pub fn by(edition: Edition, bytes: &[u8]) -> Account {
        let entries = match tape::read_by(edition, bytes) {
            Ok(entries) => entries,
            Err(damage) => {
                let verdict = Verdict::Unreadable(damage);
                return Account {
                    dues: Vec::new(),
                    judgement: Judgement { verdict, unsupplied: 0 },
                };
            }
        };
        let mut follower = Follower::by(edition);
        let mut dues = vec![follower.due().clone()];
        for (index, &entry) in entries.iter().enumerate() {
            if !follower.follow(entry) {
                return Account { dues, judgement: follower.judgement(Verdict::Fail(index)) };
            }
            dues.push(follower.due().clone());
        }
        let verdict = follower.verdict_at_end(entries.len());
        Account { dues, judgement: follower.judgement(verdict) }
    }

    /// `DUE index KIND bytes` for each place, without the judgement.
    pub fn lines(&self) -> String {
        let numbered = self.dues.iter().enumerate();
        numbered.map(|(index, due)| format!("DUE {index} {due}\n")).collect()
    }
}

#[cfg(test)]
mod tests;
