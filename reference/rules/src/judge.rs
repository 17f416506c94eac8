//! The judge: reads a whole tape and gives one verdict (00, demand 3; 01,
//! "The tape").

use crate::choosing::Stage;
use crate::edition::Edition;
use crate::kernel::{Decision, Event, Reply, Session};
use crate::tape::{self, Entry, Unreadable};
use std::fmt;

#[derive(Clone, Copy, Debug, PartialEq, Eq)]
pub enum Verdict {
    /// Number of entries.
    Pass(usize),
    /// Index of the entry that breaks the rules.
    Fail(usize),
    /// Number of entries.
    Inconclusive(usize),
    Unreadable(Unreadable),
}

impl fmt::Display for Verdict {
    fn fmt(&self, f: &mut fmt::Formatter) -> fmt::Result {
        match self {
            Verdict::Pass(entries) => write!(f, "PASS {entries} 0"),
            Verdict::Fail(index) => write!(f, "FAIL {index} 0"),
            Verdict::Inconclusive(entries) => write!(f, "INCONCLUSIVE {entries} 0"),
            Verdict::Unreadable(damage) => {
                write!(f, "UNREADABLE {} {}", damage.place, damage.code)
            }
        }
    }
}

/// A verdict and the fourth number of its line (02, R-6).
#[derive(Clone, Copy, Debug, PartialEq, Eq)]
pub struct Judgement {
    pub verdict: Verdict,
    /// The session's sum at the end of the tape, for FAIL before the named
    /// entry; 0 for UNREADABLE.
    pub unsupplied: usize,
}

impl fmt::Display for Judgement {
    fn fmt(&self, f: &mut fmt::Formatter) -> fmt::Result {
        write!(f, "{} {}", self.verdict, self.unsupplied)
    }
}

/// What may stand next on the tape.
#[derive(Clone, Debug, Default, PartialEq, Eq)]
pub enum Due {
    #[default]
    Start,
    /// Exactly this command.
    Command(Vec<u8>),
    /// Any answer, or a silence that closes.
    Answer,
    Host,
    /// So many results, one for each rule of the verification list (02, R-7).
    Results(usize),
    /// The shopper's choice among so many that are shown (02, R-12).
    Choice(usize),
    /// Exactly this decision.
    Decision(Decision),
    /// Nothing: the session is finished.
    Finished,
    /// Nothing: a silence closed it unfinished.
    Closed,
}

/// Follows a tape with a kernel of its own: what came from outside is fed to
/// it, what came from the terminal is held against it.
#[derive(Default)]
pub struct Follower {
    session: Session,
    due: Due,
}

impl Follower {
    pub fn by(edition: Edition) -> Follower {
        Follower { session: Session::by(edition), due: Due::Start }
    }

    /// What may stand next.
    pub fn due(&self) -> &Due {
        &self.due
    }

    /// Where a selection stands that waits for an answer (02, R-12).
    pub fn stage(&self) -> Option<Stage> {
        self.session.stage().filter(|_| self.due == Due::Answer)
    }

    /// Whether the entry is one that may stand next. One that may not leaves
    /// all as it was.
    pub fn follow(&mut self, entry: Entry) -> bool {
        match self.after(entry) {
            Some(due) => {
                self.due = due;
                true
            }
            None => false,
        }
    }

    /// The verdict where a tape ends that broke no rule.
    pub fn verdict_at_end(&self, entries: usize) -> Verdict {
        match self.due {
            Due::Finished => Verdict::Pass(entries),
            _ => Verdict::Inconclusive(entries),
        }
    }

    pub fn judgement(&self, verdict: Verdict) -> Judgement {
        Judgement { verdict, unsupplied: self.session.unsupplied() }
    }

    /// What stands next after the entry, or nothing if it breaks the rules.
    fn after(&mut self, entry: Entry) -> Option<Due> {
        match (&self.due, entry.kind) {
            (Due::Start, tape::START) => self.feed(Event::Start(entry.payload)),
            (Due::Command(due), tape::COMMAND) => (entry.payload == due).then_some(Due::Answer),
            (Due::Answer, tape::ANSWER) => self.feed(Event::Answer(entry.payload)),
            (Due::Answer, tape::SILENCE) => entry.payload.is_empty().then_some(Due::Closed),
            (Due::Host, tape::HOST) => self.feed(Event::Host(entry.payload)),
            (Due::Results(_), tape::RESULTS) => self.feed(Event::Results(entry.payload)),
            (Due::Choice(_), tape::CHOICE) => self.feed(Event::Choice(entry.payload)),
            (Due::Decision(due), tape::DECISION) => (entry.payload == due).then_some(Due::Finished),
            _ => None,
        }
    }

    fn feed(&mut self, event: Event) -> Option<Due> {
        match self.session.retell(event) {
            Reply::Command(command) => Some(Due::Command(command)),
            Reply::HostDue => Some(Due::Host),
            Reply::ResultsDue(count) => Some(Due::Results(count)),
            Reply::ChoiceDue(shown) => Some(Due::Choice(shown)),
            Reply::Decision(decision) => Some(Due::Decision(decision)),
            Reply::Closed | Reply::Refused(_) => None,
        }
    }
}

pub fn judge(bytes: &[u8]) -> Judgement {
    judge_by(Edition::default(), bytes)
}

pub fn judge_by(edition: Edition, bytes: &[u8]) -> Judgement {
    // No entry is looked at until every block has proved readable: damage
    // outranks broken rules, wherever the two are.
    match tape::read_by(edition, bytes) {
        Ok(entries) => follow(edition, &entries),
        Err(damage) => Judgement { verdict: Verdict::Unreadable(damage), unsupplied: 0 },
    }
}

/// The judgement on the entries of a readable tape.
fn follow(edition: Edition, entries: &[Entry]) -> Judgement {
    let mut follower = Follower::by(edition);
    let broken = entries.iter().position(|&entry| !follower.follow(entry));
    let verdict = match broken {
        Some(index) => Verdict::Fail(index),
        None => follower.verdict_at_end(entries.len()),
    };
    follower.judgement(verdict)
}

#[cfg(test)]
mod tests;
