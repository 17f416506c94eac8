//! Choosing the application (02, R-12; 001, 12.3 and 12.4): the payment
//! directory, the list of AIDs, the shopper's choice, the final SELECT. "12.4/2"
//! is section and step of 001.

mod read;

pub use read::{read_application, read_directory, read_directory_file, Application, Candidate};

use crate::answers::{parts, Reason, NO_APPLICATION, SUCCESS, TOO_MANY_EXCHANGES};
use crate::commands::{record_command, select_command, FIRST, NEXT};
use crate::terminal::{Aid, Supported};

/// The name of the payment system environment (001, 12.2.2).
pub const PSE: &[u8] = b"1PAY.SYS.DDF01";

/// 02, R-12: commands with their answers, all that are made before GPO.
pub const MOST_EXCHANGES: usize = 100;
/// So many applications are shown at the most; 'FF' is none of them.
const MOST_SHOWN: usize = 255;
const NONE: u8 = 0xFF;

/// Statuses that 001 tells apart.
const BLOCKED_CARD: [u8; 2] = [0x6A, 0x81];
const BLOCKED_APPLICATION: [u8; 2] = [0x62, 0x83];
const NO_RECORD: [u8; 2] = [0x6A, 0x83];

/// A selection under way.
#[derive(Clone, Debug)]
pub struct Selection {
    supported: Supported,
    /// The candidate list (001, 12.3).
    found: Vec<Candidate>,
    exchanges: usize,
    /// An application that the shopper took has fallen out: from here on no
    /// other is selected without him (001, 12.4).
    only_by_shopper: bool,
    due: Due,
}

/// What is due: the answer to one of four commands, or a choice.
#[derive(Clone, Copy, Debug, PartialEq, Eq)]
enum Due {
    Pse,
    Record { file: u8, number: u8 },
    Aid { index: usize, is_next: bool },
    Final { place: usize, by_shopper: bool },
    Choice,
}

/// Which of its commands a selection waits for the answer to.
#[derive(Clone, Copy, Debug, PartialEq, Eq)]
pub enum Stage {
    Pse,
    Directory,
    Aid,
    NextOccurrence,
    Final,
}

/// What follows an event.
#[derive(Clone, Debug, PartialEq, Eq)]
pub enum Next {
    Command(Vec<u8>),
    /// A choice among so many that are shown.
    Choice(usize),
    /// The selection is over; the list of its 9F38 is to be filled.
    Selected(Vec<u8>),
}

/// A reason ends the session.
type Step = Result<Next, Reason>;

impl Selection {
    /// The selection that begins, and its first command: the directory is
    /// always tried (02, R-12: "payment directory first").
    pub fn begin(supported: Supported) -> (Selection, Vec<u8>) {
        let (found, due) = (Vec::new(), Due::Pse);
        let selection = Selection { supported, found, exchanges: 0, only_by_shopper: false, due };
        (selection, select_command(PSE, FIRST))
    }

    /// Nothing where a choice is due.
    pub fn stage(&self) -> Option<Stage> {
        match self.due {
            Due::Pse => Some(Stage::Pse),
            Due::Record { .. } => Some(Stage::Directory),
            Due::Aid { is_next: false, .. } => Some(Stage::Aid),
            Due::Aid { is_next: true, .. } => Some(Stage::NextOccurrence),
            Due::Final { .. } => Some(Stage::Final),
            Due::Choice => None,
        }
    }

    /// How many are shown, where a choice is due.
    pub fn shown(&self) -> Option<usize> {
        (self.due == Due::Choice).then(|| self.found.len().min(MOST_SHOWN))
    }

    /// Whether the payload is a place that is shown, or none.
    pub fn takes_choice(&self, payload: &[u8]) -> bool {
        match (payload, self.shown()) {
            (&[place], Some(shown)) => place == NONE || usize::from(place) < shown,
            _ => false,
        }
    }

    /// A card answer of any content, with an answer due.
    pub fn answer(&mut self, answer: &[u8]) -> Step {
        self.exchanges += 1;
        let (data, status) = parts(answer)?;
        match self.due {
            Due::Pse => self.after_pse(status, data),
            Due::Record { file, number } => self.after_record(file, number, status, data),
            Due::Aid { index, is_next } => self.after_aid(index, is_next, status, data),
            Due::Final { place, by_shopper } => self.after_final(place, by_shopper, status, data),
            Due::Choice => Err(NO_APPLICATION),
        }
    }

    /// A choice that was taken, with the choice due.
    pub fn choose(&mut self, place: u8) -> Step {
        match place {
            NONE => Err(NO_APPLICATION),
            place => self.select_found(usize::from(place), true),
        }
    }

    /// 12.3.2/1.
    fn after_pse(&mut self, status: [u8; 2], data: &[u8]) -> Step {
        match status {
            BLOCKED_CARD => Err(NO_APPLICATION),
            SUCCESS => match read_directory_file(data) {
                Some(file) => self.ask_record(file, 1),
                None => self.ask_aid(0, false),
            },
            _ => self.ask_aid(0, false),
        }
    }

    /// 12.3.2/2 to 5. Any error clears the list and leads to the AIDs.
    fn after_record(&mut self, file: u8, number: u8, status: [u8; 2], data: &[u8]) -> Step {
        if status == NO_RECORD && !self.found.is_empty() {
            return self.final_selection();
        }
        let entries = if status == SUCCESS { read_directory(data) } else { None };
        let Some(entries) = entries else {
            self.found.clear();
            return self.ask_aid(0, false);
        };
        let aids = &self.supported.aids;
        let matching = |entry: &Candidate| aids.iter().any(|aid| aid.matches(&entry.name));
        self.found.extend(entries.into_iter().filter(matching));
        // Exchanges run out before numbers do.
        self.ask_record(file, number.saturating_add(1))
    }

    /// 12.3.3/2 to 7.
    fn after_aid(&mut self, index: usize, is_next: bool, status: [u8; 2], data: &[u8]) -> Step {
        if status == BLOCKED_CARD && index == 0 && !is_next {
            return Err(NO_APPLICATION);
        }
        let looked_into = status == SUCCESS || status == BLOCKED_APPLICATION;
        let application = if looked_into { read_application(data) } else { None };
        let aid = &self.supported.aids[index];
        match application.filter(|application| aid.matches(&application.found.name)) {
            Some(Application { found, .. }) => {
                // One of the very same name is the last (12.3.3/4).
                let is_longer = found.name != aid.name;
                if status == SUCCESS {
                    self.found.push(found);
                }
                if is_longer {
                    self.ask_aid(index, true)
                } else {
                    self.ask_aid(index + 1, false)
                }
            }
            None => self.ask_aid(index + 1, false),
        }
    }

    /// 12.4: the answer to the final SELECT. Reason 9 is left to the caller,
    /// who fills the list.
    fn after_final(
        &mut self,
        place: usize,
        by_shopper: bool,
        status: [u8; 2],
        data: &[u8],
    ) -> Step {
        let application = if status == SUCCESS { read_application(data) } else { None };
        match application {
            Some(application) if application.found.name == self.found[place].name => {
                Ok(Next::Selected(application.list))
            }
            _ => {
                self.found.remove(place);
                self.only_by_shopper |= by_shopper;
                self.final_selection()
            }
        }
    }

    /// 12.4/1 to 5.
    fn final_selection(&mut self) -> Step {
        // Equals stay as met.
        self.found.sort_by_key(Candidate::rank);
        let unconfirmed = self.found.iter().position(|found| !found.wants_confirmation());
        if self.found.is_empty() {
            return Err(NO_APPLICATION);
        }
        if !self.supported.shopper_can_choose {
            return self.select_found(unconfirmed.ok_or(NO_APPLICATION)?, false);
        }
        if self.found.len() > 1 || unconfirmed.is_none() || self.only_by_shopper {
            return self.offer();
        }
        self.select_found(0, false)
    }

    fn offer(&mut self) -> Step {
        self.go_on()?;
        self.due = Due::Choice;
        Ok(Next::Choice(self.found.len().min(MOST_SHOWN)))
    }

    fn select_found(&mut self, place: usize, by_shopper: bool) -> Step {
        let command = select_command(&self.found[place].name, FIRST);
        self.ask(Due::Final { place, by_shopper }, command)
    }

    /// 12.3.3/1 and 5; behind the last AID the list is complete.
    fn ask_aid(&mut self, index: usize, is_next: bool) -> Step {
        let Some(Aid { name, .. }) = self.supported.aids.get(index) else {
            return self.final_selection();
        };
        let command = select_command(name, if is_next { NEXT } else { FIRST });
        self.ask(Due::Aid { index, is_next }, command)
    }

    fn ask_record(&mut self, file: u8, number: u8) -> Step {
        self.ask(Due::Record { file, number }, record_command(number, 8 * file + 4))
    }

    fn ask(&mut self, due: Due, command: Vec<u8>) -> Step {
        self.go_on()?;
        self.due = due;
        Ok(Next::Command(command))
    }

    /// Reason 11 where no other exchange may follow.
    fn go_on(&self) -> Result<(), Reason> {
        if self.exchanges < MOST_EXCHANGES {
            Ok(())
        } else {
            Err(TOO_MANY_EXCHANGES)
        }
    }
}

#[cfg(test)]
mod tests;
