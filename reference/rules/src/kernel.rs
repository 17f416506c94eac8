//! The kernel: one contact session, step by step.

mod events;
mod running;

pub use events::*;

use crate::answers::Reason;
use crate::choosing::{Next, Selection, Stage};
use crate::decide::Host;
use crate::edition::Edition;
use crate::terminal::{Applications, ReadStart, Terminal};
use running::{terminated, Running};

/// The lent command buffer must hold the longest command there is.
pub const LONGEST_COMMAND: usize = 261;
pub const LONGEST_PAYLOAD: usize = 496;

/// One session. Nothing but a step changes it, and a refused step does not.
#[derive(Clone, Debug, Default)]
pub struct Session {
    edition: Edition,
    state: State,
}

#[derive(Clone, Debug, Default)]
enum State {
    #[default]
    Fresh,
    /// The application is being chosen (02, R-12).
    Choosing(Box<Choosing>),
    Running(Box<Running>),
    /// There was a decision, or the card kept silent. The number is the sum
    /// that the session had reached (02, R-6).
    Over(usize),
}

#[derive(Clone, Debug)]
struct Choosing {
    terminal: Terminal,
    selection: Selection,
}

impl Session {
    pub fn by(edition: Edition) -> Session {
        Session { edition, state: State::Fresh }
    }

    pub fn edition(&self) -> Edition {
        self.edition
    }

    /// One call, with `room` bytes lent for a command.
    pub fn step(&mut self, room: usize, event: Event) -> Reply {
        self.step_reading(self.edition.called_start(), room, event)
    }

    /// One event that a tape tells of. Unlike a call it may be a START of a
    /// former size, whose session then goes by its own rules (02, R-7, R-12).
    pub fn retell(&mut self, event: Event) -> Reply {
        self.step_reading(self.edition.taped_start(), LONGEST_COMMAND, event)
    }

    fn step_reading(&mut self, read: ReadStart, room: usize, event: Event) -> Reply {
        if let Some(number) = self.refusal(read, room, event) {
            return Reply::Refused(number);
        }
        let reply = match (&mut self.state, event) {
            (State::Fresh, Event::Start(bytes)) => match read(bytes) {
                Some(terminal) => self.start(terminal),
                None => Reply::Refused(BAD_START),
            },
            (State::Choosing(choosing), Event::Answer(bytes)) => {
                let next = choosing.selection.answer(bytes);
                self.after_choosing(next)
            }
            (State::Choosing(choosing), Event::Choice(&[place])) => {
                let next = choosing.selection.choose(place);
                self.after_choosing(next)
            }
            (State::Running(running), Event::Answer(bytes)) => running.answer(bytes),
            (State::Running(running), Event::Host(bytes)) => match Host::read(bytes) {
                Some(host) => running.second(host),
                None => Reply::Refused(BAD_HOST),
            },
            (State::Running(running), Event::Results(bytes)) => running.results(bytes),
            (State::Running(_) | State::Choosing(_), Event::Silence) => Reply::Closed,
            _ => Reply::Refused(OUT_OF_TURN),
        };
        if matches!(reply, Reply::Decision(_) | Reply::Closed) {
            self.state = State::Over(self.unsupplied());
        }
        reply
    }

    fn start(&mut self, terminal: Terminal) -> Reply {
        let command;
        self.state = match &terminal.applications {
            Applications::One(_) => {
                let running = Running::new(terminal);
                command = running.select();
                State::Running(Box::new(running))
            }
            Applications::Listed(supported) => {
                let (selection, first) = Selection::begin(supported.clone());
                command = first;
                State::Choosing(Box::new(Choosing { terminal, selection }))
            }
        };
        Reply::Command(command)
    }

    /// What a step of the selection leads to: with GPO it is over.
    fn after_choosing(&mut self, next: Result<Next, Reason>) -> Reply {
        match (next, &self.state) {
            (Ok(Next::Command(command)), _) => Reply::Command(command),
            (Ok(Next::Choice(shown)), _) => Reply::ChoiceDue(shown),
            (Ok(Next::Selected(list)), State::Choosing(choosing)) => {
                let mut running = Running::new(choosing.terminal.clone());
                let reply = running.selected(&list);
                self.state = State::Running(Box::new(running));
                reply
            }
            (Ok(Next::Selected(_)), _) => Reply::Refused(OUT_OF_TURN),
            (Err(reason), _) => terminated(reason),
        }
    }

    /// Where a selection stands that waits for an answer (02, R-12).
    pub fn stage(&self) -> Option<Stage> {
        match &self.state {
            State::Choosing(choosing) => choosing.selection.stage(),
            _ => None,
        }
    }

    /// How many entries of the object lists filled so far were not known or
    /// not yet there (02, R-6).
    pub fn unsupplied(&self) -> usize {
        match &self.state {
            State::Fresh | State::Choosing(_) => 0,
            State::Running(running) => running.unsupplied(),
            State::Over(sum) => *sum,
        }
    }

    /// The first line of 01's table, with those of 02, R-7 and R-12, that
    /// applies to a kernel call.
    fn refusal(&self, read: ReadStart, room: usize, event: Event) -> Option<u8> {
        if room < LONGEST_COMMAND {
            return Some(SHORT_BUFFER);
        }
        if matches!(self.state, State::Over(_)) {
            return Some(OVER);
        }
        match event {
            Event::Start(bytes) if read(bytes).is_none() => Some(BAD_START),
            _ if !self.is_due(event) => Some(OUT_OF_TURN),
            Event::Answer(bytes) if bytes.len() > LONGEST_PAYLOAD => Some(LONG_ANSWER),
            Event::Host(bytes) if Host::read(bytes).is_none() => Some(BAD_HOST),
            Event::Results(bytes) if !self.takes_results(bytes) => Some(BAD_RESULTS),
            Event::Choice(bytes) if !self.takes_choice(bytes) => Some(BAD_CHOICE),
            _ => None,
        }
    }

    fn is_due(&self, event: Event) -> bool {
        match (&self.state, event) {
            (State::Fresh, Event::Start(_)) => true,
            (State::Choosing(choosing), Event::Choice(_)) => choosing.selection.shown().is_some(),
            (State::Choosing(choosing), Event::Answer(_) | Event::Silence) => {
                choosing.selection.shown().is_none()
            }
            (State::Running(running), Event::Host(_)) => running.is_host_due(),
            (State::Running(running), Event::Results(_)) => running.are_results_due(),
            (State::Running(running), Event::Answer(_) | Event::Silence) => {
                !running.is_host_due() && !running.are_results_due()
            }
            _ => false,
        }
    }

    fn takes_results(&self, results: &[u8]) -> bool {
        matches!(&self.state, State::Running(running) if running.takes_results(results))
    }

    fn takes_choice(&self, choice: &[u8]) -> bool {
        matches!(&self.state, State::Choosing(choosing) if choosing.selection.takes_choice(choice))
    }
}

#[cfg(test)]
pub mod tests;
