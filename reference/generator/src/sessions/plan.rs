//! A planned session and the entries it leaves on the tape.

use super::applications::Applications;
use super::card::{Card, Steer, STEERS};
use super::fault::Fault;
use super::nodes::Answer;
use super::start::{any_capabilities, Start};
use super::tweak::Tweak;
use super::verification::any_results;
use crate::random::Random;
use rules::choosing::Stage;
use rules::edition::Edition;
use rules::kernel::{Event, Reply, Session};
use rules::tape;
use std::rc::Rc;

/// An entry before it is on a tape.
#[derive(Clone, Debug, PartialEq, Eq)]
pub struct Item {
    pub kind: u8,
    pub payload: Vec<u8>,
}

impl Item {
    pub fn new(kind: u8, payload: impl Into<Vec<u8>>) -> Item {
        Item { kind, payload: payload.into() }
    }
}

/// Which answer a fault befalls.
#[derive(Clone, Copy, Debug, PartialEq, Eq)]
pub enum Place {
    Select,
    Options,
    FirstRecord,
    AnyRecord,
    LastRecord,
    FirstCryptogram,
    SecondCryptogram,
    /// While the application is chosen (02, R-12): the answers of one stage,
    /// all of them or the one of this number.
    Choosing(Stage),
    ChoosingAt(Stage, usize),
}

/// How the shopper chooses (02, R-12).
#[derive(Clone, Copy, Debug, Default, PartialEq, Eq)]
pub enum Shopper {
    /// As chance has it, sometimes none.
    #[default]
    Free,
    /// Always one, as chance has it.
    Willing,
    First,
    Last,
    /// So many applications, then none.
    GivesUp(usize),
}

/// A way to set up the applications of terminal and card.
pub type Setup = Rc<dyn Fn(&mut Applications, &mut Random)>;

/// What is fixed about a selection (02, R-12).
#[derive(Clone, Default)]
pub struct Choosing {
    pub setups: Vec<Setup>,
    pub shopper: Shopper,
}

/// What is fixed about a session; the rest is left to chance.
#[derive(Clone, Default)]
pub struct Plan {
    pub kind: Option<u8>,
    pub steer: Option<Steer>,
    /// The cryptograms to answer with, as the upper bits of 9F27 code them.
    pub first: Option<u8>,
    pub second: Option<u8>,
    pub host: Option<Vec<u8>>,
    /// The result of every rule of the verification list (02, R-7).
    pub results: Option<u8>,
    pub tweaks: Vec<Tweak>,
    pub faults: Vec<(Place, Fault)>,
    /// No meaningless objects, zeros or long length forms by chance.
    pub tidy: bool,
    /// For calls, which take no START of the former size.
    pub called: bool,
    /// The rules that it is played by.
    pub edition: Edition,
    /// Where START has a list of applications (02, R-12).
    pub choosing: Option<Choosing>,
}

/// Terminal, card and issuer at play.
pub struct Players {
    pub start: Start,
    card: Card,
    plan: Plan,
    /// The record that stands for `AnyRecord`.
    any_record: usize,
    records_read: usize,
    requests: usize,
    /// Answers given so far in each stage of the selection, and choices.
    stages: [usize; 5],
    choices: usize,
}

impl Players {
    pub fn new(plan: &Plan, r: &mut Random) -> Players {
        let mut start = Start::any(r);
        if let Some(kind) = plan.kind {
            start.kind = kind;
        }
        let steer = plan.steer.unwrap_or(*r.pick(&STEERS));
        let mut card = Card::any(steer, &mut start, r);
        card.noisy &= !plan.tidy;
        for tweak in &plan.tweaks {
            (tweak.apply)(&mut start, &mut card, r);
        }
        if (plan.called || plan.choosing.is_some()) && start.capabilities.is_none() {
            start.capabilities = Some(any_capabilities(r));
        }
        let any_record = r.below(card.record_count());
        start.applications = plan.choosing.as_ref().map(|choosing| {
            let mut applications = Applications::any(r);
            choosing.setups.iter().for_each(|setup| setup(&mut applications, r));
            applications
        });
        let (plan, stages) = (plan.clone(), [0; 5]);
        Players { start, card, plan, any_record, records_read: 0, requests: 0, stages, choices: 0 }
    }

    /// An answer while the application is chosen.
    fn choosing_answer(&mut self, stage: Stage, command: &[u8], r: &mut Random) -> Answer {
        self.stages[stage as usize] += 1;
        let list = self.card.list.as_deref();
        let answer = match &mut self.start.applications {
            Some(applications) => applications.answer(command, list),
            None => Answer::new(0x6F, Vec::new()),
        };
        self.card.finish(answer, r)
    }

    fn is_at_stage(&self, place: Place, stage: Stage) -> bool {
        match place {
            Place::Choosing(at) => at == stage,
            Place::ChoosingAt(at, number) => at == stage && self.stages[stage as usize] == number,
            _ => false,
        }
    }

    /// A place among those shown, or none.
    pub fn choice(&mut self, shown: usize, r: &mut Random) -> u8 {
        self.choices += 1;
        let shopper = self.plan.choosing.as_ref().map(|choosing| choosing.shopper);
        let any = |r: &mut Random| if r.chance(40) { 0 } else { r.below(shown) };
        match shopper.unwrap_or_default() {
            Shopper::Free if r.chance(8) => 0xFF,
            Shopper::Free | Shopper::Willing => any(r) as u8,
            Shopper::First => 0,
            Shopper::Last => (shown - 1) as u8,
            Shopper::GivesUp(after) if self.choices > after => 0xFF,
            Shopper::GivesUp(_) => any(r) as u8,
        }
    }

    fn is_at(&self, place: Place, command: &[u8]) -> bool {
        let record = self.records_read.wrapping_sub(1);
        match (command[1], place) {
            (0xA4, Place::Select) | (0xA8, Place::Options) => true,
            (0xB2, Place::FirstRecord) => record == 0,
            (0xB2, Place::AnyRecord) => record == self.any_record,
            (0xB2, Place::LastRecord) => record + 1 == self.card.record_count(),
            (0xAE, Place::FirstCryptogram) => self.requests == 1,
            (0xAE, Place::SecondCryptogram) => self.requests == 2,
            _ => false,
        }
    }

    /// The top bits to answer with: as planned, or mostly as asked for.
    fn information(&self, asked: u8, r: &mut Random) -> u8 {
        let planned = if self.requests == 1 { self.plan.first } else { self.plan.second };
        let top = planned.unwrap_or_else(|| match r.below(10) {
            0..=4 => asked >> 6,
            5..=6 => 0,
            7..=8 if self.requests == 1 => 2,
            _ => r.below(4) as u8,
        });
        top << 6 | r.byte() & 0x3F
    }

    fn good_answer(&mut self, command: &[u8], r: &mut Random) -> Answer {
        match command[1] {
            0xA4 => self.card.select(&self.start.aid, r),
            0xA8 => self.card.options(r),
            0xB2 => {
                self.records_read += 1;
                self.card.record(self.records_read - 1, r)
            }
            _ => {
                self.requests += 1;
                let information = self.information(command[2], r);
                self.card.cryptogram(usize::from(self.requests > 1), information, r)
            }
        }
    }

    /// The answer to a command; `stage` is where a selection stands.
    pub fn answer(&mut self, stage: Option<Stage>, command: &[u8], r: &mut Random) -> Vec<u8> {
        let mut answer = match stage {
            Some(stage) => self.choosing_answer(stage, command, r),
            None => self.good_answer(command, r),
        };
        let faults = self.plan.faults.clone();
        for (place, fault) in &faults {
            let is_here = match stage {
                Some(stage) => self.is_at_stage(*place, stage),
                None => self.is_at(*place, command),
            };
            if is_here {
                (fault.apply)(&mut answer, r);
            }
        }
        let mut bytes = answer.bytes(r);
        bytes.truncate(tape::LONGEST_PAYLOAD);
        bytes
    }

    pub fn host(&self, r: &mut Random) -> Vec<u8> {
        self.plan.host.clone().unwrap_or_else(|| match r.below(4) {
            0 => vec![3, 0, 0],
            1 | 2 => vec![1, r.byte(), r.byte()],
            _ => vec![2, r.byte(), r.byte()],
        })
    }

    pub fn results(&self, count: usize, r: &mut Random) -> Vec<u8> {
        match self.plan.results {
            Some(result) => vec![result; count],
            None => any_results(count, r),
        }
    }
}

/// Plays the session to its end.
pub fn play(plan: &Plan, r: &mut Random) -> Vec<Item> {
    let mut players = Players::new(plan, r);
    let mut session = Session::by(plan.edition);
    let mut items = vec![Item::new(tape::START, players.start.bytes())];
    let mut reply = session.retell(Event::Start(&items[0].payload));
    loop {
        match reply {
            Reply::Command(command) => {
                let answer = players.answer(session.stage(), &command, r);
                reply = session.retell(Event::Answer(&answer));
                items.push(Item::new(tape::COMMAND, command));
                items.push(Item::new(tape::ANSWER, answer));
            }
            Reply::HostDue => {
                let host = players.host(r);
                reply = session.retell(Event::Host(&host));
                items.push(Item::new(tape::HOST, host));
            }
            Reply::ResultsDue(count) => {
                let results = players.results(count, r);
                reply = session.retell(Event::Results(&results));
                items.push(Item::new(tape::RESULTS, results));
            }
            Reply::ChoiceDue(shown) => {
                let choice = [players.choice(shown, r)];
                reply = session.retell(Event::Choice(&choice));
                items.push(Item::new(tape::CHOICE, choice));
            }
            Reply::Decision(decision) => {
                items.push(Item::new(tape::DECISION, decision));
                return items;
            }
            // Planned sessions hand in nothing that is refused.
            Reply::Closed | Reply::Refused(_) => return items,
        }
    }
}
