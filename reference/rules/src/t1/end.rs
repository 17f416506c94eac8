//! One end of an exchange by T=1: what each event leads to.

use super::block::{read, write, Block, Control, Topic, NO_ERROR, OTHER_ERROR};
use super::events::{Event, Outcome, Phase, Role};
use super::events::{ABORT, CLOSED, IFSD, LIMIT, NOT_DUE, SILENCE};

/// The block sent last, as far as error handling asks for it.
#[derive(Clone, Debug, PartialEq, Eq)]
enum Last {
    /// Nothing, an I-block or an S(response): an invalid block is answered
    /// with an R-block.
    Other,
    /// An R-block and how often it has gone out in a row.
    R(Vec<u8>, usize),
}

/// An S(request) that is open.
#[derive(Clone, Debug, PartialEq, Eq)]
struct Request {
    topic: Topic,
    value: u8,
    times: usize,
}

impl Request {
    fn block(&self) -> Vec<u8> {
        write(Control::S { topic: self.topic, response: false }, &[self.value])
    }
}

/// An I-block that is not acknowledged, and how often it has gone out.
#[derive(Clone, Debug, Default, PartialEq, Eq)]
struct Unacknowledged {
    block: Vec<u8>,
    times: usize,
}

/// One end of the exchange.
#[derive(Clone, Debug, PartialEq, Eq)]
pub struct End {
    pub role: Role,
    pub phase: Phase,
    /// The number of the next I-block to send, and of the next one expected.
    pub ns: u8,
    pub nr: u8,
    /// The information field sizes of the other end and of this one.
    pub ifs_out: usize,
    pub ifs_in: usize,
    last: Last,
    request: Option<Request>,
    out: Unacknowledged,
    /// What of the message has not been sent, and what has come in of one.
    unsent: Vec<u8>,
    incoming: Vec<u8>,
}

impl End {
    pub fn new(role: Role, ifs_out: usize, ifs_in: usize) -> End {
        End {
            role,
            phase: if role == Role::Terminal { Phase::Start } else { Phase::Listen },
            ns: 0,
            nr: 0,
            ifs_out,
            ifs_in,
            last: Last::Other,
            request: None,
            out: Unacknowledged::default(),
            unsent: Vec::new(),
            incoming: Vec::new(),
        }
    }

    /// One event on.
    pub fn step(mut self, event: &Event) -> (End, Outcome) {
        let outcome = match (self.phase, event) {
            (Phase::Over, _) => Outcome::refused(CLOSED),
            (Phase::Start, Event::Hello) => self.request(Topic::Ifs, IFSD, Phase::Hello),
            (Phase::Busy, &Event::Ask(topic @ (Topic::Ifs | Topic::Wtx), value)) => {
                self.request(topic, value, Phase::Ask)
            }
            (Phase::Idle | Phase::Busy, Event::Send(message)) if !message.is_empty() => {
                self.unsent = message.clone();
                self.send_next()
            }
            (_, Event::Block(bytes)) if self.awaits_block() => self.receive(bytes),
            (_, Event::Silence) if self.awaits_block() => self.over(SILENCE),
            _ => Outcome::refused(NOT_DUE),
        };
        (self, outcome)
    }

    /// How much has come in of a message that is not complete.
    pub fn incoming_size(&self) -> usize {
        self.incoming.len()
    }

    pub fn awaits_block(&self) -> bool {
        !matches!(self.phase, Phase::Start | Phase::Idle | Phase::Busy | Phase::Over)
    }

    /// How often this end sends one block (000, I-5.2.5.1): the card sends an
    /// S(IFS request) once more than its others.
    fn most_times(&self, topic: Option<Topic>) -> usize {
        match (self.role, topic) {
            (Role::Card, Some(Topic::Ifs)) => 3,
            (Role::Card, _) => 2,
            (Role::Terminal, _) => 3,
        }
    }

    fn over(&mut self, end: &'static str) -> Outcome {
        self.phase = Phase::Over;
        Outcome { end: Some(end), ..Outcome::default() }
    }

    fn request(&mut self, topic: Topic, value: u8, phase: Phase) -> Outcome {
        let request = Request { topic, value, times: 1 };
        let block = request.block();
        self.request = Some(request);
        self.phase = phase;
        Outcome::sends(block)
    }

    /// The next block of the message, as long as the other end takes it now.
    fn send_next(&mut self) -> Outcome {
        let size = self.unsent.len().min(self.ifs_out);
        let rest = self.unsent.split_off(size);
        let inf = std::mem::replace(&mut self.unsent, rest);
        let more = !self.unsent.is_empty();
        let block = write(Control::I { number: self.ns, more }, &inf);
        self.out = Unacknowledged { block: block.clone(), times: 1 };
        self.ns ^= 1;
        self.phase = if more { Phase::Send } else { Phase::Wait };
        self.last = Last::Other;
        Outcome::sends(block)
    }

    /// The I-block that is not acknowledged once more, as it was.
    fn send_again(&mut self) -> Outcome {
        if self.out.times >= self.most_times(None) {
            return self.over(LIMIT);
        }
        self.out.times += 1;
        self.last = Last::Other;
        Outcome::sends(self.out.block.clone())
    }

    fn receive(&mut self, bytes: &[u8]) -> Outcome {
        match read(bytes, self.ifs_in) {
            Ok(block) => match self.allowed(block) {
                Some(outcome) => outcome,
                None => self.invalid(OTHER_ERROR),
            },
            Err(invalid) => self.invalid(invalid.code),
        }
    }

    /// An invalid block, or a valid one that has no place here.
    fn invalid(&mut self, code: u8) -> Outcome {
        if let Some(request) = self.request.take() {
            return self.ask_again(request);
        }
        let (block, times) = match &self.last {
            Last::R(block, times) => (block.clone(), times + 1),
            Last::Other => (write(Control::R { number: self.nr, error: code }, &[]), 1),
        };
        if times > self.most_times(None) {
            return self.over(LIMIT);
        }
        self.last = Last::R(block.clone(), times);
        Outcome::sends(block)
    }

    /// Our own S(request) once more. A card that has asked for a size as often
    /// as it may is not over but "shall remain in receive mode" (000,
    /// I-5.2.5.1): it sends nothing, and its request stays open.
    fn ask_again(&mut self, mut request: Request) -> Outcome {
        let (topic, block) = (request.topic, request.block());
        let may_send = request.times < self.most_times(Some(topic));
        request.times += usize::from(may_send);
        // It stays open, whatever comes of it.
        self.request = Some(request);
        match (may_send, self.role, topic) {
            (true, ..) => Outcome::sends(block),
            (false, Role::Card, Topic::Ifs) => Outcome::default(),
            (false, ..) => self.over(LIMIT),
        }
    }

    /// What a valid block leads to, or nothing where the state does not allow
    /// it.
    fn allowed(&mut self, block: Block) -> Option<Outcome> {
        match block.control {
            Control::S { topic: Topic::Abort, response: false } if self.role == Role::Terminal => {
                Some(self.over(ABORT))
            }
            Control::S { topic, response } if self.request.is_some() => {
                (response && self.is_answered_by(topic, block.inf)).then(|| self.granted())
            }
            _ if self.request.is_some() => None,
            Control::S { topic, response: false } => self.requested(topic, block),
            Control::S { response: true, .. } => None,
            Control::R { number, .. } => self.acknowledged(number),
            Control::I { number, more } => self.taken(number, more, block),
        }
    }

    fn is_answered_by(&self, topic: Topic, inf: &[u8]) -> bool {
        self.request.as_ref().is_some_and(|open| open.topic == topic && inf == [open.value])
    }

    /// Our own S(request) has its response.
    fn granted(&mut self) -> Outcome {
        if let Some(request) = self.request.take() {
            if self.role == Role::Card && request.topic == Topic::Ifs {
                self.ifs_in = usize::from(request.value);
            }
        }
        self.phase = if self.role == Role::Terminal { Phase::Idle } else { Phase::Busy };
        Outcome::default()
    }

    /// An S(request) of the other end. Only a card asks for more time.
    fn requested(&mut self, topic: Topic, block: Block) -> Option<Outcome> {
        match (topic, block.inf) {
            (Topic::Ifs, &[size @ 0x10..=0xFE]) => self.ifs_out = usize::from(size),
            (Topic::Wtx, _) if self.role == Role::Terminal => (),
            _ => return None,
        }
        self.last = Last::Other;
        let response = write(Control::S { topic, response: true }, block.inf);
        Some(Outcome { inf: Some(block.inf_place()), ..Outcome::sends(response) })
    }

    /// An R-block: only its number tells. It acknowledges a block of a chain,
    /// or asks for the block that is out once more.
    fn acknowledged(&mut self, number: u8) -> Option<Outcome> {
        match self.phase {
            Phase::Send if number == self.ns => Some(self.send_next()),
            Phase::Send | Phase::Wait if number != self.ns => Some(self.send_again()),
            _ => None,
        }
    }

    /// An I-block, which must have the number expected.
    fn taken(&mut self, number: u8, more: bool, block: Block) -> Option<Outcome> {
        let is_due = matches!(self.phase, Phase::Listen | Phase::Wait | Phase::Recv);
        if !is_due || number != self.nr {
            return None;
        }
        self.nr ^= 1;
        self.incoming.extend_from_slice(block.inf);
        let inf = Some(block.inf_place());
        if more {
            let ready = write(Control::R { number: self.nr, error: NO_ERROR }, &[]);
            self.last = Last::R(ready.clone(), 1);
            self.phase = Phase::Recv;
            return Some(Outcome { inf, ..Outcome::sends(ready) });
        }
        self.last = Last::Other;
        self.phase = if self.role == Role::Terminal { Phase::Idle } else { Phase::Busy };
        let message = Some(std::mem::take(&mut self.incoming));
        Some(Outcome { inf, message, ..Outcome::default() })
    }
}
