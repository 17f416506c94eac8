//! Two ends that talk over a line which spoils, replaces and adds blocks.

use super::any::{any_block, any_message, spoilt, SIZES};
use crate::random::Random;
use lines::t1::{event_text, role_name, state_text};
use rules::t1::block::Topic;
use rules::t1::{End, Event, Outcome, Phase, Role};

/// The end that is looked at, with all that has happened to it.
pub struct Log {
    pub end: End,
    /// The sizes at the beginning.
    sizes: (usize, usize),
    events: Vec<String>,
    pub states: Vec<String>,
    /// The most that has come in of one message.
    pub longest: usize,
}

impl Log {
    pub fn new(role: Role, ifs_out: usize, ifs_in: usize) -> Log {
        let end = End::new(role, ifs_out, ifs_in);
        let sizes = (ifs_out, ifs_in);
        Log { end, sizes, events: Vec::new(), states: Vec::new(), longest: 0 }
    }

    pub fn step(&mut self, event: Event) -> Outcome {
        let (end, outcome) = self.end.clone().step(&event);
        self.events.push(event_text(&event));
        self.states.push(state_text(&end, &outcome));
        let whole = outcome.message.as_ref().map_or(0, Vec::len);
        self.longest = self.longest.max(whole).max(end.incoming_size());
        self.end = end;
        outcome
    }

    pub fn line(&self) -> String {
        format!(
            "{{\"kind\": \"t1.session\", \"role\": \"{}\", \"ifs_out\": {}, \"ifs_in\": {}, \"events\": [{}], \"expect\": [{}]}}",
            role_name(self.end.role),
            self.sizes.0,
            self.sizes.1,
            self.events.join(", "),
            self.states.join(", ")
        )
    }
}

/// The other end, which keeps to the rules as long as it can.
struct Peer {
    end: End,
}

impl Peer {
    /// The block it answers with, if it has one.
    fn answer(&mut self, block: Vec<u8>, r: &mut Random) -> Option<Vec<u8>> {
        let outcome = self.step(Event::Block(block));
        let asks = self.end.phase == Phase::Busy && r.chance(15);
        match self.end.phase {
            Phase::Busy if asks => {
                let (topic, value) = *r.pick(&[
                    (Topic::Wtx, 1),
                    (Topic::Wtx, 255),
                    (Topic::Ifs, 16),
                    (Topic::Ifs, 64),
                ]);
                self.step(Event::Ask(topic, value)).send
            }
            Phase::Busy | Phase::Idle => self.step(Event::Send(any_message(r))).send,
            _ => outcome.send,
        }
    }

    fn step(&mut self, event: Event) -> Outcome {
        let (end, outcome) = self.end.clone().step(&event);
        self.end = end;
        outcome
    }
}

/// How an exchange goes: how many of a hundred blocks are spoilt or replaced,
/// and how many events there are at most.
#[derive(Clone, Copy)]
pub struct Manner {
    pub faults: usize,
    pub events: usize,
}

/// The terminal with a card that answers.
pub fn terminal_session(manner: Manner, r: &mut Random) -> Log {
    let ifs = *r.pick(&SIZES);
    let mut log = Log::new(Role::Terminal, ifs, 254);
    let peer = Peer { end: End::new(Role::Card, 254, ifs) };
    let first = log.step(Event::Hello).send;
    exchange(&mut log, peer, first, manner, r);
    log
}

/// The card with a terminal that commands.
pub fn card_session(manner: Manner, r: &mut Random) -> Log {
    let ifs = *r.pick(&SIZES);
    let mut log = Log::new(Role::Card, 254, ifs);
    let mut peer = Peer { end: End::new(Role::Terminal, ifs, 254) };
    let hello = peer.step(Event::Hello).send.unwrap_or_default();
    let first = log.step(Event::Block(hello)).send;
    exchange(&mut log, peer, first, manner, r);
    log
}

/// Lets the two ends talk, with faults both ways, until the events are used up.
fn exchange(log: &mut Log, mut peer: Peer, first: Option<Vec<u8>>, manner: Manner, r: &mut Random) {
    let mut out = first;
    while log.events.len() < manner.events {
        let outcome = match log.end.phase {
            Phase::Over => {
                log.step(late_event(r));
                return;
            }
            Phase::Idle if r.chance(10) => log.step(late_event(r)),
            Phase::Busy if r.chance(20) => {
                let value = *r.pick(&[0x10, 0x20, 0x40, 0xFE]);
                log.step(Event::Ask(*r.pick(&[Topic::Ifs, Topic::Wtx]), value))
            }
            Phase::Idle | Phase::Busy => log.step(Event::Send(any_message(r))),
            _ if log.end.role == Role::Terminal && r.chance(1) => log.step(Event::Silence),
            _ => {
                let block = incoming(log, &mut peer, out.take(), manner.faults, r);
                log.step(Event::Block(block))
            }
        };
        out = outcome.send.or(out);
    }
}

/// The block that comes in next: the peer's, spoilt, or another one.
fn incoming(
    log: &Log,
    peer: &mut Peer,
    sent: Option<Vec<u8>>,
    faults: usize,
    r: &mut Random,
) -> Vec<u8> {
    let most = log.end.ifs_in;
    let sent = match sent {
        Some(block) if r.chance(faults / 2) => Some(spoilt(block, r)),
        other => other,
    };
    let block = sent.and_then(|block| peer.answer(block, r));
    match block {
        Some(block) if r.chance(faults) => {
            if r.chance(50) {
                spoilt(block, r)
            } else {
                any_block(most, r)
            }
        }
        Some(block) => block,
        // The peer has nothing to say: anything may come.
        None => any_block(most, r),
    }
}

/// An event that is mostly not due.
pub fn late_event(r: &mut Random) -> Event {
    match r.below(4) {
        0 => Event::Hello,
        1 => Event::Silence,
        2 => Event::Send(any_message(r)),
        _ => Event::Block(any_block(254, r)),
    }
}
