//! Every kind of block in every state that an end can be in.

use super::any::{any_block, any_control, any_information, any_ready, any_supervisory, spoilt};
use super::exchange::Log;
use crate::random::Random;
use rules::t1::block::{write, Control, Topic};
use rules::t1::{Event, Phase, Role};

/// A state that an end of this role can be in, reached in the shortest way.
fn brought_to(state: usize, r: &mut Random) -> Log {
    if state < 7 {
        terminal_at(state, r)
    } else {
        card_at(state - 7, r)
    }
}

const STATES: usize = 15;

/// What a card asks for.
const WAITING: u8 = 1;
const SIZE: u8 = 0x20;

/// A chained I-block, so that an acknowledgement goes out.
fn part(number: u8, more: bool) -> Event {
    Event::Block(write(Control::I { number, more }, &[0x11]))
}

fn terminal_at(state: usize, r: &mut Random) -> Log {
    let mut log = Log::new(Role::Terminal, 2, 254);
    log.step(Event::Hello);
    if state == 0 {
        return log;
    }
    log.step(Event::Block(vec![0x00, 0xE1, 0x01, 0xFE, 0x1E]));
    let size = if state % 2 == 1 { 2 } else { 7 };
    log.step(Event::Send(r.bytes(size)));
    match state {
        // Waiting, chaining; the same after an R-block; after an S(response).
        1 | 2 => (),
        3 | 4 => drop(log.step(Event::Block(vec![0x00]))),
        5 => drop(log.step(Event::Block(vec![0x00, 0xC3, 0x01, 0x05, 0xC7]))),
        // A chain comes in. The command was the shorter one.
        _ => {
            log = terminal_at(1, r);
            log.step(part(0, true));
        }
    }
    log
}

fn card_at(state: usize, r: &mut Random) -> Log {
    let mut log = Log::new(Role::Card, 254, 2);
    if state == 0 {
        return log;
    }
    let hello = write(Control::S { topic: Topic::Ifs, response: false }, &[0x10]);
    log.step(Event::Block(hello));
    if state == 1 {
        return log;
    }
    log.step(part(0, state == 2));
    match state {
        // A chain comes in; two requests; waiting; chaining.
        2 => (),
        3 => drop(log.step(Event::Ask(Topic::Wtx, WAITING))),
        4 => drop(log.step(Event::Ask(Topic::Ifs, SIZE))),
        5 => drop(log.step(Event::Send(r.bytes(2)))),
        6 => drop(log.step(Event::Send(r.bytes(40)))),
        // A size has been asked for as often as it may be.
        _ => {
            log.step(Event::Ask(Topic::Ifs, SIZE));
            for _ in 0..2 {
                let block = if r.chance(50) { any_ready(r) } else { spoilt(any_ready(r), r) };
                log.step(Event::Block(block));
            }
        }
    }
    log
}

/// The right response to the request that a card has open, and what it does
/// then.
fn grant(log: &mut Log, r: &mut Random) {
    let (topic, value) = if r.chance(80) { (Topic::Ifs, SIZE) } else { (Topic::Wtx, WAITING) };
    log.step(Event::Block(write(Control::S { topic, response: true }, &[value])));
    let size = r.between(1, 40);
    log.step(Event::Send(r.bytes(size)));
}

/// Every kind of block in every state, once or until the limit.
pub fn systematic(index: usize, r: &mut Random) -> Log {
    let mut log = brought_to(index % STATES, r);
    let which = index / STATES;
    let block = match which % 6 {
        0 => any_ready(r),
        1 | 2 => any_supervisory(r),
        3 => any_information(log.end.ifs_in, r),
        4 => any_control(r),
        _ => spoilt(any_ready(r), r),
    };
    for _ in 0..r.between(1, 5) {
        log.step(Event::Block(block.clone()));
        if r.chance(25) {
            log.step(Event::Block(any_block(log.end.ifs_in, r)));
        }
    }
    if log.end.phase == Phase::Ask && r.chance(60) {
        grant(&mut log, r);
    }
    if log.end.role == Role::Terminal && r.chance(10) {
        log.step(Event::Silence);
    }
    log
}
