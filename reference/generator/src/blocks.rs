//! Blocks, messages to be cut and exchanges by T=1, faults among them (02,
//!

mod any;
mod exchange;
mod states;

use crate::random::Random;
use any::{any_block, spoilt, SIZES};
use exchange::{card_session, late_event, terminal_session, Log, Manner};
use lines::t1::{block_text, lower, role_name};
use rules::t1::block::cut;
use rules::t1::{Event, Role};
use rules::tape::LONGEST_PAYLOAD;
use states::systematic;

/// A block by itself.
fn block_line(r: &mut Random) -> String {
    let ifs = *r.pick(&SIZES);
    let mut block = any_block(ifs, r);
    match r.below(10) {
        0..=2 => block = spoilt(block, r),
        // One byte more than there can be, with a good LRC.
        3 if r.chance(30) => {
            block = [&[r.byte() & 0x21, 0x00, 0xFF][..], &r.bytes(255)].concat();
            block.push(block.iter().fold(0, |sum, byte| sum ^ byte));
        }
        _ => (),
    }
    let role = role_name(*r.pick(&[Role::Terminal, Role::Card]));
    format!(
        "{{\"kind\": \"t1.block\", \"block\": \"{}\", \"ifs\": {ifs}, \"role\": \"{role}\", \"expect\": {}}}",
        lower(&block),
        block_text(&block, ifs)
    )
}

/// A message cut into chained blocks.
fn cut_line(r: &mut Random) -> String {
    let ifs = if r.chance(50) { r.between(1, 254) } else { *r.pick(&SIZES) };
    let number = r.below(2) as u8;
    let near = *r.pick(&[ifs - 1, ifs, ifs + 1, 2 * ifs, 2 * ifs + 1, 261]);
    let size = if r.chance(60) { near.clamp(1, 261) } else { r.between(1, 261) };
    let message = r.bytes(size);
    let blocks: Vec<String> =
        cut(&message, ifs, number).iter().map(|block| format!("\"{}\"", lower(block))).collect();
    format!(
        "{{\"kind\": \"t1.cut\", \"message\": \"{}\", \"ifs\": {ifs}, \"number\": {number}, \"expect\": [{}]}}",
        lower(&message),
        blocks.join(", ")
    )
}

/// Events before the first one that is due.
fn too_early(r: &mut Random) -> Log {
    let mut log = Log::new(Role::Terminal, 32, 254);
    for _ in 0..r.between(1, 4) {
        log.step(match late_event(r) {
            Event::Hello => Event::Silence,
            other => other,
        });
    }
    log.step(Event::Hello);
    log.step(late_event(r));
    log
}

/// A session without a message longer than a session of the kernel takes whole.
fn session(index: usize, r: &mut Random) -> Log {
    loop {
        let log = any_session(index, r);
        if log.longest <= LONGEST_PAYLOAD {
            return log;
        }
    }
}

fn any_session(index: usize, r: &mut Random) -> Log {
    let manner = Manner { faults: *r.pick(&[0, 5, 15, 40]), events: *r.pick(&[8, 14, 24]) };
    match index % 10 {
        0..=3 => systematic(index / 10 * 4 + index % 10, r),
        4..=6 => terminal_session(manner, r),
        7 | 8 => card_session(manner, r),
        _ if index % 40 == 9 => too_early(r),
        _ => terminal_session(Manner { faults: 60, events: 30 }, r),
    }
}

/// Prints `count` vectors, one a line: a block, a message cut, two sessions,
/// and so on.
pub fn make_blocks(count: usize, seed: u64) {
    for index in 0..count {
        let mut r = Random::nth(seed, index as u64);
        let line = match index % 4 {
            0 => block_line(&mut r),
            1 => cut_line(&mut r),
            other => session(index / 4 * 2 + other - 2, &mut r).line(),
        };
        println!("{line}");
    }
}

#[cfg(test)]
mod tests {
    use super::*;
    use std::collections::BTreeSet;

    /// Sessions reach every phase and every end of both roles.
    #[test]
    fn every_phase_and_every_end() {
        let mut seen = BTreeSet::new();
        for index in 0..2000 {
            let log = session(index, &mut Random::nth(2, index as u64));
            let role = role_name(log.end.role);
            for state in &log.states {
                let value = lines::json::parse(state).expect("a state that can be read");
                for name in ["phase", "end", "refusal"] {
                    if let Some(word) = value.get(name).and_then(|word| word.text()) {
                        seen.insert(format!("{role} {word}"));
                    }
                }
            }
        }
        let terminal = ["START", "HELLO", "IDLE", "SEND", "WAIT", "RECV", "OVER"];
        let card = ["LISTEN", "BUSY", "ASK", "SEND", "WAIT", "RECV", "OVER"];
        let ends = ["LIMIT", "NOT-DUE", "CLOSED"];
        let wanted = terminal.iter().chain(&ends).chain(&["ABORT", "SILENCE"]);
        for word in wanted {
            assert!(seen.contains(&format!("terminal {word}")), "terminal {word}");
        }
        for word in card.iter().chain(&ends) {
            assert!(seen.contains(&format!("card {word}")), "card {word}");
        }
    }

    /// A card asks for a size three times, says nothing to what comes then,
    /// and goes on where the right response comes and only there.
    #[test]
    fn sizes_asked_for_three_times() {
        let (mut silent, mut went_on) = (0, 0);
        for index in 0..2000 {
            let log = session(index, &mut Random::nth(2, index as u64));
            let states: Vec<_> = log
                .states
                .iter()
                .map(|state| lines::json::parse(state).expect("a state"))
                .collect();
            let phase = |at: usize| states[at].get("phase").and_then(|word| word.text());
            let says_nothing = |at: &usize| {
                let sends =
                    states[*at].get("send").is_some() || states[*at].get("refusal").is_some();
                phase(at - 1) == Some("ASK") && phase(*at) == Some("ASK") && !sends
            };
            let all: Vec<usize> = (1..states.len()).filter(says_nothing).collect();
            silent += usize::from(!all.is_empty());
            let last = all.last().copied().unwrap_or(states.len());
            went_on += usize::from(last + 1 < states.len() && phase(last + 1) == Some("BUSY"));
        }
        assert!(silent > 40 && went_on > 15, "{silent} {went_on}");
    }
}
