//! Call sequences: sessions with refused calls between, and calls in any
//! order.

use crate::random::Random;
use crate::scenarios::{by_chance, choosing_by_chance};
use crate::sessions::applications::Applications;
use crate::sessions::plan::{Place, Plan, Players};
use crate::sessions::start::{Start, NO_DAYS};
use crate::sessions::verification::{any_results, bad_results};
use lines::calls::{session_line, Call, Made, ANSWER, CHOICE, HOST, RESULTS, SILENCE, START};
use rules::edition::Edition;
use rules::kernel::{Reply, Session};

/// A room that is large enough.
fn room(r: &mut Random) -> usize {
    *r.pick(&[261, 261, 262, 300, 512, 4096])
}

fn small_room(r: &mut Random) -> usize {
    *r.pick(&[0, 1, 5, 100, 258, 259, 260, 260])
}

/// A START that is good, or just about not. That of the former size is not
/// good here (02, R-7).
fn any_start(r: &mut Random) -> Vec<u8> {
    let mut bytes = Start::any(r).bytes();
    match r.below(13) {
        0 => bytes.clear(),
        1 => bytes.truncate(*r.pick(&[73, 75, 76])),
        2 => bytes.push(0),
        8 => bytes.truncate(74),
        9 => bytes.resize(*r.pick(&[76, 77, 78]), 0),
        3 => bytes[0] = 3,
        4 => bytes[31] = *r.pick(&[0, 100]),
        5 => bytes[18] = 0x13,
        6 => bytes[17..20].copy_from_slice(&r.pick::<[u8; 3]>(&NO_DAYS)[..]),
        7 => bytes[19] = *r.pick(&[0x28, 0x29, 0x30, 0x31]),
        _ => (),
    }
    bytes
}

/// The same with a list of applications; all former sizes are not good (02,
///
fn any_listed_start(r: &mut Random) -> Vec<u8> {
    let mut start = Start::any(r);
    start.applications = Some(Applications::any(r));
    let mut bytes = start.bytes();
    match r.below(16) {
        0 => bytes.truncate(*r.pick(&[0, 74, 77, 206])),
        1 => bytes.push(0),
        2 => return any_start(r),
        3 => bytes[0] = 3,
        4 => bytes[57] = *r.pick(&[0, 9, 255]),
        5 => bytes[58] = *r.pick(&[0, 4, 17]),
        6 => bytes[75] = 2,
        7 => bytes[205] = *r.pick(&[0, 1, 2]),
        8 => bytes[206] = *r.pick(&[0, 2]),
        9 => bytes[r.between(184, 201)] ^= 1,
        10 => bytes[17..20].copy_from_slice(&r.pick::<[u8; 3]>(&NO_DAYS)[..]),
        _ => (),
    }
    bytes
}

fn any_answer(r: &mut Random) -> Vec<u8> {
    let size = *r.pick(&[0, 1, 2, 20, 258, 259, 495, 496, 497, 498, 600, 4000]);
    let mut bytes = vec![0; size];
    if let Some(at) = size.checked_sub(2) {
        bytes[at] = 0x90;
    }
    bytes
}

fn any_host(r: &mut Random) -> Vec<u8> {
    let hosts: [&[u8]; 10] = [
        &[1, 0x30, 0x30],
        &[2, 0x35, 0x31],
        &[3, 0, 0],
        &[3, 0, 1],
        &[3, 1, 0],
        &[0, 0, 0],
        &[4, 0, 0],
        &[1, 0],
        &[1, 0, 0, 0],
        &[],
    ];
    r.pick(&hosts).to_vec()
}

/// Results for as many rules as are due, mostly not good, or for any number.
fn results_near(due: Option<usize>, r: &mut Random) -> Vec<u8> {
    let count = due.unwrap_or(*r.pick(&[0, 1, 2, 3, 12]));
    match r.below(5) {
        0 => any_results(count, r),
        1 => {
            let size = *r.pick(&[121, 496, 497, 600]);
            any_results(size, r)
        }
        _ => bad_results(count, r),
    }
}

/// A place, shown or not, or any other payload.
fn choice_near(shown: Option<usize>, r: &mut Random) -> Vec<u8> {
    let shown = shown.unwrap_or(1) as u8;
    let payloads: [&[u8]; 9] = [
        &[],
        &[0],
        &[0, 0],
        &[0xFF],
        &[0xFF, 0xFF],
        &[shown],
        &[shown.wrapping_add(1)],
        &[0xFE],
        &[0; 497],
    ];
    r.pick(&payloads).to_vec()
}

/// What a call is made near to: so many results or a choice among so many.
#[derive(Clone, Copy, Debug, PartialEq, Eq)]
enum Near {
    Neither,
    Results(usize),
    Choice(usize),
}

/// Any call at all.
fn any_call(edition: Edition, near: Near, r: &mut Random) -> Call {
    let (results, shown) = match near {
        Near::Neither => (None, None),
        Near::Results(count) => (Some(count), None),
        Near::Choice(shown) => (None, Some(shown)),
    };
    let is_choosing = edition == Edition::Choosing;
    let aimed = near != Near::Neither && r.chance(40);
    let event = match near {
        Near::Results(_) if aimed => 4,
        Near::Choice(_) if aimed => 5,
        _ => r.below(if is_choosing { 6 } else { 5 }),
    };
    let (event, payload) = match event {
        0 if is_choosing => (START, any_listed_start(r)),
        0 => (START, any_start(r)),
        1 => (ANSWER, any_answer(r)),
        2 => (SILENCE, Vec::new()),
        3 => (HOST, any_host(r)),
        4 => (RESULTS, results_near(results, r)),
        _ => (CHOICE, choice_near(shown, r)),
    };
    let room = if r.chance(15) { small_room(r) } else { room(r) };
    Call { event, payload, room }
}

fn is_refused(reply: &Reply) -> bool {
    matches!(reply, Reply::Refused(_))
}

/// The calls of one session with their replies.
struct Log {
    session: Session,
    calls: Vec<Made>,
}

impl Log {
    fn make(&mut self, call: Call) -> Reply {
        let made = Made::new(call, &mut self.session);
        let reply = made.reply.clone();
        self.calls.push(made);
        reply
    }

    /// Some calls that are turned away; those that would not be are not made.
    fn disturb(&mut self, r: &mut Random) {
        let last = self.calls.iter().rfind(|made| !is_refused(&made.reply));
        let near = match last.map(|made| &made.reply) {
            Some(Reply::ResultsDue(count)) => Near::Results(*count),
            Some(Reply::ChoiceDue(shown)) => Near::Choice(*shown),
            _ => Near::Neither,
        };
        for _ in 0..*r.pick(&[0, 1, 2, 4, 6]) {
            let call = any_call(self.session.edition(), near, r);
            if is_refused(&call.make(&mut self.session.clone())) {
                self.make(call);
            }
        }
    }
}

/// A plan of a session that is called; most should get further than their
/// first answers.
fn called_plan(edition: Edition, r: &mut Random) -> Plan {
    let mut plan = match edition {
        Edition::Landed => by_chance(r).plan,
        Edition::Choosing => choosing_by_chance(r).plan,
    };
    plan.called = true;
    if r.chance(60) {
        plan.faults.retain(|(place, _)| *place == Place::SecondCryptogram);
    }
    if r.chance(40) {
        plan.first = Some(2);
    }
    plan
}

/// A planned session, disturbed before every call and after the end.
fn disturbed(edition: Edition, r: &mut Random) -> Vec<Made> {
    let mut players = Players::new(&called_plan(edition, r), r);
    let mut log = Log { session: Session::by(edition), calls: Vec::new() };
    log.disturb(r);
    let mut reply = log.make(Call { event: START, payload: players.start.bytes(), room: room(r) });
    loop {
        log.disturb(r);
        let (event, payload) = match reply {
            Reply::Command(_) if r.chance(3) => (SILENCE, Vec::new()),
            Reply::Command(command) => (ANSWER, players.answer(log.session.stage(), &command, r)),
            Reply::HostDue => (HOST, players.host(r)),
            Reply::ResultsDue(count) => (RESULTS, players.results(count, r)),
            Reply::ChoiceDue(shown) => (CHOICE, vec![players.choice(shown, r)]),
            _ => return log.calls,
        };
        reply = log.make(Call { event, payload, room: room(r) });
    }
}

/// Calls without any plan.
fn in_any_order(edition: Edition, r: &mut Random) -> Vec<Made> {
    let mut log = Log { session: Session::by(edition), calls: Vec::new() };
    for _ in 0..r.between(1, 12) {
        log.make(any_call(edition, Near::Neither, r));
    }
    log.calls
}

/// Prints `count` sessions, one a line.
pub fn make_calls(edition: Edition, count: usize, seed: u64) {
    for index in 0..count {
        let mut r = Random::nth(seed, index as u64);
        let made = if index % 5 == 4 { in_any_order } else { disturbed };
        let calls = made(edition, &mut r);
        println!("{}", session_line(index + 1, &calls));
    }
}

#[cfg(test)]
mod tests {
    use super::*;

    #[test]
    fn every_refusal_and_reply_occurs() {
        let mut refusals = [0; 13];
        let mut others = [0; 5];
        for index in 0..400 {
            for made in disturbed(Edition::default(), &mut Random::nth(5, index)) {
                match made.reply {
                    Reply::Refused(number) => refusals[usize::from(number)] += 1,
                    Reply::Command(_) => others[0] += 1,
                    Reply::HostDue => others[1] += 1,
                    Reply::Decision(_) => others[2] += 1,
                    Reply::Closed => others[3] += 1,
                    Reply::ResultsDue(_) => others[4] += 1,
                    Reply::ChoiceDue(_) => panic!("no choice before R-12"),
                }
            }
        }
        assert!(refusals[1..=6].iter().all(|&n| n > 10), "{refusals:?}");
        assert!(refusals[12] > 50, "{refusals:?}");
        assert!(others.iter().all(|&n| n > 10), "{others:?}");
    }

    /// 02, R-12.
    #[test]
    fn choices_and_their_refusals_occur() {
        let (mut choices, mut refusals) = (0, [0; 14]);
        for index in 0..200 {
            for made in disturbed(Edition::Choosing, &mut Random::nth(5, index)) {
                match made.reply {
                    Reply::Refused(number) => refusals[usize::from(number)] += 1,
                    Reply::ChoiceDue(_) => choices += 1,
                    _ => (),
                }
            }
        }
        assert!(refusals[13] > 50 && choices > 50, "{choices} {refusals:?}");
        assert!(refusals[1..=6].iter().all(|&n| n > 0), "{refusals:?}");
    }
}
