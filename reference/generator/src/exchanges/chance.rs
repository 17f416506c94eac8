//! Exchanges by chance, with cards of several moods.

use super::made::Made;
use crate::random::Random;
use rules::t0::{Case, Exchange, Step, Wait};

/// How a card behaves that is made by chance.
#[derive(Clone, Copy, PartialEq, Eq)]
enum Mood {
    /// As 000 has it.
    Calm,
    /// Nothing that is refused at once, but in any order.
    Odd,
    /// The same, with '61' wherever it may be.
    Fetching,
    /// Anything.
    Wild,
}

fn any_command(r: &mut Random) -> Vec<u8> {
    let class = *r.pick(&[0x00, 0x80, 0x84, 0x0C, 0xFF]);
    let ins = if r.chance(70) { *r.pick(&[0xA4, 0xB2, 0xA8, 0xAE, 0xC0]) } else { r.byte() };
    let mut command = vec![class, ins, r.byte(), r.byte()];
    let case = r.between(1, 4);
    if case == 2 {
        command.push(*r.pick(&[0, 0, 1, 2, 5, 255]));
    }
    if case > 2 {
        let size = *r.pick(&[1, 2, 3, 8, 127, 128, 255]);
        command.push(size as u8);
        command.extend(r.bytes(size));
    }
    if case == 4 {
        command.push(*r.pick(&[0, 0, 0, 1, 255]));
    }
    if r.chance(2) {
        command.truncate(r.below(command.len() + 1));
    }
    command
}

/// A byte of data, often one that is something else as a procedure byte.
fn any_data(r: &mut Random) -> u8 {
    if r.chance(30) {
        *r.pick(&[0x60, 0x61, 0x6C, 0x90, 0x00, 0xC0, 0x3F, 0x62])
    } else {
        r.byte()
    }
}

/// What a card says where a procedure byte is due. `done` says that nothing
/// more can be moved under the present header, `own` that it is still the
/// command's.
fn any_procedure(
    mood: Mood,
    case: Case,
    ins: u8,
    done: bool,
    own: bool,
    r: &mut Random,
) -> Vec<u8> {
    const STATUSES: [[u8; 2]; 8] = [
        [0x90, 0x00],
        [0x90, 0x00],
        [0x62, 0x83],
        [0x63, 0xC1],
        [0x6A, 0x82],
        [0x90, 0x01],
        [0x9F, 0x10],
        [0x69, 0x85],
    ];
    let length = *r.pick(&[1, 2, 3, 8, 20, 0, 255]);
    let status = r.pick(&STATUSES).to_vec();
    let inward = !own || case == Case::Two;
    match mood {
        Mood::Wild if r.chance(30) => vec![r.byte()],
        Mood::Wild => r.pick(&[vec![0x60], vec![ins], vec![!ins], vec![0x61], vec![0x6C]]).clone(),
        Mood::Calm if done && own && case == Case::Four => vec![0x61, length],
        Mood::Calm if done => status,
        Mood::Calm if own && case == Case::Two && r.chance(50) => vec![0x6C, length],
        Mood::Calm => vec![ins],
        Mood::Fetching if (inward || (done && case == Case::Four)) && r.chance(90) => {
            vec![0x61, length]
        }
        Mood::Odd | Mood::Fetching => match r.below(10) {
            0 => vec![0x60; *r.pick(&[1, 1, 2, 20, 127, 254, 255, 256])],
            1 if inward => vec![0x6C, length],
            2 if inward || (done && case == Case::Four) => vec![0x61, length],
            3 => status,
            4 if done => status,
            5..=7 if !done => vec![!ins],
            _ if !done => vec![ins],
            _ if inward || case == Case::Four => vec![0x61, length],
            _ => status,
        },
    }
}

/// A card that looks at what the layer waits for.
pub fn by_chance(r: &mut Random) -> Made {
    let command = any_command(r);
    let mood = *r.pick(&[Mood::Calm, Mood::Odd, Mood::Odd, Mood::Fetching, Mood::Wild]);
    let mut card = Vec::new();
    let Ok(mut exchange) = Exchange::begin(&command) else {
        return Made { command, card: r.bytes(2) };
    };
    let own = exchange.header();
    let most = *r.pick(&[2, 10, 300, 2000, 2000]);
    while exchange.wait() != Wait::Nothing && card.len() < most {
        let said = match exchange.wait() {
            Wait::Data(_) => vec![any_data(r)],
            Wait::Second(_) => vec![*r.pick(&[0, 1, 2, 5, 0x60, 0x6C, 255])],
            _ => {
                let ins = exchange.header()[1];
                // What the layer would say to one more byte of data.
                let probe = exchange.clone().byte(ins);
                let done = matches!(probe, Step::Refused(_));
                let is_own = exchange.header()[..4] == own[..4];
                any_procedure(mood, exchange.case(), ins, done, is_own, r)
            }
        };
        for byte in said {
            exchange.byte(byte);
            card.push(byte);
        }
    }
    // Something behind the end, or not all of it.
    if r.chance(20) {
        card.extend(r.bytes(3));
    }
    if r.chance(10) {
        card.truncate(r.below(card.len() + 1));
    }
    Made { command, card }
}
