//! Bits and requests (01, "From facts to a decision").

use crate::known::{Known, DEFAULT, DENIAL, EFFECTIVE, EXPIRY, ONLINE, VERSION};
use crate::start::{day, number};

/// Terminal types.
pub const OFFLINE_ONLY: u8 = 0;
const ONLINE_ONLY: u8 = 1;
const BOTH: u8 = 2;

#[derive(Clone, Copy, Debug, PartialEq, Eq)]
pub enum Cryptogram {
    Aac,
    Tc,
    Arqc,
}

impl Cryptogram {
    /// P1 of GENERATE AC.
    pub fn parameter(self) -> u8 {
        match self {
            Cryptogram::Aac => 0x00,
            Cryptogram::Tc => 0x40,
            Cryptogram::Arqc => 0x80,
        }
    }

    pub fn answered(information: u8) -> Option<Cryptogram> {
        match information >> 6 {
            0 => Some(Cryptogram::Aac),
            1 => Some(Cryptogram::Tc),
            2 => Some(Cryptogram::Arqc),
            _ => None,
        }
    }

    /// Whether the first request allows the answer.
    pub fn allows(self, answer: Cryptogram) -> bool {
        match self {
            Cryptogram::Tc => true,
            Cryptogram::Arqc => answer != Cryptogram::Tc,
            Cryptogram::Aac => answer == Cryptogram::Aac,
        }
    }
}

/// The issuer's reply: approve, decline, or out of reach.
#[derive(Clone, Copy, Debug, PartialEq, Eq)]
pub enum Host {
    Approve([u8; 2]),
    Decline([u8; 2]),
    Unable,
}

impl Host {
    pub fn read(payload: &[u8]) -> Option<Host> {
        match *payload {
            [1, a, b] => Some(Host::Approve([a, b])),
            [2, a, b] => Some(Host::Decline([a, b])),
            [3, 0, 0] => Some(Host::Unable),
            _ => None,
        }
    }
}

/// The bits that follow from the card's data.
pub fn set_facts(known: &mut Known, profile: [u8; 2]) {
    let b = known.start.bytes;
    let today = day(&b[17..20]);
    known.tvr[0] |= 0x80;
    if known.values[VERSION].is_some_and(|version| *version != b[40..42]) {
        known.tvr[1] |= 0x80;
    }
    if known.values[EXPIRY].is_some_and(|date| day(date) < today) {
        known.tvr[1] |= 0x40;
    }
    if known.values[EFFECTIVE].is_some_and(|date| day(date) > today) {
        known.tvr[1] |= 0x20;
    }
    if profile[0] & 0x08 != 0 {
        // Digits are in order as bytes are.
        if b[1..7] >= b[25..31] {
            known.tvr[3] |= 0x80;
        } else if b[0] == BOTH && is_selected(b) {
            known.tvr[3] |= 0x10;
        }
        known.tsi[0] |= 0x08;
    }
}

/// Random selection below the floor limit (003, 7.6.2).
fn is_selected(b: &[u8; 74]) -> bool {
    let [random, target, maximum] = [b[31], b[32], b[39]].map(i64::from);
    let [amount, floor, threshold] = [&b[1..7], &b[25..31], &b[33..39]].map(number);
    if amount < threshold {
        random <= target
    } else {
        (random - target) * (floor - threshold) <= (maximum - target) * (amount - threshold)
    }
}

/// A bit that is set in the TVR and in either code.
fn matches(known: &Known, own: usize, issuer: usize, absent: u8) -> bool {
    let own = &known.start.bytes[own..own + 5];
    let issuer = known.values[issuer].and_then(|code| code.first_chunk().copied());
    let issuer: [u8; 5] = issuer.unwrap_or([absent; 5]);
    (0..5).fold(0, |bits, at| bits | (own[at] | issuer[at]) & known.tvr[at]) != 0
}

pub fn first_request(known: &Known) -> Cryptogram {
    let kind = known.start.bytes[0];
    if matches(known, 42, DENIAL, 0x00) {
        Cryptogram::Aac
    } else if kind == ONLINE_ONLY || (kind == BOTH && matches(known, 47, ONLINE, 0xFF)) {
        Cryptogram::Arqc
    } else if kind == OFFLINE_ONLY && matches(known, 52, DEFAULT, 0xFF) {
        Cryptogram::Aac
    } else {
        Cryptogram::Tc
    }
}

/// The second request and the response code (8A).
pub fn second_request(known: &Known, host: Host) -> (Cryptogram, [u8; 2]) {
    match host {
        Host::Approve(code) => (Cryptogram::Tc, code),
        Host::Decline(code) => (Cryptogram::Aac, code),
        Host::Unable
            if known.start.bytes[0] == ONLINE_ONLY || matches(known, 52, DEFAULT, 0xFF) =>
        {
            (Cryptogram::Aac, *b"Z3")
        }
        Host::Unable => (Cryptogram::Tc, *b"Y3"),
    }
}
