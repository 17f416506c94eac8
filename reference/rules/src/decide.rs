//! Verification bits, requests and answers (01, "From facts to a decision";
//! 02, R-2; 003, 7.4, 7.6, 7.7 and Annex A).

use crate::terminal::{day_number, Kind, Terminal};

pub type Tvr = [u8; 5];
pub type Tsi = [u8; 2];

/// TVR bits that can be set here: byte index and bit (003, Table A-6).
const NO_DATA_AUTHENTICATION: (usize, u8) = (0, 0x80);
const VERSIONS_DIFFER: (usize, u8) = (1, 0x80);
const EXPIRED: (usize, u8) = (1, 0x40);
const NOT_YET_EFFECTIVE: (usize, u8) = (1, 0x20);
const OVER_FLOOR: (usize, u8) = (3, 0x80);
const SELECTED: (usize, u8) = (3, 0x10);

/// TSI byte 1 (003, Table A-7).
pub const VERIFICATION_DONE: u8 = 0x40;
pub const CARD_RISK_DONE: u8 = 0x20;
pub const TERMINAL_RISK_DONE: u8 = 0x08;

/// AIP byte 1: the card wants terminal risk management.
const RISK_WANTED: u8 = 0x08;
/// AIP byte 1: the card supports cardholder verification (02, R-7).
pub const VERIFICATION_SUPPORTED: u8 = 0x10;

/// What is known of the card after its last record.
pub struct Facts<'a> {
    pub aip: [u8; 2],
    /// 5F24, valid.
    pub expiry: &'a [u8],
    /// 5F25, valid if present.
    pub effective: Option<&'a [u8]>,
    /// 9F08.
    pub version: Option<&'a [u8]>,
}

/// The issuer's action codes as read from the card.
#[derive(Clone, Copy, Default)]
pub struct IssuerCodes<'a> {
    pub denial: Option<&'a [u8]>,
    pub online: Option<&'a [u8]>,
    pub default: Option<&'a [u8]>,
}

/// The three cryptograms a card can be asked for.
#[derive(Clone, Copy, Debug, PartialEq, Eq)]
pub enum Cryptogram {
    Aac,
    Tc,
    Arqc,
}

impl Cryptogram {
    /// P1 of GENERATE AC.
    pub fn parameter(self) -> u8 {
        match self {
            Cryptogram::Aac => 0x00,
            Cryptogram::Tc => 0x40,
            Cryptogram::Arqc => 0x80,
        }
    }

    /// From the byte of 9F27. The fourth value of its upper bits, a referral
    /// in 000, is no cryptogram here.
    pub fn answered(information: u8) -> Option<Cryptogram> {
        match information >> 6 {
            0 => Some(Cryptogram::Aac),
            1 => Some(Cryptogram::Tc),
            2 => Some(Cryptogram::Arqc),
            _ => None,
        }
    }
}

/// The issuer's reply.
#[derive(Clone, Copy, Debug, PartialEq, Eq)]
pub enum Host {
    Approve([u8; 2]),
    Decline([u8; 2]),
    Unable,
}

impl Host {
    /// Nothing where 01 has refusal 6.
    pub fn read(bytes: &[u8]) -> Option<Host> {
        match *bytes {
            [1, a, b] => Some(Host::Approve([a, b])),
            [2, a, b] => Some(Host::Decline([a, b])),
            [3, 0, 0] => Some(Host::Unable),
            _ => None,
        }
    }
}

fn set(tvr: &mut Tvr, (byte, bit): (usize, u8)) {
    tvr[byte] |= bit;
}

/// Sets the bits that follow from the card's data and the terminal's.
pub fn judge_facts(terminal: &Terminal, facts: &Facts, tvr: &mut Tvr, tsi: &mut Tsi) {
    set(tvr, NO_DATA_AUTHENTICATION);
    if facts.version.is_some_and(|v| v != terminal.version()) {
        set(tvr, VERSIONS_DIFFER);
    }
    // Not as six digits but with the years of 02, R-2: 49 comes after 50.
    let today = day_number(terminal.date());
    if day_number(facts.expiry) < today {
        set(tvr, EXPIRED);
    }
    if facts.effective.is_some_and(|d| day_number(d) > today) {
        set(tvr, NOT_YET_EFFECTIVE);
    }
    if facts.aip[0] & RISK_WANTED != 0 {
        if terminal.amount() >= terminal.floor() {
            set(tvr, OVER_FLOOR);
        } else if terminal.kind == Kind::Both && is_selected(terminal) {
            set(tvr, SELECTED);
        }
        tsi[0] |= TERMINAL_RISK_DONE;
    }
}

/// Random selection below the floor limit (003, 7.6.2), multiplied out so
/// that nothing is rounded. The left side may be negative.
fn is_selected(t: &Terminal) -> bool {
    if t.amount() < t.threshold() {
        return t.random() <= t.target();
    }
    let needed = (t.random() - t.target()) * (t.floor() - t.threshold());
    let given = (t.maximum() - t.target()) * (t.amount() - t.threshold());
    needed <= given
}

/// A bit that is set in the TVR and in either code.
fn matches(tvr: &Tvr, terminal: &[u8], issuer: Option<&[u8]>, absent: u8) -> bool {
    (0..5).any(|i| {
        let code = terminal[i] | issuer.map_or(absent, |c| c[i]);
        code & tvr[i] != 0
    })
}

fn denial_match(t: &Terminal, codes: &IssuerCodes, tvr: &Tvr) -> bool {
    matches(tvr, t.denial(), codes.denial, 0x00)
}

fn online_match(t: &Terminal, codes: &IssuerCodes, tvr: &Tvr) -> bool {
    matches(tvr, t.online(), codes.online, 0xFF)
}

fn default_match(t: &Terminal, codes: &IssuerCodes, tvr: &Tvr) -> bool {
    matches(tvr, t.default(), codes.default, 0xFF)
}

/// What the first GENERATE AC asks for.
pub fn first_request(t: &Terminal, codes: &IssuerCodes, tvr: &Tvr) -> Cryptogram {
    if denial_match(t, codes, tvr) {
        return Cryptogram::Aac;
    }
    match t.kind {
        Kind::OfflineOnly if default_match(t, codes, tvr) => Cryptogram::Aac,
        Kind::OnlineOnly => Cryptogram::Arqc,
        Kind::Both if online_match(t, codes, tvr) => Cryptogram::Arqc,
        _ => Cryptogram::Tc,
    }
}

/// What the second GENERATE AC asks for, and the response code (8A).
pub fn second_request(
    t: &Terminal,
    codes: &IssuerCodes,
    tvr: &Tvr,
    host: Host,
) -> (Cryptogram, [u8; 2]) {
    match host {
        Host::Approve(code) => (Cryptogram::Tc, code),
        Host::Decline(code) => (Cryptogram::Aac, code),
        Host::Unable if t.kind == Kind::OnlineOnly || default_match(t, codes, tvr) => {
            (Cryptogram::Aac, *b"Z3")
        }
        Host::Unable => (Cryptogram::Tc, *b"Y3"),
    }
}

/// Whether the first request allows the answer.
pub fn first_allows(asked: Cryptogram, answer: Cryptogram) -> bool {
    match asked {
        Cryptogram::Tc => true,
        Cryptogram::Arqc => answer != Cryptogram::Tc,
        Cryptogram::Aac => answer == Cryptogram::Aac,
    }
}

/// Whether the second request allows the answer.
pub fn second_allows(asked: Cryptogram, answer: Cryptogram) -> bool {
    answer == Cryptogram::Aac || (answer == Cryptogram::Tc && asked == Cryptogram::Tc)
}

#[cfg(test)]
mod tests;
