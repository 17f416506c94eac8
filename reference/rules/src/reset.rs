//! The answer to reset: its characters, the rules for them and what it says
//! (02, R-1; 000, I-4).
//!
//! The capture is laid out first, then every character is held against its
//! rule. A place is an index in the capture; a character that is absent has
//! the place where it would stand.

use crate::hex;
use std::ops::Range;

/// At most so many characters may follow TS (000, I-4.3).
const MOST_AFTER_TS: usize = 32;

/// TS of the direct convention, and of the inverse one as a line byte.
pub const DIRECT: u8 = 0x3B;
pub const INVERSE: u8 = 0x03;

/// The values used where TC2 and TA3 are absent (000, I-4.3.3.7 and 9).
const USUAL_WI: u8 = 10;
const USUAL_IFSC: u8 = 0x20;

/// Which reset was answered; the rule for TB1 asks (000, I-4.3.3.2).
#[derive(Clone, Copy, Debug, PartialEq, Eq)]
pub enum Reset {
    Cold,
    Warm,
}

/// One rule broken, by name, and the character's place.
#[derive(Clone, Copy, Debug, PartialEq, Eq)]
pub struct Refusal {
    pub rule: &'static str,
    pub place: usize,
}

/// The parameters of the protocol in use.
#[derive(Clone, Copy, Debug, PartialEq, Eq)]
pub enum Protocol {
    Zero { wi: u8 },
    One { ifsc: u8, bwi: u8, cwi: u8 },
}

/// What a good answer to reset says. F is 372 and D is 1 in all of them.
#[derive(Clone, Debug, PartialEq, Eq)]
pub struct Accepted {
    pub inverse: bool,
    pub protocol: Protocol,
    /// TC1 as it stands; 0 if absent.
    pub n: u8,
    /// Least interval in etu between two characters sent to the card.
    pub interval: u16,
    /// Whether TA2 was there.
    pub specific: bool,
    /// Where the historical bytes are in the capture.
    pub historical: Range<usize>,
}

/// A line byte of the inverse convention as a data byte: bits in opposite
/// order and all complemented. The same again leads back.
pub fn turned(byte: u8) -> u8 {
    !byte.reverse_bits()
}

#[derive(Clone, Copy, Debug, PartialEq, Eq)]
enum Letter {
    A,
    B,
    C,
    D,
}

const LETTERS: [Letter; 4] = [Letter::A, Letter::B, Letter::C, Letter::D];

/// An interface character, TA1 for letter A and group 1. No value: absent.
#[derive(Clone, Copy, Debug)]
struct Character {
    letter: Letter,
    group: usize,
    place: usize,
    value: Option<u8>,
}

/// The characters as the bit maps announce them.
#[derive(Debug, Default)]
struct Layout {
    characters: Vec<Character>,
    historical: Range<usize>,
    /// The place of TCK, where it is due.
    check: Option<usize>,
    /// Behind the last announced character.
    end: usize,
    /// The first announced character that is not there.
    cut: Option<usize>,
}

impl Layout {
    /// Of data bytes, TS included, at least one of them.
    fn of(data: &[u8]) -> Layout {
        let mut layout = Layout::default();
        let Some(&format) = data.get(1) else {
            layout.cut = Some(1);
            return layout;
        };
        if !layout.interface(data, format >> 4) {
            return layout;
        }
        let start = layout.end;
        layout.historical = start..start + usize::from(format & 0x0F);
        layout.end = layout.historical.end;
        if layout.end > data.len() {
            layout.cut = Some(data.len());
            return layout;
        }
        if layout.names_other_than_zero() {
            layout.check = Some(layout.end);
            layout.end += 1;
        }
        layout
    }

    /// Steps over the interface characters from the bit map of T0 on; false
    /// if one of them is missing.
    fn interface(&mut self, data: &[u8], first_map: u8) -> bool {
        self.end = 2;
        let mut map = Some(first_map);
        for group in 1.. {
            // A third group that nobody announces still has a place: TB3 may
            // be wanted all the same.
            if map.is_none() && group > 3 {
                break;
            }
            let bits = map.take().unwrap_or(0);
            for (at, letter) in LETTERS.into_iter().enumerate() {
                let announced = bits >> at & 1 == 1;
                let value = data.get(self.end).copied().filter(|_| announced);
                if announced && value.is_none() {
                    self.cut = Some(self.end);
                    return false;
                }
                self.characters.push(Character { letter, group, place: self.end, value });
                self.end += usize::from(announced);
                if letter == Letter::D {
                    map = value.map(|d| d >> 4);
                }
            }
        }
        true
    }

    fn get(&self, letter: Letter, group: usize) -> Option<u8> {
        let mut all = self.characters.iter();
        all.find(|c| c.letter == letter && c.group == group).and_then(|c| c.value)
    }

    /// The protocol that TD1 or TD2 names.
    fn named(&self, group: usize) -> Option<u8> {
        self.get(Letter::D, group).map(|d| d & 0x0F)
    }

    /// TCK is due unless T=0 alone is named, in whatever TDi (000, I-4.3.4).
    fn names_other_than_zero(&self) -> bool {
        let mut all = self.characters.iter().filter(|c| c.letter == Letter::D);
        all.any(|c| c.value.is_some_and(|d| d & 0x0F != 0))
    }
}

/// The rules that one interface character breaks.
fn broken(layout: &Layout, reset: Reset, character: &Character) -> Vec<&'static str> {
    let one_in_td2 = layout.named(2) == Some(1);
    let mut rules = Vec::new();
    let mut rule = |name, breaks: bool| {
        if breaks {
            rules.push(name);
        }
    };
    match (character.letter, character.group, character.value) {
        (Letter::A, 1, Some(ta1)) => {
            let asked = layout.get(Letter::A, 2).is_none_or(|ta2| ta2 & 0x10 == 0);
            rule("TA1", asked && ta1 != 0x11);
        }
        (Letter::B, 1, None) => rule("TB1-ABSENT", reset == Reset::Cold),
        (Letter::B, 1, Some(tb1)) => rule("TB1", reset == Reset::Cold && tb1 != 0),
        (Letter::D, 1, Some(td1)) => rule("TD1", td1 & 0x0F > 1),
        (Letter::A, 2, Some(ta2)) => rule("TA2", ta2 & 0x10 != 0),
        (Letter::B, 2, Some(_)) => rule("TB2", true),
        (Letter::C, 2, Some(tc2)) => rule("TC2", tc2 != 0x0A),
        (Letter::D, 2, Some(td2)) => {
            let other = td2 & 0x0F == 0x0E && layout.named(1) == Some(0);
            rule("TD2", td2 & 0x0F != 1 && !other);
        }
        (Letter::A, 3, Some(ta3)) => rule("TA3", one_in_td2 && (ta3 < 0x10 || ta3 == 0xFF)),
        (Letter::B, 3, None) => rule("TB3-ABSENT", one_in_td2 || layout.named(1) == Some(1)),
        (Letter::B, 3, Some(tb3)) if one_in_td2 => {
            let (bwi, cwi) = (tb3 >> 4, tb3 & 0x0F);
            // N + 1, with N = -1 for 'FF' (000, I-4.3.3.10).
            let guard = match layout.get(Letter::C, 1) {
                Some(0xFF) => 0,
                tc1 => u32::from(tc1.unwrap_or(0)) + 1,
            };
            rule("TB3-BWI", bwi > 4);
            rule("TB3-CWI", cwi > 5);
            rule("TB3-N", 1 << cwi < guard);
        }
        (Letter::C, 3, Some(tc3)) => rule("TC3", one_in_td2 && tc3 != 0),
        _ => (),
    }
    rules
}

/// Everything that is wrong with a capture whose TS is good.
fn refusals(data: &[u8], layout: &Layout, reset: Reset) -> Vec<Refusal> {
    let mut all = Vec::new();
    for character in &layout.characters {
        let place = character.place;
        let rules = broken(layout, reset, character);
        all.extend(rules.into_iter().map(|rule| Refusal { rule, place }));
    }
    match (layout.cut, layout.check) {
        (Some(place), _) => all.push(Refusal { rule: "CUT", place }),
        (None, Some(place)) if place >= data.len() => {
            all.push(Refusal { rule: "TCK-ABSENT", place });
        }
        (None, Some(place)) if data[1..=place].iter().fold(0, |x, b| x ^ b) != 0 => {
            all.push(Refusal { rule: "TCK", place });
        }
        _ => (),
    }
    if layout.cut.is_none() && data.len() > layout.end {
        all.push(Refusal { rule: "EXTRA", place: layout.end });
    }
    // At the first character too many, which is there even where a later one
    // is not: so CUT does not keep it back.
    if data.len() > 1 + MOST_AFTER_TS {
        all.push(Refusal { rule: "LONG", place: 1 + MOST_AFTER_TS });
    }
    // In the order of the characters; of one place in the order above.
    all.sort_by_key(|refusal| refusal.place);
    all
}

/// Reads a capture, or tells every rule that it breaks.
pub fn read(capture: &[u8], reset: Reset) -> Result<Accepted, Vec<Refusal>> {
    let inverse = match capture.first() {
        Some(&DIRECT) => false,
        Some(&INVERSE) => true,
        Some(_) => return Err(vec![Refusal { rule: "TS", place: 0 }]),
        None => return Err(vec![Refusal { rule: "CUT", place: 0 }]),
    };
    let data: Vec<u8> = capture.iter().map(|&b| if inverse { turned(b) } else { b }).collect();
    let layout = Layout::of(&data);
    let refusals = refusals(&data, &layout, reset);
    if !refusals.is_empty() {
        return Err(refusals);
    }
    let n = layout.get(Letter::C, 1).unwrap_or(0);
    let protocol = if layout.named(1) == Some(1) {
        let waiting = layout.get(Letter::B, 3).unwrap_or(0);
        Protocol::One {
            ifsc: layout.get(Letter::A, 3).unwrap_or(USUAL_IFSC),
            bwi: waiting >> 4,
            cwi: waiting & 0x0F,
        }
    } else {
        Protocol::Zero { wi: layout.get(Letter::C, 2).unwrap_or(USUAL_WI) }
    };
    let interval = match (n, protocol) {
        (0xFF, Protocol::Zero { .. }) => 12,
        (0xFF, Protocol::One { .. }) => 11,
        _ => 12 + u16::from(n),
    };
    let specific = layout.get(Letter::A, 2).is_some();
    Ok(Accepted { inverse, protocol, n, interval, specific, historical: layout.historical })
}

/// The line printed for a capture.
pub fn line(capture: &[u8], reset: Reset) -> String {
    let good = match read(capture, reset) {
        Ok(good) => good,
        Err(refusals) => {
            let one = |r: &Refusal| format!(" {}:{}", r.rule, r.place);
            return format!("REFUSED{}", refusals.iter().map(one).collect::<String>());
        }
    };
    let convention = if good.inverse { "inverse" } else { "direct" };
    let (number, own) = match good.protocol {
        Protocol::Zero { wi } => (0, format!("WI={wi}")),
        Protocol::One { ifsc, bwi, cwi } => (1, format!("IFSC={ifsc} BWI={bwi} CWI={cwi}")),
    };
    format!(
        "ACCEPTED {convention} T={number} N={} INTERVAL={} TA2={} {own} HISTORICAL={}",
        good.n,
        good.interval,
        if good.specific { "yes" } else { "no" },
        hex::text_or_dash(&capture[good.historical]),
    )
}

#[cfg(test)]
mod tests;
