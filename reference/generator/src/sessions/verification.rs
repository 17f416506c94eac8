//! Verification lists for made cards, and what they are held against (02,
//! R-7; 003, Annex A3).

use super::start::{digits, Start};
use crate::random::Random;

/// The methods of 003, Table A-3.
pub const METHODS: [u8; 6] = [0x00, 0x01, 0x02, 0x03, 0x1E, 0x1F];

/// Some of those that are none of them.
pub const NO_METHODS: [u8; 11] = [0x04, 0x05, 0x06, 0x0E, 0x1D, 0x20, 0x21, 0x22, 0x2F, 0x3E, 0x3F];

/// The conditions of 003, Table A-4, and some codes that have no meaning.
pub const CONDITIONS: [u8; 16] = [
    0x00, 0x01, 0x02, 0x03, 0x04, 0x05, 0x06, 0x07, 0x08, 0x09, 0x0A, 0x0B, 0x10, 0x7F, 0x80, 0xFF,
];

/// Flags in the first byte of a rule.
pub const GO_ON: u8 = 0x40;
const UNUSED: u8 = 0x80;

/// A value of 8E before it is laid out.
#[derive(Clone, Default)]
pub struct RuleList {
    pub x: u32,
    pub y: u32,
    pub rules: Vec<[u8; 2]>,
}

impl RuleList {
    pub fn any(amount: u64, r: &mut Random) -> RuleList {
        let count = *r.pick(&[0, 1, 1, 2, 2, 3, 3, 4, 6, 12]);
        let rules = (0..count).map(|_| any_rule(r)).collect();
        RuleList { x: any_limit(amount, r), y: any_limit(amount, r), rules }
    }

    pub fn bytes(&self) -> Vec<u8> {
        [&self.x.to_be_bytes()[..], &self.y.to_be_bytes(), &self.rules.concat()].concat()
    }
}

/// A method, mostly one that there is.
pub fn any_method(r: &mut Random) -> u8 {
    match r.below(8) {
        0 => *r.pick(&NO_METHODS),
        1 => r.byte() & 0x3F,
        2..=4 => *r.pick(&[0x01, 0x02, 0x03]),
        _ => *r.pick(&METHODS),
    }
}

/// The method with any flags.
pub fn flagged(method: u8, r: &mut Random) -> u8 {
    let go_on = if r.chance(65) { GO_ON } else { 0 };
    let unused = if r.chance(10) { UNUSED } else { 0 };
    method | go_on | unused
}

/// A rule of any kind. Most let the next one have its turn.
pub fn any_rule(r: &mut Random) -> [u8; 2] {
    let method = any_method(r);
    let condition = match r.below(4) {
        0 => 0x00,
        1 => r.below(10) as u8,
        2 => *r.pick(&[0x03, 0x04, 0x06, 0x07, 0x08, 0x09]),
        _ => *r.pick(&CONDITIONS),
    };
    [flagged(method, r), condition]
}

/// A limit at the amount or next to it, as far as four bytes reach, or any.
/// Some are what the amount would be if it were cut to four bytes.
pub fn any_limit(amount: u64, r: &mut Random) -> u32 {
    let near = u32::try_from(amount).unwrap_or(u32::MAX);
    match r.below(9) {
        0 | 1 => near,
        2 => near.saturating_add(1),
        3 => near.saturating_sub(1),
        4 => amount as u32,
        5 => 0,
        6 => u32::MAX,
        7 => r.next() as u32,
        _ => r.below(100_000) as u32,
    }
}

/// A value of 9F42: the terminal's currency, or one that differs a little, or
/// any.
pub fn any_currency(start: &Start, r: &mut Random) -> Vec<u8> {
    let mut currency = digits(start.currency, 2);
    match r.below(6) {
        0 => currency[r.below(2)] ^= 1 << r.below(8),
        1 => currency.reverse(),
        2 => currency = r.bytes(2),
        _ => (),
    }
    currency
}

/// The results for so many rules.
pub fn any_results(count: usize, r: &mut Random) -> Vec<u8> {
    let one: fn(&mut Random) -> u8 = match r.below(6) {
        0 => |_| 0,
        1 => |r| *r.pick(&[0, 0, 0, 0, 0, 2, 3, 4, 1]),
        2 => |r| *r.pick(&[1, 1, 1, 0, 2, 3, 4]),
        _ => |r| r.below(5) as u8,
    };
    (0..count).map(|_| one(r)).collect()
}

/// Results that are not quite those for so many rules, or not at all.
pub fn bad_results(count: usize, r: &mut Random) -> Vec<u8> {
    let mut results = any_results(count, r);
    match r.below(7) {
        0 => results.push(r.below(5) as u8),
        1 | 2 if count > 0 => results[r.below(count)] = *r.pick(&[5, 5, 6, 0x80, 0x81, 0xFF]),
        3 if count > 0 => drop(results.pop()),
        4 if count > 0 => results.clear(),
        5 => results.extend([0, 0]),
        _ => {
            let size = *r.pick(&[count + 1, 2 * count + 2, 122, 496]);
            results = r.bytes(size);
        }
    }
    results
}

#[cfg(test)]
mod tests {
    use super::*;
    use rules::verify::{are_results, is_verification_list, rule_count};

    #[test]
    fn lists_and_results_are_what_they_should_be() {
        for index in 0..2000 {
            let mut r = Random::nth(6, index);
            let list = RuleList::any(r.next() % 100_000, &mut r);
            let bytes = list.bytes();
            assert!(is_verification_list(&bytes));
            assert_eq!(rule_count(&bytes), list.rules.len());
            assert!(are_results(&bytes, &any_results(list.rules.len(), &mut r)));
            assert!(!are_results(&bytes, &bad_results(list.rules.len(), &mut r)), "{index}");
        }
    }
}
