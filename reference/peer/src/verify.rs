//! Cardholder verification (02, R-7; 003, 7.5).

use crate::known::{Known, CURRENCY};
use crate::start::number;

/// Capabilities byte 2.
const OFFLINE_PIN: u8 = 0x80;
const ONLINE_PIN: u8 = 0x40;
const SIGNATURE: u8 = 0x20;

/// TVR byte 3.
const NOT_SUCCESSFUL: u8 = 0x80;
const UNRECOGNISED: u8 = 0x40;
const TRIES_USED_UP: u8 = 0x20;
const NO_PIN_PAD: u8 = 0x10;
const NO_PIN_ENTERED: u8 = 0x08;
const ONLINE_PIN_ENTERED: u8 = 0x04;

/// What the conditions of rules are held against.
struct Terms<'a> {
    means: u8,
    amount: i64,
    is_cash: bool,
    in_own_currency: bool,
    list: &'a [u8],
}

/// TVR byte 3 after the rules of a good list, with a result for each.
pub fn outcome(known: &Known, list: &[u8], results: &[u8]) -> u8 {
    let b = known.start.bytes;
    let terms = Terms {
        means: known.start.capabilities.map_or(0, |bytes| bytes[1]),
        amount: number(&b[1..7]),
        is_cash: b[20] == 1 || b[7..13] != [0; 6],
        in_own_currency: known.values[CURRENCY] == Some(&b[15..17]),
        list,
    };
    let mut bits = 0;
    let (rules, _) = list.get(8..).unwrap_or_default().as_chunks();
    for (&[first, condition], &result) in rules.iter().zip(results) {
        let method = first & 0x3F;
        if !terms.are_satisfied(condition, method) {
            continue;
        }
        let (success, set) = terms.attempt(method, result);
        bits |= set;
        if success {
            return bits;
        }
        if first & 0x40 == 0 {
            break;
        }
    }
    bits | NOT_SUCCESSFUL
}

impl Terms<'_> {
    fn has(&self, means: u8) -> bool {
        self.means & means == means
    }

    fn support(&self, method: u8) -> bool {
        match method {
            0x00 | 0x1F => true,
            0x01 => self.has(OFFLINE_PIN),
            0x02 => self.has(ONLINE_PIN),
            0x03 => self.has(OFFLINE_PIN | SIGNATURE),
            0x1E => self.has(SIGNATURE),
            _ => false,
        }
    }

    fn are_satisfied(&self, condition: u8, method: u8) -> bool {
        match condition {
            0x00 => true,
            0x01 => self.is_cash,
            0x02 => !self.is_cash,
            0x03 => self.support(method),
            0x04 => !self.support(method),
            0x06 => self.in_own_currency && self.amount < self.limit(0),
            0x07 => self.in_own_currency && self.amount > self.limit(0),
            0x08 => self.in_own_currency && self.amount < self.limit(4),
            0x09 => self.in_own_currency && self.amount > self.limit(4),
            _ => false,
        }
    }

    /// X stands at 0, Y at 4.
    fn limit(&self, at: usize) -> i64 {
        self.list[at..at + 4].iter().fold(0, |n, &byte| n << 8 | i64::from(byte))
    }

    /// Whether a rule that is tried succeeds, and the bits that it sets.
    fn attempt(&self, method: u8, result: u8) -> (bool, u8) {
        match method {
            0x00 => (false, 0),
            0x1F => (true, 0),
            0x1E => (self.has(SIGNATURE) && result == 1, 0),
            0x01 => pin(self.has(OFFLINE_PIN), result),
            0x02 => match pin(self.has(ONLINE_PIN), result) {
                (true, _) => (true, ONLINE_PIN_ENTERED),
                failed => failed,
            },
            0x03 => {
                let (success, set) = pin(self.has(OFFLINE_PIN), result);
                (success && self.has(SIGNATURE), set)
            }
            _ => (false, UNRECOGNISED),
        }
    }
}

fn pin(has_means: bool, result: u8) -> (bool, u8) {
    match result {
        _ if !has_means => (false, NO_PIN_PAD),
        0 => (false, 0),
        1 => (true, 0),
        2 => (false, NO_PIN_PAD),
        3 => (false, NO_PIN_ENTERED),
        _ => (false, TRIES_USED_UP),
    }
}
