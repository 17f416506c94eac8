//! Cardholder verification: what the rules of the list 8E come to with the
//! results that were handed in (02, R-7; 003, 7.5 and Annex A3).

use crate::terminal::Terminal;

/// TVR byte 3 (003, Table A-6).
const NOT_SUCCESSFUL: u8 = 0x80;
const UNRECOGNISED: u8 = 0x40;
const TRIES_USED_UP: u8 = 0x20;
const NO_PIN_PAD: u8 = 0x10;
const NO_PIN_ENTERED: u8 = 0x08;
const ONLINE_PIN_ENTERED: u8 = 0x04;

/// Terminal Capabilities byte 2: the means of verification.
const MEANS_OFFLINE_PIN: u8 = 0x80;
const MEANS_ONLINE_PIN: u8 = 0x40;
const MEANS_SIGNATURE: u8 = 0x20;

/// First byte of a rule: the method, and whether a failure is not the end.
const METHOD: u8 = 0x3F;
const GO_ON: u8 = 0x40;

/// The two amounts before the rules.
const AMOUNTS: usize = 8;

/// The results that a byte can tell.
const FAILED: u8 = 0;
const SUCCEEDED: u8 = 1;
const NO_PAD: u8 = 2;
const NOT_ENTERED: u8 = 3;
const USED_UP: u8 = 4;

/// 9C of a cash transaction.
const CASH: u8 = 0x01;

/// Whether the size of a value of 8E is good: two amounts, then rules of two
/// bytes each, perhaps none.
pub fn is_verification_list(value: &[u8]) -> bool {
    value.len() >= AMOUNTS && value.len().is_multiple_of(2)
}

/// How many rules a good list has.
pub fn rule_count(list: &[u8]) -> usize {
    list.len().saturating_sub(AMOUNTS) / 2
}

/// Whether there is a result for each rule and nothing else: refusal 12 if
/// not. The rules that are never tried need theirs too.
pub fn are_results(list: &[u8], results: &[u8]) -> bool {
    results.len() == rule_count(list) && results.iter().all(|&result| result <= USED_UP)
}

/// The methods of 003, Table A-3.
#[derive(Clone, Copy, Debug, PartialEq, Eq)]
enum Method {
    Fail,
    OfflinePin,
    OnlinePin,
    OfflinePinAndSignature,
    Signature,
    NotRequired,
    Unknown,
}

impl Method {
    fn of(first: u8) -> Method {
        match first & METHOD {
            0x00 => Method::Fail,
            0x01 => Method::OfflinePin,
            0x02 => Method::OnlinePin,
            0x03 => Method::OfflinePinAndSignature,
            0x1E => Method::Signature,
            0x1F => Method::NotRequired,
            _ => Method::Unknown,
        }
    }
}

/// What came of a rule that was tried: whether it succeeded, and the bits of
/// TVR byte 3 that it sets.
type Tried = (bool, u8);

/// Everything that the rules of a session are held against.
pub struct Verification<'a> {
    pub terminal: &'a Terminal,
    /// The value of 8E, of good size.
    pub list: &'a [u8],
    /// 9F42, where the card has it.
    pub currency: Option<&'a [u8]>,
}

impl Verification<'_> {
    /// TVR byte 3 once the list has been gone through.
    pub fn outcome(&self, results: &[u8]) -> u8 {
        let rules = self.list[AMOUNTS..].chunks_exact(2).map(|rule| (rule[0], rule[1]));
        let mut bits = 0;
        for ((first, condition), &result) in rules.zip(results) {
            let method = Method::of(first);
            if !self.is_satisfied(condition, method) {
                continue;
            }
            let (success, set) = self.attempt(method, result);
            bits |= set;
            if success {
                return bits;
            }
            if first & GO_ON == 0 {
                break;
            }
        }
        bits | NOT_SUCCESSFUL
    }

    fn has(&self, means: u8) -> bool {
        self.terminal.capabilities().is_some_and(|bytes| bytes[1] & means == means)
    }

    fn is_supported(&self, method: Method) -> bool {
        match method {
            Method::Fail | Method::NotRequired => true,
            Method::OfflinePin => self.has(MEANS_OFFLINE_PIN),
            Method::OnlinePin => self.has(MEANS_ONLINE_PIN),
            Method::OfflinePinAndSignature => self.has(MEANS_OFFLINE_PIN | MEANS_SIGNATURE),
            Method::Signature => self.has(MEANS_SIGNATURE),
            Method::Unknown => false,
        }
    }

    /// Whether the rule is to be tried. Codes that mean nothing here, and '05',
    /// of which the terminal can tell nothing, let it be passed over.
    fn is_satisfied(&self, condition: u8, method: Method) -> bool {
        let amount = self.terminal.amount();
        match condition {
            0x00 => true,
            0x01 => self.is_cash(),
            0x02 => !self.is_cash(),
            0x03 => self.is_supported(method),
            0x04 => !self.is_supported(method),
            0x06 => self.in_own_currency() && amount < self.limit(0),
            0x07 => self.in_own_currency() && amount > self.limit(0),
            0x08 => self.in_own_currency() && amount < self.limit(4),
            0x09 => self.in_own_currency() && amount > self.limit(4),
            _ => false,
        }
    }

    /// Cash or cashback.
    fn is_cash(&self) -> bool {
        self.terminal.transaction() == CASH || self.terminal.other_amount() != 0
    }

    /// Whether the transaction is in the currency of the application. Without
    /// 9F42 nobody knows.
    fn in_own_currency(&self) -> bool {
        self.currency == Some(self.terminal.currency())
    }

    /// X stands at 0, Y at 4: four bytes each, not digits.
    fn limit(&self, at: usize) -> i64 {
        self.list[at..at + 4].iter().fold(0, |n, &byte| n << 8 | i64::from(byte))
    }

    fn attempt(&self, method: Method, result: u8) -> Tried {
        match method {
            Method::Fail => (false, 0),
            Method::NotRequired => (true, 0),
            Method::Unknown => (false, UNRECOGNISED),
            Method::Signature => (self.has(MEANS_SIGNATURE) && result == SUCCEEDED, 0),
            Method::OfflinePin => pin(self.has(MEANS_OFFLINE_PIN), result),
            Method::OnlinePin => {
                let (success, set) = pin(self.has(MEANS_ONLINE_PIN), result);
                (success, if success { ONLINE_PIN_ENTERED } else { set })
            }
            // Both have to succeed; a good PIN alone fails without a bit.
            Method::OfflinePinAndSignature => {
                let (success, set) = pin(self.has(MEANS_OFFLINE_PIN), result);
                (success && self.has(MEANS_SIGNATURE), set)
            }
        }
    }
}

/// A PIN that is to be entered. Without the means for it nothing else counts.
fn pin(has_means: bool, result: u8) -> Tried {
    match result {
        _ if !has_means => (false, NO_PIN_PAD),
        FAILED => (false, 0),
        SUCCEEDED => (true, 0),
        NO_PAD => (false, NO_PIN_PAD),
        NOT_ENTERED => (false, NO_PIN_ENTERED),
        _ => (false, TRIES_USED_UP),
    }
}

#[cfg(test)]
mod tests;
