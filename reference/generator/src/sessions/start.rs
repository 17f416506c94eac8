//! Terminal data for made sessions: always valid, often at an edge.

use super::applications::Applications;
use crate::random::Random;

pub const MOST_AMOUNT: u64 = 999_999_999_999;

/// The fields of START, before they are laid out in its bytes.
#[derive(Clone)]
pub struct Start {
    pub kind: u8,
    pub amount: u64,
    pub other: u64,
    pub country: u64,
    pub currency: u64,
    pub date: [u8; 3],
    pub transaction: u64,
    pub number: [u8; 4],
    pub floor: u64,
    pub random: u8,
    pub target: u8,
    pub threshold: u64,
    pub maximum: u8,
    pub version: [u8; 2],
    pub denial: [u8; 5],
    pub online: [u8; 5],
    pub default: [u8; 5],
    pub aid: Vec<u8>,
    /// Without them START has the size that only tapes know (02, R-7).
    pub capabilities: Option<[u8; 3]>,
    /// A list in place of the AID; capabilities are there too (02, R-12).
    pub applications: Option<Applications>,
}

/// `size` bytes of decimal digits, the number on the right.
pub fn digits(mut number: u64, size: usize) -> Vec<u8> {
    let mut out = vec![0; size];
    for byte in out.iter_mut().rev() {
        let pair = (number % 100) as u8;
        *byte = pair / 10 * 16 + pair % 10;
        number /= 100;
    }
    out
}

/// The last and the first day of the years at the two turns there are in the
/// years of 02, R-2: the end of their range and the end of the century.
pub const BORDER_DAYS: [[u8; 3]; 4] =
    [[0x49, 0x12, 0x31], [0x50, 0x01, 0x01], [0x99, 0x12, 0x31], [0x00, 0x01, 0x01]];

/// A date that the card's dates accept, often one at a border. It need not
/// exist.
pub fn any_date(r: &mut Random) -> [u8; 3] {
    if r.chance(20) {
        return *r.pick(&BORDER_DAYS);
    }
    let year = if r.chance(30) { *r.pick(&[49, 50, 99, 0]) } else { r.below(100) as u64 };
    let month = r.between(1, 12) as u64;
    let day = r.between(1, 31) as u64;
    let text = digits(year * 10_000 + month * 100 + day, 3);
    [text[0], text[1], text[2]]
}

/// The last day of a month (02, R-5), both given as numbers.
pub fn month_end(year: u64, month: u64) -> [u8; 3] {
    let days = match month {
        2 if year.is_multiple_of(4) => 29,
        2 => 28,
        4 | 6 | 9 | 11 => 30,
        _ => 31,
    };
    let text = digits(year * 10_000 + month * 100 + days, 3);
    [text[0], text[1], text[2]]
}

/// A date that exists, as START must have it; often the last of its month.
pub fn any_day(r: &mut Random) -> [u8; 3] {
    let mut date = any_date(r);
    let number = |b: u8| u64::from(b >> 4) * 10 + u64::from(b & 15);
    if r.chance(10) {
        date[1] = 0x02;
    }
    let last = month_end(number(date[0]), number(date[1]));
    if date[2] > last[2] || r.chance(20) {
        date = last;
    }
    date
}

/// Days that no calendar has, though they pass the test for the card's dates:
/// 29 February of common years, 30 and 31 February, and 31 of short months.
#[rustfmt::skip]
pub const NO_DAYS: [[u8; 3]; 16] = [
    [0x01, 0x02, 0x29], [0x23, 0x02, 0x29], [0x49, 0x02, 0x29], [0x50, 0x02, 0x29],
    [0x90, 0x02, 0x29], [0x99, 0x02, 0x29], [0x00, 0x02, 0x30], [0x23, 0x02, 0x30],
    [0x52, 0x02, 0x30], [0x96, 0x02, 0x31], [0x23, 0x02, 0x31], [0x23, 0x04, 0x31],
    [0x24, 0x06, 0x31], [0x49, 0x09, 0x31], [0x50, 0x11, 0x31], [0x00, 0x04, 0x31],
];

/// The next later or earlier date there is, in the counting of the dates
/// that are accepted, from 1950 to 2049; the same date at the ends.
pub fn shifted(date: [u8; 3], later: bool) -> [u8; 3] {
    let pair = |b: u8| i64::from(b >> 4) * 10 + i64::from(b & 15);
    let year = (pair(date[0]) + 50) % 100;
    let count = (year * 12 + pair(date[1]) - 1) * 31 + pair(date[2]) - 1;
    let moved = (count + if later { 1 } else { -1 }).clamp(0, 100 * 12 * 31 - 1) as u64;
    let year = (moved / 372 + 50) % 100;
    let text = digits(year * 10_000 + (moved / 31 % 12 + 1) * 100 + moved % 31 + 1, 3);
    [text[0], text[1], text[2]]
}

impl Start {
    pub fn any(r: &mut Random) -> Start {
        let (floor, threshold) = any_limits(r);
        let amount = any_amount(r, floor, threshold);
        let maximum: u8 = *r.pick(&[0, 1, 50, 70, 98, 99, 99]);
        let target = *r.pick(&[0, maximum, maximum / 2, maximum.saturating_sub(1)]);
        let aid_size = *r.pick(&[5, 5, 6, 7, 7, 8, 12, 15, 16]);
        let mut start = Start {
            kind: r.below(3) as u8,
            amount,
            other: *r.pick(&[0, 0, 1, 4711, MOST_AMOUNT]),
            country: r.below(10_000) as u64,
            currency: r.below(10_000) as u64,
            date: any_day(r),
            transaction: if r.chance(30) { 1 } else { r.below(100) as u64 },
            number: r.next().to_be_bytes()[..4].try_into().unwrap_or_default(),
            floor,
            random: r.between(1, 99) as u8,
            target,
            threshold,
            maximum,
            version: [r.byte() & 1, r.byte() & 3],
            denial: [0; 5],
            online: [0; 5],
            default: [0; 5],
            aid: r.bytes(aid_size),
            capabilities: r.chance(85).then(|| any_capabilities(r)),
            applications: None,
        };
        start.aim_random(r);
        start
    }

    /// Often puts the random number right at the edge of selection.
    pub fn aim_random(&mut self, r: &mut Random) {
        if r.chance(30) || self.amount >= self.floor {
            return;
        }
        let mut edge = u128::from(self.target);
        if self.amount >= self.threshold {
            let spread = u128::from(self.maximum - self.target);
            let above = u128::from(self.amount - self.threshold);
            edge += spread * above / u128::from(self.floor - self.threshold);
        }
        let aimed = edge as usize + r.below(3);
        self.random = aimed.saturating_sub(1).clamp(1, 99) as u8;
    }

    pub fn bytes(&self) -> Vec<u8> {
        let mut out = vec![self.kind];
        out.extend(digits(self.amount, 6));
        out.extend(digits(self.other, 6));
        out.extend(digits(self.country, 2));
        out.extend(digits(self.currency, 2));
        out.extend(self.date);
        out.extend(digits(self.transaction, 1));
        out.extend(self.number);
        out.extend(digits(self.floor, 6));
        out.extend([self.random, self.target]);
        out.extend(digits(self.threshold, 6));
        out.push(self.maximum);
        out.extend(self.version);
        out.extend(self.denial);
        out.extend(self.online);
        out.extend(self.default);
        if let Some(applications) = &self.applications {
            out.extend(applications.bytes(self.capabilities.unwrap_or_default()));
            return out;
        }
        out.push(self.aid.len() as u8);
        out.extend(&self.aid);
        out.resize(74, 0);
        out.extend(self.capabilities.iter().flatten());
        out
    }
}

/// Terminal Capabilities with any means.
pub fn any_capabilities(r: &mut Random) -> [u8; 3] {
    let means = if r.chance(40) { 0xE0 } else { 0x00 };
    [r.byte(), r.byte() | means, r.byte()]
}

fn any_limits(r: &mut Random) -> (u64, u64) {
    let floor = match r.below(6) {
        0 => 0,
        1 => 1,
        2 => MOST_AMOUNT,
        3 => r.next() % (MOST_AMOUNT + 1),
        _ => r.next() % 100_000,
    };
    let threshold = match r.below(4) {
        0 => 0,
        1 => floor.saturating_sub(1),
        2 => floor / 2,
        _ => r.next() % floor.max(1),
    };
    (floor, threshold)
}

fn any_amount(r: &mut Random, floor: u64, threshold: u64) -> u64 {
    let amount = match r.below(9) {
        0 => floor,
        1 => floor.saturating_sub(1),
        2 => floor + 1,
        3 => threshold,
        4 => threshold.saturating_sub(1),
        5 => threshold + r.next() % (floor - threshold).max(1),
        6 => *r.pick(&[0, MOST_AMOUNT]),
        7 => r.next() % threshold.max(1),
        _ => r.next() % (MOST_AMOUNT + 1),
    };
    amount.min(MOST_AMOUNT)
}

#[cfg(test)]
mod tests {
    use super::*;
    use rules::terminal::Terminal;

    #[test]
    fn made_terminal_data_is_valid() {
        for index in 0..5000 {
            let start = Start::any(&mut Random::nth(9, index));
            let bytes = start.bytes();
            assert_eq!(Terminal::read(&bytes).is_some(), start.capabilities.is_some(), "{index}");
            assert!(Terminal::read_either(&bytes).is_some(), "{index}");
        }
    }

    #[test]
    fn days_that_are_none() {
        let mut start = Start::any(&mut Random::nth(9, 1));
        for date in NO_DAYS {
            start.date = date;
            assert!(Terminal::read_either(&start.bytes()).is_none(), "{date:?}");
        }
    }

    #[test]
    fn neighbouring_dates() {
        assert_eq!(shifted([0x26, 0x12, 0x31], true), [0x27, 0x01, 0x01]);
        assert_eq!(shifted([0x26, 0x01, 0x01], false), [0x25, 0x12, 0x31]);
        assert_eq!(shifted([0x99, 0x12, 0x31], true), [0x00, 0x01, 0x01]);
        assert_eq!(shifted([0x49, 0x12, 0x31], true), [0x49, 0x12, 0x31]);
        assert_eq!(shifted([0x50, 0x01, 0x01], false), [0x50, 0x01, 0x01]);
        assert_eq!(shifted([0x26, 0x07, 0x15], false), [0x26, 0x07, 0x14]);
    }
}
