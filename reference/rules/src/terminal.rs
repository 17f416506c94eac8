//! Terminal data: the bytes of START (01, "Terminal data"), which end with
//! Terminal Capabilities since 02, R-7 and have a list of applications since
//!

mod applications;

pub use applications::{Aid, Applications, Supported, NAME_SIZES};

use applications::{read_listed, read_one, Rest};

/// Without Terminal Capabilities, as 01 has it. Only tapes still have such.
pub const FORMER_SIZE: usize = 74;
pub const START_SIZE: usize = 77;
/// With a list of applications (02, R-12).
pub const CHOOSING_SIZE: usize = 207;
/// So many bytes are the same in every size; the applications follow.
const COMMON: usize = 57;

/// How a START is read: nothing where it is refused.
pub type ReadStart = fn(&[u8]) -> Option<Terminal>;

/// What kind of terminal is played.
#[derive(Clone, Copy, Debug, PartialEq, Eq)]
pub enum Kind {
    OfflineOnly,
    OnlineOnly,
    Both,
}

/// Valid terminal data.
#[derive(Clone, Debug)]
pub struct Terminal {
    pub kind: Kind,
    bytes: [u8; COMMON],
    pub applications: Applications,
    /// 9F33; none in a START of the former size.
    capabilities: Option<[u8; 3]>,
}

/// Whether both halves of every byte are decimal digits.
pub fn is_decimal(bytes: &[u8]) -> bool {
    bytes.iter().all(|b| b >> 4 <= 9 && b & 0x0F <= 9)
}

/// The number that the digits write.
pub fn number(bytes: &[u8]) -> i64 {
    bytes.iter().fold(0, |n, b| n * 100 + i64::from(b >> 4) * 10 + i64::from(b & 0x0F))
}

/// YYMMDD with month 01-12 and day 01-31; the calendar is not consulted. For
/// the card's dates this is the whole test (02, R-5).
pub fn is_date(bytes: &[u8]) -> bool {
    bytes.len() == 3
        && is_decimal(bytes)
        && (0x01..=0x12).contains(&bytes[1])
        && (0x01..=0x31).contains(&bytes[2])
}

/// The year that two digits stand for (02, R-2): 00-49 are 2000 to 2049,
/// 50-99 are 1950 to 1999.
pub fn year(digits: u8) -> i64 {
    let short = number(&[digits]);
    if short < 50 {
        2000 + short
    } else {
        1900 + short
    }
}

/// How many days a month has, in the years of 02, R-2. Of these every fourth
/// is a leap year, 2000 as well.
fn days_in(year: i64, month: i64) -> i64 {
    match month {
        2 if year % 4 == 0 => 29,
        2 => 28,
        4 | 6 | 9 | 11 => 30,
        _ => 31,
    }
}

/// Whether the calendar has the day (02, R-5). Asked of START alone.
fn exists(date: &[u8]) -> bool {
    is_date(date) && number(&date[2..3]) <= days_in(year(date[0]), number(&date[1..2]))
}

/// A date as a number that grows from day to day: year, month, day. It need
/// not exist; 230231 lies between 230228 and 230301.
pub fn day_number(date: &[u8]) -> i64 {
    year(date[0]) * 10_000 + number(&date[1..])
}

impl Terminal {
    /// Nothing where a call has refusal 3: any other size than 77 bytes too.
    pub fn read(start: &[u8]) -> Option<Terminal> {
        (start.len() == START_SIZE).then(|| Terminal::read_either(start))?
    }

    /// The same for tapes, where START may have either size (02, R-7).
    pub fn read_either(start: &[u8]) -> Option<Terminal> {
        Terminal::read_with(start, read_one)
    }

    /// 02, R-12: nothing where a call has refusal 3, any other size than 207
    /// bytes too.
    pub fn read_choosing(start: &[u8]) -> Option<Terminal> {
        (start.len() == CHOOSING_SIZE).then(|| Terminal::read_with(start, read_listed))?
    }

    /// The same for tapes, where START may have each of the three sizes.
    pub fn read_any(start: &[u8]) -> Option<Terminal> {
        match start.len() {
            CHOOSING_SIZE => Terminal::read_choosing(start),
            _ => Terminal::read_either(start),
        }
    }

    fn read_with(start: &[u8], rest: fn(&[u8]) -> Option<Rest>) -> Option<Terminal> {
        let (&bytes, behind) = start.split_first_chunk::<COMMON>()?;
        let (applications, capabilities) = rest(behind)?;
        let kind = match bytes[0] {
            0 => Kind::OfflineOnly,
            1 => Kind::OnlineOnly,
            2 => Kind::Both,
            _ => return None,
        };
        let terminal = Terminal { kind, bytes, applications, capabilities };
        terminal.is_valid().then_some(terminal)
    }

    /// All of 01's conditions but those on the type and the applications, with
    /// 02, R-5 for the date. There is none on the capabilities.
    fn is_valid(&self) -> bool {
        let b = &self.bytes;
        let digits = is_decimal(&b[1..21]) && is_decimal(&b[25..31]) && is_decimal(&b[33..39]);
        let percents = (1..=99).contains(&b[31]) && b[32] <= b[39] && b[39] <= 99;
        let threshold = self.threshold() == 0 || self.threshold() < self.floor();
        digits && exists(self.date()) && percents && threshold
    }

    pub fn amount(&self) -> i64 {
        number(&self.bytes[1..7])
    }

    /// 9F03: what a cashback comes to.
    pub fn other_amount(&self) -> i64 {
        number(&self.bytes[7..13])
    }

    pub fn currency(&self) -> &[u8] {
        &self.bytes[15..17]
    }

    pub fn date(&self) -> &[u8] {
        &self.bytes[17..20]
    }

    /// 9C.
    pub fn transaction(&self) -> u8 {
        self.bytes[20]
    }

    pub fn floor(&self) -> i64 {
        number(&self.bytes[25..31])
    }

    pub fn random(&self) -> i64 {
        i64::from(self.bytes[31])
    }

    pub fn target(&self) -> i64 {
        i64::from(self.bytes[32])
    }

    pub fn threshold(&self) -> i64 {
        number(&self.bytes[33..39])
    }

    pub fn maximum(&self) -> i64 {
        i64::from(self.bytes[39])
    }

    pub fn version(&self) -> &[u8] {
        &self.bytes[40..42]
    }

    pub fn denial(&self) -> &[u8] {
        &self.bytes[42..47]
    }

    pub fn online(&self) -> &[u8] {
        &self.bytes[47..52]
    }

    pub fn default(&self) -> &[u8] {
        &self.bytes[52..57]
    }

    /// The AID, the first one of a list.
    pub fn aid(&self) -> &[u8] {
        match &self.applications {
            Applications::One(name) => name,
            Applications::Listed(supported) => &supported.aids[0].name,
        }
    }

    /// Terminal Capabilities; with them START has its present size, and
    /// cardholder verification is part of the rules (02, R-7).
    pub fn capabilities(&self) -> Option<&[u8; 3]> {
        self.capabilities.as_ref()
    }

    /// The objects an object list can name, with their values. The floor
    /// limit and the AID are not among them: 01 gives them no tag.
    pub fn tagged(&self) -> Vec<(u16, &[u8])> {
        let b = &self.bytes;
        let mut all: Vec<(u16, &[u8])> = vec![
            (0x9F02, &b[1..7]),
            (0x9F03, &b[7..13]),
            (0x9F1A, &b[13..15]),
            (0x5F2A, &b[15..17]),
            (0x9A, &b[17..20]),
            (0x9C, &b[20..21]),
            (0x9F37, &b[21..25]),
            (0x9F09, &b[40..42]),
        ];
        all.extend(self.capabilities().map(|value| (0x9F33, &value[..])));
        all
    }
}

#[cfg(test)]
mod tests;
