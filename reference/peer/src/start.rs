//! START and its fields (01, "Terminal data").

const SIZE: usize = 74;

/// Valid terminal data, as it lies in the tape.
#[derive(Clone, Copy)]
pub struct Start<'a> {
    pub bytes: &'a [u8; SIZE],
    /// 9F33; none before R-7.
    pub capabilities: Option<&'a [u8; 3]>,
}

/// Whether both halves of every byte are decimal digits.
#[inline(always)]
pub fn is_decimal(bytes: &[u8]) -> bool {
    bytes.iter().fold(0, |bad, &byte| bad | byte & 0x88 & (byte << 1 | byte << 2)) == 0
}

/// The number that the digits write.
#[inline(always)]
pub fn number(bytes: &[u8]) -> i64 {
    bytes.iter().fold(0, |n, byte| n * 100 + i64::from(byte >> 4) * 10 + i64::from(byte & 15))
}

/// YYMMDD with a month and a day that there can be.
#[inline(always)]
pub fn is_date(bytes: &[u8]) -> bool {
    match *bytes {
        [_, month, day] => {
            is_decimal(bytes) && (1..=0x12).contains(&month) && (1..=0x31).contains(&day)
        }
        _ => false,
    }
}

/// A date as a number that grows from day to day: 50 stands for 1950 and is
/// the first year (02, R-2). Hexadecimal does for decimal digits.
#[inline(always)]
pub fn day(date: &[u8]) -> u32 {
    let [year, month, day] = *date else { return 0 };
    let year = if year < 0x50 { u32::from(year) + 0x100 } else { u32::from(year) };
    year << 16 | u32::from(month) << 8 | u32::from(day)
}

/// Whether the calendar has a date that is one by its digits (02, R-5).
fn exists(date: &[u8]) -> bool {
    let days = match date[1] {
        // Of the years 1950 to 2049 every fourth is a leap year.
        2 if number(&date[..1]) % 4 == 0 => 0x29,
        2 => 0x28,
        4 | 6 | 9 | 0x11 => 0x30,
        _ => 0x31,
    };
    date[2] <= days
}

impl<'a> Start<'a> {
    pub fn read(payload: &'a [u8]) -> Option<Start<'a>> {
        let (bytes, rest) = payload.split_first_chunk::<SIZE>()?;
        let capabilities = match rest {
            [] => None,
            rest => Some(rest.try_into().ok()?),
        };
        let start = Start { bytes, capabilities };
        start.is_valid().then_some(start)
    }

    fn is_valid(&self) -> bool {
        let b = self.bytes;
        let digits = is_decimal(&b[1..21]) && is_decimal(&b[25..31]) && is_decimal(&b[33..39]);
        let date = is_date(&b[17..20]) && exists(&b[17..20]);
        let percents = (1..=99).contains(&b[31]) && b[32] <= b[39] && b[39] <= 99;
        // Digits are in order as bytes are.
        let threshold = b[33..39] == [0; 6] || b[33..39] < b[25..31];
        let size = usize::from(b[57]);
        let aid = (5..=16).contains(&size) && b[58 + size..].iter().all(|&byte| byte == 0);
        b[0] <= 2 && digits && date && percents && threshold && aid
    }

    pub fn aid(&self) -> &'a [u8] {
        &self.bytes[58..58 + usize::from(self.bytes[57])]
    }

    /// The value of an object that START holds.
    #[inline(always)]
    pub fn value(&self, tag: u16) -> Option<&'a [u8]> {
        let b = self.bytes;
        Some(match tag {
            0x9F02 => &b[1..7],
            0x9F03 => &b[7..13],
            0x9F1A => &b[13..15],
            0x5F2A => &b[15..17],
            0x9A => &b[17..20],
            0x9C => &b[20..21],
            0x9F37 => &b[21..25],
            0x9F09 => &b[40..42],
            0x9F33 => return self.capabilities.map(|value| &value[..]),
            _ => return None,
        })
    }
}
