//! What a session knows: START, what the records told, and the bits that were
//! set.

use crate::start::Start;

/// The named objects of the records, by their place among the values.
pub const ACCOUNT: usize = 0;
pub const EXPIRY: usize = 1;
pub const EFFECTIVE: usize = 2;
pub const VERSION: usize = 3;
pub const FIRST_LIST: usize = 4;
pub const SECOND_LIST: usize = 5;
pub const DEFAULT: usize = 6;
pub const DENIAL: usize = 7;
pub const ONLINE: usize = 8;
/// Named where START has capabilities (02, R-7).
pub const METHODS: usize = 9;
pub const CURRENCY: usize = 10;
pub const NAMES: usize = 11;

/// The place of a tag, `NAMES` for a stranger.
#[inline(always)]
pub fn index(tag: u16) -> usize {
    match tag {
        0x5A => ACCOUNT,
        0x5F24 => EXPIRY,
        0x5F25 => EFFECTIVE,
        0x9F08 => VERSION,
        0x8C => FIRST_LIST,
        0x8D => SECOND_LIST,
        0x9F0D => DEFAULT,
        0x9F0E => DENIAL,
        0x9F0F => ONLINE,
        0x8E => METHODS,
        0x9F42 => CURRENCY,
        _ => NAMES,
    }
}

pub struct Known<'a> {
    pub start: Start<'a>,
    /// So many of the names are known in this session.
    pub names: usize,
    pub values: [Option<&'a [u8]>; NAMES],
    pub profile: Option<[u8; 2]>,
    /// 8A, from the second request on.
    pub response: Option<[u8; 2]>,
    pub tvr: [u8; 5],
    pub tsi: [u8; 2],
}

impl<'a> Known<'a> {
    pub fn new(start: Start<'a>) -> Known<'a> {
        let names = if start.capabilities.is_some() { NAMES } else { METHODS };
        Known {
            start,
            names,
            values: [None; NAMES],
            profile: None,
            response: None,
            tvr: [0; 5],
            tsi: [0; 2],
        }
    }

    /// What an object list can draw on.
    #[inline(always)]
    pub fn value(&self, tag: u16) -> Option<&[u8]> {
        match tag {
            0x95 => Some(&self.tvr),
            0x9B => Some(&self.tsi),
            0x82 => self.profile.as_ref().map(|value| &value[..]),
            0x8A => self.response.as_ref().map(|value| &value[..]),
            0x8C | 0x8D | 0x8E | 0x9F42 => None,
            _ => match index(tag) {
                NAMES => self.start.value(tag),
                at => self.values[at],
            },
        }
    }
}
