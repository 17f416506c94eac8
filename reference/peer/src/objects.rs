//! Data objects (01, "Data objects"), gone through once.

/// The object at the front, with what is behind it.
#[inline(always)]
fn object(bytes: &[u8]) -> Option<(u16, &[u8], &[u8])> {
    let (&first, rest) = bytes.split_first()?;
    let (tag, rest) = if first & 0x1F != 0x1F {
        (u16::from(first), rest)
    } else {
        let (&second, rest) = rest.split_first()?;
        if second > 0x7F {
            return None;
        }
        (u16::from_be_bytes([first, second]), rest)
    };
    let (&length, rest) = rest.split_first()?;
    let (length, rest) = match length {
        0..=0x7F => (usize::from(length), rest),
        0x81 => {
            let (&length, rest) = rest.split_first()?;
            (usize::from(length), rest)
        }
        0x82 => {
            let (length, rest) = rest.split_first_chunk()?;
            (usize::from(u16::from_be_bytes(*length)), rest)
        }
        _ => return None,
    };
    let (value, behind) = rest.split_at_checked(length)?;
    Some((tag, value, behind))
}

#[inline(always)]
fn without_zeros(mut bytes: &[u8]) -> &[u8] {
    while let [0, rest @ ..] = bytes {
        bytes = rest;
    }
    bytes
}

/// The one object of a data field. Its value is not looked into.
#[inline(always)]
pub fn only(data: &[u8]) -> Option<(u16, &[u8])> {
    let (tag, value, behind) = object(without_zeros(data))?;
    behind.iter().all(|&byte| byte == 0).then_some((tag, value))
}

/// Hands each direct member over; false where the bytes are no list, or where
/// `each` says so of a member.
#[inline(always)]
pub fn members<'a>(mut bytes: &'a [u8], mut each: impl FnMut(u16, &'a [u8]) -> bool) -> bool {
    loop {
        bytes = without_zeros(bytes);
        if bytes.is_empty() {
            return true;
        }
        let Some((tag, value, behind)) = object(bytes) else { return false };
        if !each(tag, value) {
            return false;
        }
        bytes = behind;
    }
}

/// Whether a member that nobody names is good: a constructed one is a list.
#[inline(always)]
pub fn is_good(tag: u16, value: &[u8]) -> bool {
    let first = if tag > 0xFF { tag >> 8 } else { tag };
    first & 0x20 == 0 || is_list(value)
}

fn is_list(bytes: &[u8]) -> bool {
    members(bytes, is_good)
}

/// The tag at the front of an object list's entry, with what is behind it.
#[inline(always)]
pub fn tag(bytes: &[u8]) -> Option<(u16, &[u8])> {
    match *bytes {
        [0, ..] => None,
        [first, ref rest @ ..] if first & 0x1F != 0x1F => Some((u16::from(first), rest)),
        [first, second @ 0..=0x7F, ref rest @ ..] => {
            Some((u16::from_be_bytes([first, second]), rest))
        }
        _ => None,
    }
}

/// A named object: not seen, seen once, or more often.
#[derive(Clone, Copy, Default)]
pub struct Seen<'a> {
    pub value: Option<&'a [u8]>,
    pub twice: bool,
}

impl<'a> Seen<'a> {
    #[inline(always)]
    pub fn see(&mut self, value: &'a [u8]) -> bool {
        self.twice |= self.value.is_some();
        self.value = Some(value);
        true
    }
}
