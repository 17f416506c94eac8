//! Data objects: tag, length, value (01, "Data objects"; 000, Annex C).

/// A list longer than this is refused, and no written object may exceed it.
pub const LONGEST: usize = 4096;

/// Refusal numbers of 01's table that belong to this module.
pub const NOT_A_LIST: u8 = 9;
pub const BAD_OBJECT: u8 = 10;
pub const NO_ROOM: u8 = 11;

/// One object; the value is a part of the bytes that were read.
#[derive(Clone, Copy, Debug, PartialEq, Eq)]
pub struct Object<'a> {
    pub tag: u16,
    pub value: &'a [u8],
}

/// The tag at the front and the number of bytes it takes.
pub fn read_tag(bytes: &[u8]) -> Option<(u16, usize)> {
    let first = *bytes.first()?;
    if first == 0 {
        return None;
    }
    if first & 0x1F != 0x1F {
        return Some((u16::from(first), 1));
    }
    let second = *bytes.get(1)?;
    if second > 0x7F {
        return None;
    }
    Some((u16::from_be_bytes([first, second]), 2))
}

/// The length at the front and the number of bytes it takes. Longer forms
/// than needed are legal.
fn read_length(bytes: &[u8]) -> Option<(usize, usize)> {
    match *bytes.first()? {
        short @ 0..=0x7F => Some((usize::from(short), 1)),
        0x81 => Some((usize::from(*bytes.get(1)?), 2)),
        0x82 => {
            let high = *bytes.get(1)?;
            let low = *bytes.get(2)?;
            Some((usize::from(u16::from_be_bytes([high, low])), 3))
        }
        _ => None,
    }
}

/// The object at the front and the bytes behind it. A constructed value is
/// not looked into here.
pub fn read_object(bytes: &[u8]) -> Option<(Object<'_>, &[u8])> {
    let (tag, tag_size) = read_tag(bytes)?;
    let (length, length_size) = read_length(&bytes[tag_size..])?;
    let from = tag_size + length_size;
    let value = bytes.get(from..from + length)?;
    Some((Object { tag, value }, &bytes[from + length..]))
}

/// Whether the value is made of objects in turn.
pub fn is_constructed(tag: u16) -> bool {
    let [high, low] = tag.to_be_bytes();
    let first = if high == 0 { low } else { high };
    first & 0x20 != 0
}

/// Whether the bytes divide into objects, and constructed ones likewise all
/// the way down; the limit on the size is for the caller.
fn is_run_of_objects(mut bytes: &[u8]) -> bool {
    while let Some(&first) = bytes.first() {
        if first == 0 {
            bytes = &bytes[1..];
            continue;
        }
        let Some((object, rest)) = read_object(bytes) else {
            return false;
        };
        if is_constructed(object.tag) && !is_run_of_objects(object.value) {
            return false;
        }
        bytes = rest;
    }
    true
}

pub fn is_list(bytes: &[u8]) -> bool {
    bytes.len() <= LONGEST && is_run_of_objects(bytes)
}

/// The direct members in order, or refusal 9.
pub fn read_list(bytes: &[u8]) -> Result<Vec<Object<'_>>, u8> {
    if !is_list(bytes) {
        return Err(NOT_A_LIST);
    }
    let mut members = Vec::new();
    let mut rest = bytes;
    while let Some(&first) = rest.first() {
        if first == 0 {
            rest = &rest[1..];
            continue;
        }
        let (object, behind) = read_object(rest).ok_or(NOT_A_LIST)?;
        members.push(object);
        rest = behind;
    }
    Ok(members)
}

/// The bytes of a tag given as a number, if reading them gives all of it back.
fn tag_bytes(number: u32) -> Option<Vec<u8>> {
    let bytes = match number {
        0..=0xFF => vec![number as u8],
        0x100..=0xFFFF => (number as u16).to_be_bytes().to_vec(),
        _ => return None,
    };
    match read_tag(&bytes) {
        Some((_, size)) if size == bytes.len() => Some(bytes),
        _ => None,
    }
}

/// The shortest form of a length; the caller keeps it below 65,536.
pub fn length_bytes(length: usize) -> Vec<u8> {
    match length {
        0..=0x7F => vec![length as u8],
        0x80..=0xFF => vec![0x81, length as u8],
        _ => vec![0x82, (length >> 8) as u8, length as u8],
    }
}

/// Writes one object into `room` bytes of space, or refuses with 10 or 11.
pub fn write(tag: u32, value: &[u8], room: usize) -> Result<Vec<u8>, u8> {
    let mut out = tag_bytes(tag).ok_or(BAD_OBJECT)?;
    if value.len() > LONGEST {
        return Err(BAD_OBJECT);
    }
    if is_constructed(tag as u16) && !is_list(value) {
        return Err(BAD_OBJECT);
    }
    out.extend(length_bytes(value.len()));
    out.extend_from_slice(value);
    if out.len() > LONGEST {
        return Err(BAD_OBJECT);
    }
    if out.len() > room {
        return Err(NO_ROOM);
    }
    Ok(out)
}

#[cfg(test)]
mod tests {
    use super::*;

    fn tags(bytes: &[u8]) -> Result<Vec<u16>, u8> {
        read_list(bytes).map(|members| members.iter().map(|m| m.tag).collect())
    }

    #[test]
    fn case_a_long_length_form() {
        let bytes = [0x5A, 0x81, 0x02, 0x12, 0x34];
        let object = Object { tag: 0x5A, value: &[0x12, 0x34] };
        assert_eq!(read_list(&bytes), Ok(vec![object]));
    }

    #[test]
    fn cases_b_c_refused() {
        assert_eq!(read_list(&[0x5A, 0x02, 0x12]), Err(9));
        assert_eq!(read_list(&[0x5A, 0x80]), Err(9));
    }

    #[test]
    fn case_d_padding_is_empty() {
        assert_eq!(tags(&[0, 0]), Ok(vec![]));
        assert_eq!(tags(&[]), Ok(vec![]));
    }

    #[test]
    fn tags_and_lengths() {
        assert_eq!(tags(&[0x9F, 0x00, 0x00]), Ok(vec![0x9F00]));
        assert_eq!(tags(&[0x9F, 0x7F, 0x00]), Ok(vec![0x9F7F]));
        assert_eq!(tags(&[0x9F, 0x80, 0x00]), Err(9));
        assert_eq!(tags(&[0x9F]), Err(9));
        assert_eq!(tags(&[0x5A]), Err(9));
        assert_eq!(tags(&[0x5A, 0x81]), Err(9));
        assert_eq!(tags(&[0x5A, 0x82, 0x00]), Err(9));
        assert_eq!(tags(&[0x5A, 0x82, 0x00, 0x01, 0x07]), Ok(vec![0x5A]));
        assert_eq!(tags(&[0x5A, 0x83, 0x00, 0x00, 0x00]), Err(9));
        assert_eq!(tags(&[0, 0x5A, 0, 0, 0x5A, 0, 0]), Ok(vec![0x5A, 0x5A]));
    }

    #[test]
    fn constructed_at_every_depth() {
        assert_eq!(tags(&[0x70, 0x02, 0x5A, 0x00]), Ok(vec![0x70]));
        assert_eq!(tags(&[0x70, 0x02, 0x5A, 0x01]), Err(9));
        assert_eq!(tags(&[0x70, 0x03, 0x77, 0x01, 0x5A]), Err(9));
        assert_eq!(tags(&[0x70, 0x03, 0x77, 0x01, 0x00]), Ok(vec![0x70]));
        assert_eq!(tags(&[0x3F, 0x00, 0x01, 0x5A]), Err(9));
        assert_eq!(tags(&[0x1F, 0x00, 0x01, 0x5A]), Ok(vec![0x1F00]));
    }

    #[test]
    fn the_limit_of_reading() {
        assert_eq!(tags(&[0; 4096]), Ok(vec![]));
        assert_eq!(tags(&[0; 4097]), Err(9));
        let mut full = vec![0x5A, 0x82, 0x0F, 0xFC];
        full.resize(4096, 7);
        assert_eq!(tags(&full), Ok(vec![0x5A]));
    }

    #[test]
    fn deep_nesting_is_no_trouble() {
        let mut bytes = Vec::new();
        loop {
            let outer = write(0x70, &bytes, 5000);
            match outer {
                Ok(outer) => bytes = outer,
                Err(number) => break assert_eq!(number, 10),
            }
        }
        assert!(bytes.len() > 4090 && is_list(&bytes));
    }

    #[test]
    fn writing() {
        assert_eq!(write(0x5A, &[1], 3), Ok(vec![0x5A, 1, 1]));
        assert_eq!(write(0x5A, &[1], 2), Err(11));
        assert_eq!(write(0x9F02, &[], 3), Ok(vec![0x9F, 2, 0]));
        for bad in [0, 0x1F, 0x5F, 0xFF, 0x100, 0x5A01, 0x9F80, 0x1_0000, 0x9F_0201] {
            assert_eq!(write(bad, &[], 0), Err(10), "{bad:X}");
        }
        assert_eq!(write(0x70, &[0x5A], 0), Err(10));
        assert_eq!(write(0x70, &[0x5A, 0], 4), Ok(vec![0x70, 2, 0x5A, 0]));
        let form = |size: usize| write(0x5A, &vec![0; size], 5000).map(|w| w.len());
        assert_eq!(form(127), Ok(129));
        assert_eq!(form(128), Ok(131));
        assert_eq!(form(255), Ok(258));
        assert_eq!(form(256), Ok(260));
        assert_eq!(form(4092), Ok(4096));
        assert_eq!(form(4093), Err(10));
        assert_eq!(write(0x9F02, &[0; 4092], 5000), Err(10));
        assert_eq!(write(0x5A, &[0; 5000], 0), Err(10));
    }
}
