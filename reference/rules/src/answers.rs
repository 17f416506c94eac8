//! Card answers: taken apart, or turned into a reason for ending (01, "What
//! the card must answer").
//!
//! Of all reasons that apply the lowest one counts, so every reader here
//! tests them in rising order and stops at the first.

use crate::lists::MOST_ASKED;
use crate::objects::{read_list, Object};
use crate::terminal::{is_date, NAME_SIZES};
use crate::verify::is_verification_list;

pub type Reason = u8;
pub const SIZE: Reason = 1;
pub const STATUS: Reason = 2;
pub const STRUCTURE: Reason = 3;
pub const TWICE: Reason = 4;
pub const CONTENT: Reason = 5;
pub const BAD_AFL: Reason = 6;
pub const TOO_MANY_RECORDS: Reason = 7;
pub const MISSING: Reason = 8;
pub const BAD_LIST: Reason = 9;
pub const NOT_ALLOWED: Reason = 10;
/// 02, R-12.
pub const TOO_MANY_EXCHANGES: Reason = 11;
pub const NO_APPLICATION: Reason = 12;

/// 02, R-8; 58 in 01.
pub const MOST_RECORDS: usize = 500;
pub const LONGEST_ANSWER: usize = 258;
pub const SUCCESS: [u8; 2] = [0x90, 0x00];

/// All of the answer that stands before the status.
pub fn data_field(answer: &[u8]) -> &[u8] {
    &answer[..answer.len().saturating_sub(2)]
}

/// Reason 1, or the answer in its two parts: data field and status.
pub fn parts(answer: &[u8]) -> Result<(&[u8], [u8; 2]), Reason> {
    match answer.last_chunk() {
        Some(&status) if answer.len() <= LONGEST_ANSWER => Ok((data_field(answer), status)),
        _ => Err(SIZE),
    }
}

/// Reasons 1 to 3: the one object the data field holds.
fn only_object<'a>(answer: &'a [u8], expected: &[u16]) -> Result<Object<'a>, Reason> {
    let (data, status) = parts(answer)?;
    if status != SUCCESS {
        return Err(STATUS);
    }
    only_in(data, expected)
}

/// Reason 3: the one object of a data field.
pub fn only_in<'a>(data: &'a [u8], expected: &[u16]) -> Result<Object<'a>, Reason> {
    match read_list(data).map_err(|_| STRUCTURE)?[..] {
        [object] if expected.contains(&object.tag) => Ok(object),
        _ => Err(STRUCTURE),
    }
}

/// The direct members of a constructed value.
pub fn members(value: &[u8]) -> Result<Vec<Object<'_>>, Reason> {
    read_list(value).map_err(|_| STRUCTURE)
}

/// The value of a named object, or reason 4 if it is there twice.
pub fn find<'a>(members: &[Object<'a>], tag: u16) -> Result<Option<&'a [u8]>, Reason> {
    let mut found = members.iter().filter(|m| m.tag == tag);
    let first = found.next().map(|m| m.value);
    match found.next() {
        Some(_) => Err(TWICE),
        None => Ok(first),
    }
}

/// Reason 5 unless the object is absent or good.
fn check(value: Option<&[u8]>, good: impl Fn(&[u8]) -> bool) -> Result<(), Reason> {
    match value {
        Some(value) if !good(value) => Err(CONTENT),
        _ => Ok(()),
    }
}

/// The answer to SELECT: 9F38 if it is there. Reason 9 is left to the caller,
/// who fills the list.
pub fn read_select(answer: &[u8], aid: &[u8]) -> Result<Option<Vec<u8>>, Reason> {
    let outer = only_object(answer, &[0x6F])?;
    let direct = members(outer.value)?;
    let name = find(&direct, 0x84)?;
    let proprietary = find(&direct, 0xA5)?;
    let inner = members(proprietary.unwrap_or(&[]))?;
    let list = find(&inner, 0x9F38)?;
    check(name, |v| NAME_SIZES.contains(&v.len()) && v.starts_with(aid))?;
    check(list, |v| v.len() <= MOST_ASKED)?;
    if name.is_none() || proprietary.is_none() {
        return Err(MISSING);
    }
    Ok(list.map(<[u8]>::to_vec))
}

/// What the answer to GET PROCESSING OPTIONS says.
#[derive(Debug, PartialEq, Eq)]
pub struct Options {
    pub aip: [u8; 2],
    /// Parameters P1 and P2 of each READ RECORD, in order.
    pub records: Vec<[u8; 2]>,
}

pub fn read_options(answer: &[u8]) -> Result<Options, Reason> {
    let outer = only_object(answer, &[0x77, 0x80])?;
    let (profile, locator) = if outer.tag == 0x80 {
        if outer.value.len() < 2 {
            return Err(CONTENT);
        }
        let (profile, locator) = outer.value.split_at(2);
        (Some(profile), Some(locator))
    } else {
        let direct = members(outer.value)?;
        (find(&direct, 0x82)?, find(&direct, 0x94)?)
    };
    check(profile, |v| v.len() == 2)?;
    check(locator, |v| !v.is_empty() && v.len() % 4 == 0)?;
    let records = locator.map(read_locator).transpose()?;
    match (profile, records) {
        (Some(&[a, b]), Some(records)) => Ok(Options { aip: [a, b], records }),
        _ => Err(MISSING),
    }
}

/// The records an AFL of whole entries names, or reason 6 or 7.
fn read_locator(locator: &[u8]) -> Result<Vec<[u8; 2]>, Reason> {
    let mut records = Vec::new();
    for entry in locator.chunks(4) {
        let (file, first, last, signed) = (entry[0], entry[1], entry[2], entry[3]);
        let file_good = file & 0x07 == 0 && (1..=10).contains(&(file >> 3));
        let range_good = first >= 1 && last >= first;
        if !file_good || !range_good || u16::from(signed) > u16::from(last - first) + 1 {
            return Err(BAD_AFL);
        }
        records.extend((first..=last).map(|record| [record, file + 4]));
    }
    if records.len() > MOST_RECORDS {
        return Err(TOO_MANY_RECORDS);
    }
    Ok(records)
}

/// The named objects of the records, in the order they are kept.
pub const RECORD_TAGS: [u16; 11] =
    [0x5A, 0x5F24, 0x5F25, 0x9F08, 0x8C, 0x8D, 0x9F0D, 0x9F0E, 0x9F0F, 0x8E, 0x9F42];
/// So many of them are those of 01; the others came with 02, R-7.
const FORMER_TAGS: usize = 9;
const MANDATORY: [u16; 4] = [0x5A, 0x5F24, 0x8C, 0x8D];

/// What the records have given so far.
#[derive(Clone, Debug)]
pub struct CardData {
    values: [Option<Vec<u8>>; RECORD_TAGS.len()],
    /// Those of the tags that are named in this session.
    named: &'static [u16],
}

impl CardData {
    /// Nothing yet. Without verification 8E and 9F42 are objects like any
    /// other that no place names (02, R-7).
    pub fn new(with_verification: bool) -> CardData {
        let named = if with_verification { &RECORD_TAGS[..] } else { &RECORD_TAGS[..FORMER_TAGS] };
        CardData { values: Default::default(), named }
    }

    pub fn get(&self, tag: u16) -> Option<&[u8]> {
        let at = RECORD_TAGS.iter().position(|&t| t == tag)?;
        self.values[at].as_deref()
    }

    /// Takes one record in, or gives a reason from 1 to 5.
    pub fn take_record(&mut self, answer: &[u8]) -> Result<(), Reason> {
        let outer = only_object(answer, &[0x70])?;
        let direct = members(outer.value)?;
        let mut found = [None; RECORD_TAGS.len()];
        for (at, &tag) in self.named.iter().enumerate() {
            found[at] = find(&direct, tag)?;
            // The whole session is one place: an earlier record counts too.
            if found[at].is_some() && self.values[at].is_some() {
                return Err(TWICE);
            }
        }
        for (at, &tag) in self.named.iter().enumerate() {
            check(found[at], |v| record_object_good(tag, v))?;
        }
        for (at, value) in found.into_iter().enumerate() {
            if let Some(value) = value {
                self.values[at] = Some(value.to_vec());
            }
        }
        Ok(())
    }

    /// Judged after the last record only.
    pub fn is_complete(&self) -> bool {
        MANDATORY.iter().all(|&tag| self.get(tag).is_some())
    }
}

fn record_object_good(tag: u16, value: &[u8]) -> bool {
    match tag {
        0x5A => is_account(value),
        0x5F24 | 0x5F25 => is_date(value),
        0x9F08 => value.len() == 2,
        0x8C | 0x8D => value.len() <= MOST_ASKED,
        0x8E => is_verification_list(value),
        0x9F42 => value.len() == 2,
        _ => value.len() == 5,
    }
}

/// An account number: some decimal digits, padded with 'F' to whole bytes,
/// ten of them at most.
fn is_account(value: &[u8]) -> bool {
    if value.is_empty() || value.len() > 10 {
        return false;
    }
    let halves: Vec<u8> = value.iter().flat_map(|b| [b >> 4, b & 0x0F]).collect();
    let digits = halves.iter().take_while(|&&h| h <= 9).count();
    digits > 0 && halves[digits..].iter().all(|&h| h == 0x0F)
}

/// The answer to GENERATE AC: the byte of 9F27, or a reason from 1 to 8.
pub fn read_cryptogram(answer: &[u8]) -> Result<u8, Reason> {
    let outer = only_object(answer, &[0x77, 0x80])?;
    if outer.tag == 0x80 {
        check(Some(outer.value), |v| (11..=43).contains(&v.len()))?;
        return Ok(outer.value[0]);
    }
    let direct = members(outer.value)?;
    let information = find(&direct, 0x9F27)?;
    let counter = find(&direct, 0x9F36)?;
    let cryptogram = find(&direct, 0x9F26)?;
    let issuer = find(&direct, 0x9F10)?;
    check(information, |v| v.len() == 1)?;
    check(counter, |v| v.len() == 2)?;
    check(cryptogram, |v| v.len() == 8)?;
    check(issuer, |v| v.len() <= 32)?;
    match (information, counter, cryptogram) {
        (Some(&[information]), Some(_), Some(_)) => Ok(information),
        _ => Err(MISSING),
    }
}

#[cfg(test)]
mod tests;
