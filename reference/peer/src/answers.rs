//! Card answers, each gone through once (01, "What the card must answer"). Of
//! all reasons that apply the lowest one counts.

use crate::known::{index, Known, ACCOUNT, CURRENCY, EFFECTIVE, EXPIRY, METHODS, VERSION};
use crate::known::{FIRST_LIST, SECOND_LIST};
use crate::objects::{is_good, members, only, Seen};
use crate::start::is_date;

/// Why a session ends.
#[derive(Clone, Copy, Debug, PartialEq, Eq)]
pub struct Reason(pub u8);

const SIZE: Reason = Reason(1);
const STATUS: Reason = Reason(2);
const STRUCTURE: Reason = Reason(3);
const TWICE: Reason = Reason(4);
const CONTENT: Reason = Reason(5);
const BAD_AFL: Reason = Reason(6);
const TOO_MANY_RECORDS: Reason = Reason(7);
pub const MISSING: Reason = Reason(8);
pub const BAD_LIST: Reason = Reason(9);
pub const NOT_ALLOWED: Reason = Reason(10);

/// 02, R-8.
const MOST_RECORDS: usize = 500;
const LONGEST_LIST: usize = 252;

/// Reasons 1 to 3 as far as the outer object goes: its tag and value.
#[inline(always)]
fn outer(answer: &[u8]) -> Result<(u16, &[u8]), Reason> {
    match answer {
        [data @ .., 0x90, 0x00] if answer.len() <= 258 => only(data).ok_or(STRUCTURE),
        [_, _, ..] if answer.len() <= 258 => Err(STATUS),
        _ => Err(SIZE),
    }
}

fn check(good: bool, reason: Reason) -> Result<(), Reason> {
    if good {
        Ok(())
    } else {
        Err(reason)
    }
}

/// Whether an object is absent or good.
#[inline(always)]
fn fits(object: Seen, good: impl Fn(&[u8]) -> bool) -> bool {
    object.value.is_none_or(good)
}

/// SELECT: 9F38, empty where it is absent.
pub fn selected<'a>(answer: &'a [u8], aid: &[u8]) -> Result<&'a [u8], Reason> {
    let (tag, value) = outer(answer)?;
    let [mut name, mut inner, mut list] = [Seen::default(); 3];
    let is_list = tag == 0x6F
        && members(value, |tag, value| match tag {
            0x84 => name.see(value),
            0xA5 => {
                inner.see(value);
                members(value, |tag, value| match tag {
                    0x9F38 => list.see(value),
                    _ => is_good(tag, value),
                })
            }
            _ => is_good(tag, value),
        });
    check(is_list, STRUCTURE)?;
    check(!name.twice && !inner.twice && !list.twice, TWICE)?;
    let is_named = fits(name, |v| (5..=16).contains(&v.len()) && v.starts_with(aid));
    check(is_named && fits(list, |v| v.len() <= LONGEST_LIST), CONTENT)?;
    check(name.value.is_some() && inner.value.is_some(), MISSING)?;
    Ok(list.value.unwrap_or_default())
}

/// GPO: the profile and the AFL, whose entries are good and not too many.
pub fn options(answer: &[u8]) -> Result<([u8; 2], &[[u8; 4]]), Reason> {
    let (tag, value) = outer(answer)?;
    let [mut profile, mut locator] = [Seen::default(); 2];
    if tag == 0x80 {
        let (both, rest) = value.split_at_checked(2).ok_or(CONTENT)?;
        profile.see(both);
        locator.see(rest);
    } else {
        let is_list = tag == 0x77
            && members(value, |tag, value| match tag {
                0x82 => profile.see(value),
                0x94 => locator.see(value),
                _ => is_good(tag, value),
            });
        check(is_list, STRUCTURE)?;
        check(!profile.twice && !locator.twice, TWICE)?;
    }
    let whole = |v: &[u8]| !v.is_empty() && v.len().is_multiple_of(4);
    check(fits(profile, |v| v.len() == 2) && fits(locator, whole), CONTENT)?;
    let (entries, _) = locator.value.unwrap_or_default().as_chunks();
    check(entries.iter().all(is_entry), BAD_AFL)?;
    check(entries.iter().map(records_of).sum::<usize>() <= MOST_RECORDS, TOO_MANY_RECORDS)?;
    match (profile.value, locator.value) {
        (Some(&[a, b]), Some(_)) => Ok(([a, b], entries)),
        _ => Err(MISSING),
    }
}

#[inline(always)]
fn is_entry(&[file, first, last, signed]: &[u8; 4]) -> bool {
    file & 7 == 0
        && (8..=80).contains(&file)
        && first >= 1
        && last >= first
        && u16::from(signed) <= u16::from(last - first) + 1
}

#[inline(always)]
fn records_of(&[_, first, last, _]: &[u8; 4]) -> usize {
    usize::from(last - first) + 1
}

/// A record: what it names joins what is known. With a reason that is of no
/// use any more.
#[inline(always)]
pub fn record<'a>(answer: &'a [u8], known: &mut Known<'a>) -> Result<(), Reason> {
    let (tag, value) = outer(answer)?;
    let (names, values) = (known.names, &mut known.values);
    let (mut once, mut right) = (true, true);
    let is_list = tag == 0x70
        && members(value, |tag, value| {
            let at = index(tag);
            if at >= names {
                return is_good(tag, value);
            }
            once &= values[at].is_none();
            right &= is_right(at, value);
            values[at] = Some(value);
            true
        });
    check(is_list, STRUCTURE)?;
    check(once, TWICE)?;
    check(right, CONTENT)
}

/// Whether a named object of the records has a right value.
#[inline(always)]
fn is_right(at: usize, value: &[u8]) -> bool {
    match at {
        ACCOUNT => is_account(value),
        EXPIRY | EFFECTIVE => is_date(value),
        VERSION | CURRENCY => value.len() == 2,
        FIRST_LIST | SECOND_LIST => value.len() <= LONGEST_LIST,
        METHODS => value.len() >= 8 && value.len().is_multiple_of(2),
        _ => value.len() == 5,
    }
}

/// Digits, at least one, then only 'F', in ten bytes at most.
fn is_account(value: &[u8]) -> bool {
    if value.is_empty() || value.len() > 10 || value[0] >> 4 > 9 {
        return false;
    }
    let (mut padded, mut good) = (false, true);
    for half in value.iter().flat_map(|byte| [byte >> 4, byte & 15]) {
        padded |= half == 15;
        good &= half == 15 || (half <= 9 && !padded);
    }
    good
}

/// GENERATE AC: the byte of 9F27.
pub fn cryptogram(answer: &[u8]) -> Result<u8, Reason> {
    let (tag, value) = outer(answer)?;
    if tag == 0x80 {
        check((11..=43).contains(&value.len()), CONTENT)?;
        return Ok(value[0]);
    }
    let mut seen = [Seen::default(); 4];
    let is_list = tag == 0x77
        && members(value, |tag, value| match tag {
            0x9F27 => seen[0].see(value),
            0x9F36 => seen[1].see(value),
            0x9F26 => seen[2].see(value),
            0x9F10 => seen[3].see(value),
            _ => is_good(tag, value),
        });
    check(is_list, STRUCTURE)?;
    check(!seen.iter().any(|object| object.twice), TWICE)?;
    let [information, counter, cryptogram, issuer] = seen;
    let sized = fits(information, |v| v.len() == 1)
        && fits(counter, |v| v.len() == 2)
        && fits(cryptogram, |v| v.len() == 8)
        && fits(issuer, |v| v.len() <= 32);
    check(sized, CONTENT)?;
    match (information.value, counter.value, cryptogram.value) {
        (Some(&[information]), Some(_), Some(_)) => Ok(information),
        _ => Err(MISSING),
    }
}
