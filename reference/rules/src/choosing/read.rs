//! What is read of the data of an answer in a selection, whatever its status.
//! Nothing where 001 speaks of an error: by 01's faults, not the one expected
//! object, a named object twice at its place, its length or content wrong, a
//! mandatory one missing. Labels are not looked at (001, 12.2.4).

use super::PSE;
use crate::answers::{find, members, only_in};
use crate::objects::Object;
use crate::terminal::NAME_SIZES;

/// 87: the shopper must confirm; the priority, 0 for none (001, Table 13).
const CONFIRMATION: u8 = 0x80;
const PRIORITY: u8 = 0x0F;

/// A directory's file (001, 12.2.3).
const FILES: std::ops::RangeInclusive<u8> = 1..=10;

/// One application that was met: the name that selects it, and 87.
#[derive(Clone, Debug, PartialEq, Eq)]
pub struct Candidate {
    pub name: Vec<u8>,
    pub indicator: Option<u8>,
}

impl Candidate {
    pub fn wants_confirmation(&self) -> bool {
        self.indicator.is_some_and(|indicator| indicator & CONFIRMATION != 0)
    }

    /// Its place among others: by priority, those without one last.
    pub fn rank(&self) -> u8 {
        match self.indicator.unwrap_or_default() & PRIORITY {
            0 => PRIORITY + 1,
            priority => priority,
        }
    }
}

/// What the FCI of an application says.
#[derive(Clone, Debug, PartialEq, Eq)]
pub struct Application {
    pub found: Candidate,
    /// 9F38, empty where it is absent.
    pub list: Vec<u8>,
}

/// An object that may be there once.
fn at_most_one<'a>(members: &[Object<'a>], tag: u16) -> Option<Option<&'a [u8]>> {
    find(members, tag).ok()
}

fn exactly_one<'a>(members: &[Object<'a>], tag: u16) -> Option<&'a [u8]> {
    at_most_one(members, tag)?
}

/// A name, 84 or 4F, of a size that it can have.
fn name_in<'a>(members: &[Object<'a>], tag: u16) -> Option<&'a [u8]> {
    exactly_one(members, tag).filter(|name| NAME_SIZES.contains(&name.len()))
}

/// 87: absent, or of one byte.
fn indicator_in(members: &[Object]) -> Option<Option<u8>> {
    match at_most_one(members, 0x87)? {
        None => Some(None),
        Some(&[indicator]) => Some(Some(indicator)),
        Some(_) => None,
    }
}

/// The FCI in a data field: the name in 84, and what is in A5.
fn read_fci(data: &[u8]) -> Option<(&[u8], Vec<Object<'_>>)> {
    let direct = members(only_in(data, &[0x6F]).ok()?.value).ok()?;
    let inner = members(exactly_one(&direct, 0xA5)?).ok()?;
    Some((name_in(&direct, 0x84)?, inner))
}

/// The FCI of the PSE: the file of its directory (001, Table 8).
pub fn read_directory_file(data: &[u8]) -> Option<u8> {
    let (name, inner) = read_fci(data)?;
    match exactly_one(&inner, 0x88)? {
        &[file] if FILES.contains(&file) && name.starts_with(PSE) => Some(file),
        _ => None,
    }
}

/// The FCI of an application (001, 11.3.4).
pub fn read_application(data: &[u8]) -> Option<Application> {
    let (name, inner) = read_fci(data)?;
    let found = Candidate { name: name.to_vec(), indicator: indicator_in(&inner)? };
    let list = at_most_one(&inner, 0x9F38)?.unwrap_or_default().to_vec();
    Some(Application { found, list })
}

/// A record of the directory: its entries for applications (001, Tables 11
/// and 12).
pub fn read_directory(data: &[u8]) -> Option<Vec<Candidate>> {
    let direct = members(only_in(data, &[0x70]).ok()?.value).ok()?;
    let entries = direct.iter().filter(|member| member.tag == 0x61);
    let read: Option<Vec<_>> = entries.map(|entry| read_entry(entry.value)).collect();
    Some(read?.into_iter().flatten().collect())
}

/// One entry. Without a name it is passed over where it is one for a DDF, which
/// 9D tells; else that is an error.
fn read_entry(value: &[u8]) -> Option<Option<Candidate>> {
    let inner = members(value).ok()?;
    let has = |tag| inner.iter().any(|member| member.tag == tag);
    if !has(0x4F) && has(0x9D) {
        return Some(None);
    }
    let name = name_in(&inner, 0x4F)?.to_vec();
    Some(Some(Candidate { name, indicator: indicator_in(&inner)? }))
}
