//! Object lists: totalled, filled and counted in one pass (01, "The commands").

use crate::known::Known;
use crate::objects::tag;

const MOST_ASKED: usize = 252;
/// The longest command.
pub const LONGEST: usize = 261;

/// The value brought to the length of its place.
#[inline(always)]
fn fit(tag: u16, value: &[u8], place: &mut [u8]) {
    let kept = value.len().min(place.len());
    let missing = place.len() - kept;
    match tag {
        0x9F02 | 0x9F03 | 0x9F1A | 0x5F2A | 0x9A | 0x9C | 0x5F24 | 0x5F25 => {
            place[..missing].fill(0);
            place[missing..].copy_from_slice(&value[value.len() - kept..]);
        }
        _ => {
            place[..kept].copy_from_slice(&value[..kept]);
            place[kept..].fill(if tag == 0x5A { 0xFF } else { 0x00 });
        }
    }
}

/// Fills the list into the buffer from a place on: how many bytes, and how many
/// entries had no value (02, R-6). Nothing where 01 has reason 9.
pub fn fill(
    mut list: &[u8],
    known: &Known,
    buffer: &mut [u8; LONGEST],
    from: usize,
) -> Option<(usize, usize)> {
    let (mut total, mut unsupplied) = (0, 0);
    while !list.is_empty() {
        let (tag, rest) = tag(list)?;
        let (&length, rest) = rest.split_first()?;
        let at = from + total;
        total += usize::from(length);
        if total > MOST_ASKED {
            return None;
        }
        let place = buffer.get_mut(at..at + usize::from(length))?;
        match known.value(tag) {
            Some(value) => fit(tag, value, place),
            None => {
                place.fill(0);
                unsupplied += 1;
            }
        }
        list = rest;
    }
    Some((total, unsupplied))
}
