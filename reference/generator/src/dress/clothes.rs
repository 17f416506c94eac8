//! Dressing one answer: what is seen of it stays, all else may change (02,
//!

use super::answer::{Answer, Asked};
use super::pieces::{List, Path, Piece, Value};
use super::values::right_value;
use crate::random::Random;
use rules::answers::LONGEST_ANSWER;
use rules::objects::is_constructed;

/// How much is put on.
#[derive(Clone, Copy, Debug, PartialEq, Eq)]
pub enum Zeal {
    /// Anything by chance.
    Chance,
    /// The other form where there is one, and some of everything that fits.
    Everything,
}

/// Tags that are named somewhere, or near to those that are, and such as are
/// legal though they look odd.
#[rustfmt::skip]
const TAGS: [u16; 44] = [
    0x6F, 0x84, 0xA5, 0x9F38, 0x77, 0x80, 0x82, 0x94, 0x70, 0x5A, 0x5F24, 0x5F25, 0x9F08, 0x8C,
    0x8D, 0x8E, 0x9F42, 0x9F0D, 0x9F0E, 0x9F0F, 0x9F27, 0x9F36, 0x9F26, 0x9F10, 0x8A, 0x95, 0x9B,
    0x50, 0x87, 0x88, 0x4F, 0x57, 0x61, 0x73, 0xBF0C, 0x9F00, 0x1F00, 0x3F00, 0xDF7F, 0xFF7F, 0x01,
    0x20, 0xC1, 0x5F20,
];

/// For a name that no place looks at.
const ANY_AID: [u8; 5] = [0xA0, 0x00, 0x00, 0x00, 0x03];

/// Any tag but those named.
fn any_tag(named: &[u16], r: &mut Random) -> u16 {
    loop {
        let tag = if r.chance(60) { *r.pick(&TAGS) } else { free_tag(r) };
        if !named.contains(&tag) {
            return tag;
        }
    }
}

/// Any tag there is by the rule of 01.
fn free_tag(r: &mut Random) -> u16 {
    let first = r.between(1, 0xFF) as u16;
    if first & 0x1F == 0x1F {
        first << 8 | r.below(0x80) as u16
    } else {
        first
    }
}

/// The objects without others inside that are named at some place.
#[rustfmt::skip]
const NAMED_SOMEWHERE: [u16; 19] = [
    0x84, 0x9F38, 0x82, 0x94, 0x5A, 0x5F24, 0x5F25, 0x9F08, 0x8C, 0x8D, 0x9F0D, 0x9F0E, 0x9F0F,
    0x8E, 0x9F42, 0x9F27, 0x9F36, 0x9F26, 0x9F10,
];

/// An object with a value that would be right at another place than one where
/// these are named: in 6F often that of A5, and in A5 that of 6F.
fn misplaced(named: &[u16], r: &mut Random) -> Piece {
    let elsewhere: Vec<u16> =
        NAMED_SOMEWHERE.into_iter().filter(|tag| !named.contains(tag)).collect();
    let near = match named {
        [0x84, ..] => Some(0x9F38),
        [0x9F38] => Some(0x84),
        _ => None,
    };
    let tag = near.filter(|_| r.chance(50)).unwrap_or(*r.pick(&elsewhere));
    Piece::new(tag, Value::Bytes(right_value(tag, &ANY_AID, r)))
}

/// An object of any tag but those named; what is in it may have any.
fn any_piece(named: &[u16], depth: usize, r: &mut Random) -> Piece {
    if r.chance(25) {
        return misplaced(named, r);
    }
    let tag = any_tag(named, r);
    let value = if is_constructed(tag) {
        let count = if depth == 0 { 0 } else { *r.pick(&[0, 1, 1, 2, 3]) };
        let pieces = (0..count).map(|_| any_piece(&[], depth - 1, r)).collect();
        let zeros = if r.chance(25) { r.between(1, 3) } else { 0 };
        Value::List(List { pieces, zeros })
    } else {
        let size = *r.pick(&[0, 1, 1, 2, 2, 3, 5, 8, 17]);
        Value::Bytes(r.bytes(size))
    };
    let mut piece = Piece::new(tag, value);
    piece.length_size = *r.pick(&[1, 1, 1, 2, 3]);
    piece.zeros = *r.pick(&[0, 0, 0, 1, 2]);
    piece
}

/// A change that is not seen. It may make the answer too long.
type Change = fn(&mut Answer, &mut Random);

/// '00' bytes before, between, inside or behind the objects.
fn add_zeros(answer: &mut Answer, r: &mut Random) {
    let count = *r.pick(&[1, 1, 1, 2, 3, 9]);
    put_zeros(answer, count, r);
}

/// So many '00' bytes, all at one place, that the answer is as long as may be.
fn fill_up(answer: &mut Answer, r: &mut Random) {
    let missing = LONGEST_ANSWER.saturating_sub(answer.bytes().len());
    put_zeros(answer, missing, r);
}

fn put_zeros(answer: &mut Answer, count: usize, r: &mut Random) {
    let path = r.pick(&answer.data.paths()).clone();
    if let Some(list) = answer.data.at_mut(&path) {
        let gap = r.below(list.pieces.len() + 1);
        list.add_zeros(gap, count);
    }
}

/// A length with '81' or '82', of any object at any depth.
fn lengthen(answer: &mut Answer, r: &mut Random) {
    let filled = |path: &Path| answer.data.at(path).is_some_and(|l| !l.pieces.is_empty());
    let paths: Vec<Path> = answer.data.paths().into_iter().filter(filled).collect();
    let path = r.pick(&paths).clone();
    if let Some(list) = answer.data.at_mut(&path) {
        let at = r.below(list.pieces.len());
        list.pieces[at].length_size = *r.pick(&[2, 3]);
    }
}

/// The same for the outer object.
fn lengthen_outer(answer: &mut Answer, r: &mut Random) {
    answer.data.pieces[0].length_size = *r.pick(&[2, 3]);
}

/// Puts an ignored object in, perhaps twice or a copy of one that is there.
fn add_ignored(answer: &mut Answer, r: &mut Random) {
    let places = answer.places();
    if places.is_empty() {
        return;
    }
    let (path, named) = r.pick(&places).clone();
    let Some(list) = answer.data.at_mut(&path) else { return };
    let ignored: Vec<Piece> =
        list.pieces.iter().filter(|piece| !named.contains(&piece.tag)).cloned().collect();
    let piece = if !ignored.is_empty() && r.chance(20) {
        r.pick(&ignored).clone()
    } else {
        any_piece(named, 2, r)
    };
    for _ in 0..*r.pick(&[1, 1, 1, 2]) {
        let at = r.below(list.pieces.len() + 1);
        list.pieces.insert(at, piece.clone());
    }
}

/// Takes an ignored object out, or '00' bytes, or a long length.
fn undress(answer: &mut Answer, r: &mut Random) {
    let places = answer.places();
    if places.is_empty() {
        return;
    }
    let (path, named) = r.pick(&places).clone();
    let Some(list) = answer.data.at_mut(&path) else { return };
    let at = r.below(list.pieces.len());
    match list.pieces.get_mut(at) {
        Some(piece) if named.contains(&piece.tag) => (piece.zeros, piece.length_size) = (0, 1),
        Some(_) => drop(list.pieces.remove(at)),
        None => list.zeros = 0,
    }
}

/// Makes the change if the answer stays short enough.
fn apply(answer: &mut Answer, change: Change, r: &mut Random) -> bool {
    let mut next = answer.clone();
    change(&mut next, r);
    let fits = next.fits() && next != *answer;
    if fits {
        *answer = next;
    }
    fits
}

/// Some of each, tried a few times where there is little room.
fn put_everything_on(answer: &mut Answer, r: &mut Random) {
    for change in [add_ignored, add_zeros, lengthen_outer, lengthen, add_zeros, lengthen] {
        let _ = (0..10).any(|_| apply(answer, change, r));
    }
}

/// The answer dressed, with the same to be seen of it. One whose data field is
/// not a list of one object is left as it is.
pub fn dressed(asked: Asked, bytes: &[u8], zeal: Zeal, r: &mut Random) -> Vec<u8> {
    const CHANGES: [Change; 9] = [
        add_zeros,
        add_zeros,
        lengthen,
        lengthen,
        lengthen_outer,
        add_ignored,
        add_ignored,
        add_ignored,
        undress,
    ];
    let Some(mut answer) = Answer::read(asked, bytes) else { return bytes.to_vec() };
    if let Some(other) = answer.in_other_form() {
        if other.fits() && (zeal == Zeal::Everything || r.chance(50)) {
            answer = other;
        }
    }
    match zeal {
        Zeal::Everything => put_everything_on(&mut answer, r),
        Zeal::Chance => {
            for _ in 0..r.between(1, 14) {
                apply(&mut answer, *r.pick(&CHANGES), r);
            }
            if r.chance(5) {
                apply(&mut answer, fill_up, r);
            }
        }
    }
    answer.bytes()
}

#[cfg(test)]
mod tests;
