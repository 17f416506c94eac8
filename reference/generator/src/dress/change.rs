//! Changing what is seen: one named object of an answer gets another value,
//! right or wrong, or is left out.

use super::answer::{Answer, Asked};
use super::pieces::{List, Path, Piece, Value};
use super::values::{right_value, wrong_value};
use crate::random::Random;

/// What is done to the object.
#[derive(Clone, Copy, Debug, PartialEq, Eq)]
enum Way {
    /// Another value that 01 takes.
    Right,
    Wrong,
    Missing,
}

/// The named objects of the open form: the list each is in, and its index.
fn named_objects(answer: &Answer) -> Vec<(Path, usize)> {
    let mut all = Vec::new();
    for (path, named) in answer.places() {
        let pieces = answer.data.at(&path).map(|list| &list.pieces[..]).unwrap_or_default();
        let here = pieces.iter().enumerate().filter(|(_, piece)| named.contains(&piece.tag));
        all.extend(here.map(|(index, _)| (path.clone(), index)));
    }
    all
}

/// Changes an object of the open form; false if it has no such change.
fn change_open(answer: &mut Answer, aid: &[u8], way: Way, r: &mut Random) -> bool {
    let objects = named_objects(answer);
    if objects.is_empty() {
        return false;
    }
    let (path, index) = r.pick(&objects).clone();
    let Some(list) = answer.data.at_mut(&path) else { return false };
    let piece = &mut list.pieces[index];
    match (way, &mut piece.value) {
        (Way::Missing, _) => drop(list.pieces.remove(index)),
        (Way::Right, Value::Bytes(bytes)) => *bytes = right_value(piece.tag, aid, r),
        (Way::Wrong, Value::Bytes(bytes)) => *bytes = wrong_value(piece.tag, bytes, r),
        // A5 is good whatever is in it, and 61 is for what is in it.
        (_, Value::List(_)) => return false,
    }
    true
}

/// Changes an object of the joined form to another right value. An object that
/// is wrong or missing can be told in the open form alone.
fn change_joined(answer: &mut Answer, r: &mut Random) {
    let mut parts = answer.parts().unwrap_or_default();
    let at = r.below(parts.len());
    if let Some((tag, value)) = parts.get_mut(at) {
        *value = right_value(*tag, &[], r);
    }
    let joined = parts.into_iter().flat_map(|(_, value)| value).collect();
    answer.data.pieces[0].value = Value::Bytes(joined);
}

/// The answer with one named object changed, or nothing if chance found no
/// such change.
fn try_change(asked: Asked, bytes: &[u8], aid: &[u8], r: &mut Random) -> Option<Vec<u8>> {
    let before = Answer::read(asked, bytes)?;
    let mut answer = before.clone();
    let way = *r.pick(&[Way::Right, Way::Right, Way::Wrong, Way::Missing]);
    match (before.parts(), way) {
        (Some(_), Way::Right) => change_joined(&mut answer, r),
        (parts, _) => {
            if let Some(parts) = parts {
                let open =
                    parts.into_iter().map(|(tag, value)| Piece::new(tag, Value::Bytes(value)));
                let list = List { pieces: open.collect(), zeros: 0 };
                answer.data.pieces[0] = Piece::new(0x77, Value::List(list));
            }
            if !change_open(&mut answer, aid, way, r) {
                return None;
            }
        }
    }
    (answer.fits() && answer.seen() != before.seen()).then(|| answer.bytes())
}

/// The answer with one named object changed, within 258 bytes, or nothing if
/// it has none.
pub fn changed(asked: Asked, bytes: &[u8], aid: &[u8], r: &mut Random) -> Option<Vec<u8>> {
    (0..50).find_map(|_| try_change(asked, bytes, aid, r))
}

#[cfg(test)]
mod tests {
    use super::*;
    use rules::hex;
    use std::collections::BTreeSet;

    const AID: [u8; 5] = [0xA0, 0, 0, 0, 3];
    const RECORD: Asked = Asked::Record { with_verification: true };

    const ANSWERS: [(Asked, &str); 6] = [
        (Asked::Select, "6F0F8405A000000003A5069F38039F33039000"),
        (Asked::Options, "80060800080101009000"),
        (Asked::Options, "770A820208009404080101009000"),
        (RECORD, "701F5A0112005F24032612318C0195008D008E0800000000000000009F420209789000"),
        (Asked::Cryptogram, "800C400001112233445566778807 9000"),
        (Asked::Cryptogram, "77149F2701409F360200019F260811223344556677889000"),
    ];

    /// One object has another value or is not there; all others stay.
    #[test]
    fn one_object_changes() {
        let mut seen = BTreeSet::new();
        for (number, (asked, text)) in ANSWERS.into_iter().enumerate() {
            let bytes = hex::bytes(&text.replace(' ', "")).unwrap();
            let before = Answer::read(asked, &bytes).unwrap().seen();
            for index in 0..300 {
                let after = changed(asked, &bytes, &AID, &mut Random::nth(5, index)).unwrap();
                assert!(after.len() <= 258);
                let after = Answer::read(asked, &after).unwrap().seen();
                // With A5 all that is in it goes.
                let without = before.iter().filter(|object| !after.contains(object));
                let gone: Vec<u16> = without.map(|object| object.1).collect();
                let new = after.iter().filter(|object| !before.contains(object)).count();
                assert!(gone.len() == 1 || gone == [0xA5, 0x9F38], "{gone:X?}");
                assert!(new <= 1 && after.len() + gone.len() == before.len() + new);
                seen.insert((number, gone[0], new));
            }
        }
        // 3, 2, 2, 6, 4 and 3 objects, all but A5 with another value too.
        assert_eq!(seen.len(), 2 * 20 - 1, "{seen:X?}");
    }
}
