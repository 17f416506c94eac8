//! A card answer as it is dressed: which objects are named where in it, what
//! is seen of it, and its other form (02, R-13; 01, "What the card must
//! answer").

use super::pieces::{List, Path, Piece, Value};
use rules::answers::LONGEST_ANSWER;
use rules::choosing::Stage;

/// The command that was answered.
#[derive(Clone, Copy, Debug, PartialEq, Eq)]
pub enum Asked {
    Select,
    Options,
    /// Whether 8E and 9F42 are named depends on START (02, R-7).
    Record {
        with_verification: bool,
    },
    Cryptogram,
    /// While the application is chosen (02, R-12): the payment directory, one
    /// of its records, an application.
    Pse,
    Directory,
    Application,
}

/// The two outer objects of answers that have two forms.
const OPEN: u16 = 0x77;
const JOINED: u16 = 0x80;
/// The named objects that hold others: in an FCI, in a directory.
const PROPRIETARY: u16 = 0xA5;
const ENTRY: u16 = 0x61;

#[rustfmt::skip]
const RECORD: [u16; 11] = [
    0x5A, 0x5F24, 0x5F25, 0x9F08, 0x8C, 0x8D, 0x9F0D, 0x9F0E, 0x9F0F,
    // With Terminal Capabilities only.
    0x8E, 0x9F42,
];

impl Asked {
    /// Nothing for a command that the kernel never gives. The stage is that
    /// of a selection.
    pub fn of(stage: Option<Stage>, command: &[u8], with_verification: bool) -> Option<Asked> {
        match stage {
            Some(Stage::Pse) => return Some(Asked::Pse),
            Some(Stage::Directory) => return Some(Asked::Directory),
            Some(_) => return Some(Asked::Application),
            None => (),
        }
        match command.get(1)? {
            0xA4 => Some(Asked::Select),
            0xA8 => Some(Asked::Options),
            0xB2 => Some(Asked::Record { with_verification }),
            0xAE => Some(Asked::Cryptogram),
            _ => None,
        }
    }

    /// The objects that are named directly in the outer one.
    fn named(self) -> &'static [u16] {
        match self {
            Asked::Select | Asked::Pse | Asked::Application => &[0x84, PROPRIETARY],
            Asked::Directory => &[ENTRY],
            Asked::Options => &[0x82, 0x94],
            Asked::Record { with_verification: true } => &RECORD,
            Asked::Record { with_verification: false } => &RECORD[..9],
            Asked::Cryptogram => &[0x9F27, 0x9F36, 0x9F26, 0x9F10],
        }
    }

    /// The named object that holds others, and those that are named in it.
    fn inner(self) -> Option<(u16, &'static [u16])> {
        match self {
            Asked::Select => Some((PROPRIETARY, &[0x9F38])),
            Asked::Pse => Some((PROPRIETARY, &[0x88])),
            Asked::Application => Some((PROPRIETARY, &[0x87, 0x9F38])),
            Asked::Directory => Some((ENTRY, &[0x4F, 0x87, 0x9D])),
            _ => None,
        }
    }

    /// The objects that are joined under tag 80, each with its size; the last
    /// has all that is left.
    fn joined(self) -> &'static [(u16, usize)] {
        match self {
            Asked::Options => &[(0x82, 2), (0x94, usize::MAX)],
            Asked::Cryptogram => &[(0x9F27, 1), (0x9F36, 2), (0x9F26, 8), (0x9F10, usize::MAX)],
            _ => &[],
        }
    }
}

/// A named object: how deep its place lies, its tag and its value. A5 and 61
/// count for what is in them, and have none.
pub type Seen = (usize, u16, Vec<u8>);

/// An answer whose data field is a list with one object.
#[derive(Clone, Debug, PartialEq, Eq)]
pub struct Answer {
    pub asked: Asked,
    pub data: List,
    status: [u8; 2],
}

impl Answer {
    /// Nothing where the data field is no list or has not one object.
    pub fn read(asked: Asked, bytes: &[u8]) -> Option<Answer> {
        let (data, status) = bytes.split_last_chunk::<2>()?;
        let data = List::read(data)?;
        (data.pieces.len() == 1).then_some(Answer { asked, data, status: *status })
    }

    pub fn bytes(&self) -> Vec<u8> {
        [self.data.bytes(), self.status.to_vec()].concat()
    }

    pub fn fits(&self) -> bool {
        self.data.bytes().len() + self.status.len() <= LONGEST_ANSWER
    }

    fn outer(&self) -> &Piece {
        &self.data.pieces[0]
    }

    /// The lists whose members count, and the tags that are named in each.
    pub fn places(&self) -> Vec<(Path, &'static [u16])> {
        let Value::List(members) = &self.outer().value else { return Vec::new() };
        let mut all = vec![(vec![0], self.asked.named())];
        if let Some((holder, named)) = self.asked.inner() {
            let inner = members.pieces.iter().enumerate().filter(|(_, p)| p.tag == holder);
            all.extend(inner.map(|(index, _)| (vec![0, index], named)));
        }
        all
    }

    /// The objects of the joined form, one by one.
    pub fn parts(&self) -> Option<Vec<(u16, Vec<u8>)>> {
        let Value::Bytes(joined) = &self.outer().value else { return None };
        let mut rest = &joined[..];
        let mut all = Vec::new();
        for &(tag, size) in self.asked.joined() {
            let (part, behind) = rest.split_at_checked(size.min(rest.len()))?;
            rest = behind;
            if !part.is_empty() {
                all.push((tag, part.to_vec()));
            }
        }
        Some(all)
    }

    /// The named objects in their order, place by place.
    pub fn seen(&self) -> Vec<Seen> {
        if let Some(parts) = self.parts() {
            return parts.into_iter().map(|(tag, value)| (0, tag, value)).collect();
        }
        let mut all = Vec::new();
        for (path, named) in self.places() {
            let Some(list) = self.data.at(&path) else { continue };
            for piece in list.pieces.iter().filter(|piece| named.contains(&piece.tag)) {
                let value = match &piece.value {
                    Value::Bytes(bytes) => bytes.clone(),
                    Value::List(_) => Vec::new(),
                };
                all.push((path.len() - 1, piece.tag, value));
            }
        }
        all
    }

    /// The other form of the answer, with all that is seen and nothing else.
    /// The joined form has its objects in one order, and an empty one is not
    /// seen in it: an answer that has them otherwise has one form only.
    pub fn in_other_form(&self) -> Option<Answer> {
        let seen = self.seen();
        let outer = match self.outer().tag {
            JOINED => {
                let piece = |(_, tag, value)| Piece::new(tag, Value::Bytes(value));
                let pieces = seen.iter().cloned().map(piece).collect();
                Piece::new(OPEN, Value::List(List { pieces, zeros: 0 }))
            }
            OPEN => {
                Piece::new(JOINED, Value::Bytes(seen.iter().flat_map(|s| s.2.clone()).collect()))
            }
            _ => return None,
        };
        let data = List { pieces: vec![outer], zeros: 0 };
        let other = Answer { data, ..self.clone() };
        (other.seen() == seen).then_some(other)
    }
}

#[cfg(test)]
mod tests {
    use super::*;
    use rules::hex;

    fn answer(asked: Asked, text: &str) -> Answer {
        Answer::read(asked, &hex::bytes(&text.replace(' ', "")).unwrap()).unwrap()
    }

    fn seen(asked: Asked, text: &str) -> String {
        let one = |(depth, tag, value): Seen| format!("{depth}:{tag:X}:{}", hex::text(&value));
        answer(asked, text).seen().into_iter().map(one).collect::<Vec<_>>().join(" ")
    }

    #[test]
    fn what_is_seen() {
        let select = "6F811E 00 5000 A50D 9F38029C01 00 7303840101 8400 \
                      9F380177 00 8405A000000003 00 9000";
        assert_eq!(seen(Asked::Select, select), "0:A5: 0:84:A000000003 1:9F38:9C01");
        let record = "700D 5A0112 8E00 73035A0134 9F4200 9000";
        let both = [true, false]
            .map(|with_verification| seen(Asked::Record { with_verification }, record));
        assert_eq!(both, ["0:5A:12 0:8E: 0:9F42:", "0:5A:12"]);
        assert_eq!(seen(Asked::Options, "80060800 08010100 9000"), "0:82:0800 0:94:08010100");
        assert_eq!(seen(Asked::Options, "7707 9F3600 82020800 9000"), "0:82:0800");
    }

    #[test]
    fn other_forms() {
        let other = |asked, text: &str| {
            answer(asked, text).in_other_form().map(|other| hex::text(&other.bytes()))
        };
        let joined = "80060800080101009000";
        let open = "770A8202080094040801010 09000".replace(' ', "");
        assert_eq!(other(Asked::Options, joined), Some(open.clone()));
        assert_eq!(other(Asked::Options, &open), Some(joined.to_string()));
        // Dressed, the same form comes of it; in another order, none.
        let dressed = "0077 10 00 8281020800 8000 940408010100 00 00 9000";
        assert_eq!(other(Asked::Options, dressed), Some(joined.to_string()));
        assert_eq!(other(Asked::Options, "770A 940408010100 82020800 9000"), None);
        assert_eq!(other(Asked::Select, "6F098405A000000003A5009000"), None);
        assert_eq!(other(Asked::Record { with_verification: true }, "70009000"), None);
    }

    #[test]
    fn other_forms_of_cryptograms() {
        let other = |text: &str| {
            let other = answer(Asked::Cryptogram, text).in_other_form();
            other.map(|other| hex::text(&other.bytes()))
        };
        let head = "9F270140 9F36020001 9F26081122334455667788".replace(' ', "");
        let joined = "4000011122334455667788";
        assert_eq!(other(&format!("800B{joined}9000")), Some(format!("7714{head}9000")));
        assert_eq!(other(&format!("7714{head}9000")), Some(format!("800B{joined}9000")));
        let longer = format!("7718{head}9F1001079000");
        assert_eq!(other(&format!("800C{joined}079000")), Some(longer.clone()));
        assert_eq!(other(&longer), Some(format!("800C{joined}079000")));
        // Joined, nobody sees an empty object.
        assert_eq!(other(&format!("7717{head}9F10009000")), None);
    }
}
