//! What is left of a damaged tape (02, R-9): every block that passes its check
//! and the tests of codes 6 to 9, wherever it stands and whatever number it
//! bears.

use crate::edition::Edition;
use crate::judge::judge_by;
use crate::tape::{check_holds, read_shape, word, BLOCK};
use std::fmt;

/// A block that is good by itself.
#[derive(Clone, Copy, Debug, PartialEq, Eq)]
pub struct Found {
    /// Its place, in steps of 512 bytes from the start.
    pub step: usize,
    /// The numbers it bears. They are told, not tested.
    pub number: u32,
    pub session: u32,
    pub kind: u8,
    /// The length of its payload.
    pub length: usize,
}

/// All that was found, and how many bytes lie behind the last whole block.
#[derive(Clone, Debug, PartialEq, Eq)]
pub struct Remains {
    pub blocks: Vec<Found>,
    pub tail: usize,
}

/// The block at one step, if it is good.
fn found(edition: Edition, step: usize, block: &[u8]) -> Option<Found> {
    if !check_holds(block) {
        return None;
    }
    let entry = read_shape(edition, block).ok()?;
    let (number, session) = (word(&block[0..4]), word(&block[4..8]));
    Some(Found { step, number, session, kind: entry.kind, length: entry.payload.len() })
}

/// The good blocks in tape order. There is no limit of length.
pub fn recover(bytes: &[u8]) -> Remains {
    recover_by(Edition::default(), bytes)
}

/// Which kinds there are depends on the edition.
pub fn recover_by(edition: Edition, bytes: &[u8]) -> Remains {
    let steps = bytes.chunks_exact(BLOCK);
    let tail = steps.remainder().len();
    let good = |(step, block)| found(edition, step, block);
    let blocks = steps.enumerate().filter_map(good).collect();
    Remains { blocks, tail }
}

/// The form in which vectors have it.
impl fmt::Display for Remains {
    fn fmt(&self, f: &mut fmt::Formatter) -> fmt::Result {
        let one = |b: &Found| {
            format!("[{}, {}, {}, {}, {}]", b.step, b.number, b.session, b.kind, b.length)
        };
        let all: Vec<String> = self.blocks.iter().map(one).collect();
        write!(f, "\"blocks\": [{}], \"tail\": {}", all.join(", "), self.tail)
    }
}

/// All that a vector says of some bytes: what is left, and the judge's line.
pub fn said_by(edition: Edition, bytes: &[u8]) -> String {
    format!("{}, \"judge\": \"{}\"", recover_by(edition, bytes), judge_by(edition, bytes))
}

#[cfg(test)]
mod tests {
    use super::*;
    use crate::tape::{seal, Entry, Writer, HOST, SILENCE, START};

    fn tape() -> Vec<u8> {
        let mut writer = Writer::new(0x0102_0304, 1 << 20);
        for (kind, payload) in [(START, &[7; 496][..]), (SILENCE, &[]), (HOST, &[1, 2])] {
            writer.add(Entry { kind, payload }).unwrap();
        }
        writer.into_bytes()
    }

    fn steps(bytes: &[u8]) -> Vec<usize> {
        recover(bytes).blocks.iter().map(|block| block.step).collect()
    }

    #[test]
    fn a_good_tape_is_all_there() {
        let remains = recover(&tape());
        assert_eq!(remains.tail, 0);
        let second = Found { step: 1, number: 1, session: 0x0102_0304, kind: 4, length: 0 };
        assert_eq!(remains.blocks[1], second);
        let text = "\"blocks\": [[0, 0, 16909060, 1, 496], [1, 1, 16909060, 4, 0], \
                    [2, 2, 16909060, 5, 2]], \"tail\": 0";
        assert_eq!(remains.to_string(), text);
        assert_eq!(recover(&[]), Remains { blocks: vec![], tail: 0 });
    }

    #[test]
    fn overwritten_blocks_are_left_out() {
        let mut bytes = tape();
        bytes[BLOCK + 100] ^= 1;
        assert_eq!(steps(&bytes), [0, 2]);
        bytes[..BLOCK].fill(0);
        assert_eq!(steps(&bytes), [2]);
        bytes[2 * BLOCK..].fill(0xFF);
        assert_eq!(steps(&bytes), []);
    }

    #[test]
    fn a_tail_is_told_by_its_length() {
        let mut bytes = tape();
        bytes.truncate(bytes.len() - 1);
        assert_eq!((steps(&bytes), recover(&bytes).tail), (vec![0, 1], 511));
        assert_eq!((steps(&bytes[..1025]), recover(&bytes[..1025]).tail), (vec![0, 1], 1));
        assert_eq!((steps(&bytes[1..]), recover(&bytes[1..]).tail), (vec![], 510));
        let long = vec![0; 2000 * BLOCK + 3];
        assert_eq!((steps(&long), recover(&long).tail), (vec![], 3));
    }

    /// Block 1 with one byte set and a good check: whether it is still listed.
    fn is_listed(at: usize, value: u8) -> bool {
        let mut bytes = tape();
        bytes[BLOCK + at] = value;
        seal(&mut bytes[BLOCK..2 * BLOCK]);
        steps(&bytes).contains(&1)
    }

    #[test]
    fn numbers_are_not_tested_but_the_shape_is() {
        for at in 0..8 {
            assert!(is_listed(at, 0xEE), "{at}");
        }
        assert!((1..=7).all(|kind| is_listed(8, kind)));
        assert!(!is_listed(8, 0) && !is_listed(8, 8) && !is_listed(8, 255));
        assert!(!is_listed(9, 1));
        assert!(!is_listed(10, 2) && is_listed(10, 1));
        assert!(!is_listed(12, 1) && !is_listed(507, 1));
    }

    #[test]
    fn blocks_in_any_order_and_of_any_tape() {
        let other = {
            let mut writer = Writer::new(9, 1 << 20);
            writer.add(Entry { kind: START, payload: &[1] }).unwrap();
            writer.into_bytes()
        };
        let bytes = [&tape()[BLOCK..], &other, &other, &tape()[..BLOCK]].concat();
        let numbers: Vec<_> =
            recover(&bytes).blocks.iter().map(|b| (b.number, b.session & 0xFF)).collect();
        assert_eq!(numbers, [(1, 4), (2, 4), (0, 9), (0, 9), (0, 4)]);
    }
}
