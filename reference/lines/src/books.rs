//! The steps of a book's history and what is done to its bytes before it is
//! reopened, as vectors have it (02, R-11).

use rules::book::{Book, Entry};
use rules::hex;
use rules::tape::{seal, BLOCK};

/// Many entries told as one step: tape by tape, with the verdicts in turn, the
/// places from 0 to 999 over and over, and code 0.
pub fn run(first: u32, count: usize, verdicts: &[u8]) -> impl Iterator<Item = Entry> + '_ {
    verdicts.iter().cycle().take(count).zip(0..).map(move |(&verdict, index)| Entry {
        tape: first.wrapping_add(index),
        verdict,
        place: index % 1000,
        code: 0,
    })
}

/// One change of the stored bytes.
#[derive(Clone, Debug, PartialEq, Eq)]
pub enum Change {
    /// Only the first blocks are kept.
    Blocks(usize),
    /// Only the first bytes are kept.
    Bytes(usize),
    /// Bytes follow.
    Add(Vec<u8>),
    /// A block of the book's own layout follows.
    Block(Vec<u8>),
    /// A copy of one of the blocks follows.
    Again(usize),
    /// Two blocks change their places.
    Swap(usize, usize),
    /// A block is taken out.
    Drop(usize),
    /// Of a block and a byte in it one bit is turned.
    Bit(usize, usize, u32),
    /// Of a block one byte is set, and the check mended.
    Set(usize, usize, u8),
}

impl Change {
    /// Whether it says something only of the layout that is used here.
    fn is_about_layout(&self) -> bool {
        matches!(self, Change::Block(_) | Change::Swap(..) | Change::Drop(_) | Change::Set(..))
    }

    /// The bytes afterwards. The blocks named must be there.
    pub fn apply(&self, stored: &[u8]) -> Vec<u8> {
        let mut bytes = stored.to_vec();
        let block = |step: usize| step * BLOCK..(step + 1) * BLOCK;
        match *self {
            Change::Blocks(count) => bytes.truncate(count * BLOCK),
            Change::Bytes(count) => bytes.truncate(count),
            Change::Add(ref more) | Change::Block(ref more) => bytes.extend(more),
            Change::Again(step) => bytes.extend_from_within(block(step)),
            Change::Swap(one, other) => {
                bytes[block(one)].copy_from_slice(&stored[block(other)]);
                bytes[block(other)].copy_from_slice(&stored[block(one)]);
            }
            Change::Drop(step) => drop(bytes.drain(block(step))),
            Change::Bit(step, at, bit) => bytes[step * BLOCK + at] ^= 1 << bit,
            Change::Set(step, at, value) => {
                bytes[step * BLOCK + at] = value;
                seal(&mut bytes[block(step)]);
            }
        }
        bytes
    }

    /// The change in words and numbers.
    fn text(&self) -> String {
        let lower = |bytes: &[u8]| hex::text(bytes).to_lowercase();
        match self {
            Change::Blocks(count) => format!("[\"blocks\", {count}]"),
            Change::Bytes(count) => format!("[\"bytes\", {count}]"),
            Change::Add(bytes) => format!("[\"add\", \"{}\"]", lower(bytes)),
            Change::Block(bytes) => format!("[\"block\", \"{}\"]", lower(bytes)),
            Change::Again(step) => format!("[\"again\", {step}]"),
            Change::Swap(one, other) => format!("[\"swap\", {one}, {other}]"),
            Change::Drop(step) => format!("[\"drop\", {step}]"),
            Change::Bit(step, at, bit) => format!("[\"bit\", {step}, {at}, {bit}]"),
            Change::Set(step, at, value) => format!("[\"set\", {step}, {at}, {value}]"),
        }
    }

    /// The change and what reopening then finds.
    pub fn line(&self, stored: &[u8]) -> String {
        format!(
            "{{\"do\": {}, \"layout\": {}, {}}}",
            self.text(),
            self.is_about_layout(),
            found(&self.apply(stored))
        )
    }
}

/// What reopening finds in some bytes.
pub fn found(bytes: &[u8]) -> String {
    match Book::reopen(bytes) {
        Some(book) => format!("\"counts\": {:?}, \"entries\": {}", book.counts(), book.entries()),
        None => "\"counts\": null, \"entries\": null".to_string(),
    }
}

#[cfg(test)]
mod tests {
    use super::*;
    use rules::tape::check_holds;

    #[test]
    fn changes() {
        let mut book = Book::new(4096);
        for tape in 0..3 {
            book.enter(Entry { tape, verdict: 1, place: 0, code: 0 }).unwrap();
        }
        let stored = book.bytes();
        let size = |change: Change| change.apply(stored).len();
        assert_eq!(size(Change::Blocks(2)), 1024);
        assert_eq!(size(Change::Bytes(7)), 7);
        assert_eq!(size(Change::Add(vec![1, 2])), 1538);
        assert_eq!(size(Change::Again(0)), 2048);
        assert_eq!(size(Change::Drop(1)), 1024);
        let swapped = Change::Swap(0, 2).apply(stored);
        assert_eq!((swapped[3], swapped[515], swapped[1027]), (2, 1, 0));
        assert!(!check_holds(&Change::Bit(1, 12, 7).apply(stored)[512..1024]));
        let set = Change::Set(1, 12, 9).apply(stored);
        assert!(check_holds(&set[512..1024]) && set[524] == 9);
        let line = "{\"do\": [\"blocks\", 1], \"layout\": false, \
                    \"counts\": [1, 0, 0, 0], \"entries\": 1}";
        assert_eq!(Change::Blocks(1).line(stored), line);
    }
}
