//! The campaign book (02, R-11): one block of 512 bytes for each tape judged,
//! checked like the tape's. It knows nothing of the judge but its answers.

use crate::tape::{check_holds, seal, word, BLOCK};
use std::collections::BTreeSet;

/// More entries than these a book does not take.
pub const MOST_ENTRIES: usize = 4096;

/// Why an entry is turned away, in the order in which it is looked at.
#[derive(Clone, Copy, Debug, PartialEq, Eq)]
pub enum Refusal {
    NoVerdict,
    AlreadyEntered,
    Full,
}

impl Refusal {
    pub fn name(self) -> &'static str {
        match self {
            Refusal::NoVerdict => "no verdict",
            Refusal::AlreadyEntered => "already entered",
            Refusal::Full => "full",
        }
    }
}

/// What is entered: a tape's number and the judge's answer for it.
#[derive(Clone, Copy, Debug, PartialEq, Eq)]
pub struct Entry {
    pub tape: u32,
    /// 1 PASS, 2 FAIL, 3 INCONCLUSIVE, 4 UNREADABLE; any other is none.
    pub verdict: u8,
    pub place: u32,
    pub code: u32,
}

impl Entry {
    /// Which of the four counts it belongs to.
    fn count(&self) -> Option<usize> {
        (1..=4).contains(&self.verdict).then(|| usize::from(self.verdict) - 1)
    }

    /// The block for it: number, tape number, verdict, three zeros, place,
    /// code, zeros, check.
    pub fn block(&self, number: u32) -> [u8; BLOCK] {
        let mut block = [0; BLOCK];
        block[0..4].copy_from_slice(&number.to_be_bytes());
        block[4..8].copy_from_slice(&self.tape.to_be_bytes());
        block[8] = self.verdict;
        block[12..16].copy_from_slice(&self.place.to_be_bytes());
        block[16..20].copy_from_slice(&self.code.to_be_bytes());
        seal(&mut block);
        block
    }

    /// The entry of the block with this number, if it can be one.
    fn read(number: u32, block: &[u8]) -> Option<Entry> {
        let zeros = |bytes: &[u8]| bytes.iter().all(|&byte| byte == 0);
        let entry = Entry {
            tape: word(&block[4..8]),
            verdict: block[8],
            place: word(&block[12..16]),
            code: word(&block[16..20]),
        };
        let is_laid_out = zeros(&block[9..12]) && zeros(&block[20..508]);
        (check_holds(block) && word(&block[0..4]) == number && is_laid_out).then_some(entry)
    }
}

/// How many tapes were entered with each verdict.
pub type Counts = [u32; 4];

/// A book in a space of `room` bytes.
#[derive(Clone, Debug)]
pub struct Book {
    bytes: Vec<u8>,
    room: usize,
    tapes: BTreeSet<u32>,
    counts: Counts,
}

impl Book {
    pub fn new(room: usize) -> Book {
        Book { bytes: Vec::new(), room, tapes: BTreeSet::new(), counts: [0; 4] }
    }

    /// Enters one verdict. A refused one changes nothing.
    pub fn enter(&mut self, entry: Entry) -> Result<(), Refusal> {
        let count = entry.count().ok_or(Refusal::NoVerdict)?;
        if self.tapes.contains(&entry.tape) {
            return Err(Refusal::AlreadyEntered);
        }
        if self.entries() >= MOST_ENTRIES || self.room - self.bytes.len() < BLOCK {
            return Err(Refusal::Full);
        }
        self.bytes.extend(entry.block(self.entries() as u32));
        self.tapes.insert(entry.tape);
        self.counts[count] += 1;
        Ok(())
    }

    pub fn entries(&self) -> usize {
        self.bytes.len() / BLOCK
    }

    pub fn counts(&self) -> Counts {
        self.counts
    }

    /// What is stored.
    pub fn bytes(&self) -> &[u8] {
        &self.bytes
    }

    /// The book that has left these bytes, if any has: they must be, byte for
    /// byte, the blocks of entries that were accepted one after the other.
    pub fn reopen(bytes: &[u8]) -> Option<Book> {
        let mut book = Book::new(bytes.len());
        for (number, block) in bytes.chunks(BLOCK).enumerate() {
            if block.len() < BLOCK {
                return None;
            }
            let entry = Entry::read(number as u32, block)?;
            book.enter(entry).ok()?;
        }
        Some(book)
    }
}

#[cfg(test)]
mod tests {
    use super::*;

    fn entry(tape: u32, verdict: u8) -> Entry {
        Entry { tape, verdict, place: 7, code: 0 }
    }

    fn book(entries: &[(u32, u8)]) -> Book {
        let mut book = Book::new(1 << 22);
        for &(tape, verdict) in entries {
            book.enter(entry(tape, verdict)).unwrap();
        }
        book
    }

    #[test]
    fn refusals_in_their_order() {
        let mut book = book(&[(5, 1), (u32::MAX, 2)]);
        assert_eq!(book.enter(entry(5, 0)), Err(Refusal::NoVerdict));
        assert_eq!(book.enter(entry(6, 5)), Err(Refusal::NoVerdict));
        assert_eq!(book.enter(entry(5, 4)), Err(Refusal::AlreadyEntered));
        assert_eq!((book.counts(), book.entries()), ([1, 1, 0, 0], 2));
        book.room = 3 * BLOCK - 1;
        assert_eq!(book.enter(entry(6, 1)), Err(Refusal::Full));
        assert_eq!(book.enter(entry(5, 1)), Err(Refusal::AlreadyEntered));
        assert_eq!(book.enter(entry(5, 9)), Err(Refusal::NoVerdict));
        book.room += 1;
        assert_eq!(book.enter(entry(0, 3)), Ok(()));
        assert_eq!(book.counts(), [1, 1, 1, 0]);
    }

    #[test]
    fn a_full_book() {
        let all: Vec<(u32, u8)> = (0..4096).map(|tape| (tape, 1 + (tape % 4) as u8)).collect();
        let mut book = book(&all);
        assert_eq!(book.counts(), [1024; 4]);
        assert_eq!(book.enter(entry(4096, 1)), Err(Refusal::Full));
        assert_eq!(Book::reopen(book.bytes()).map(|book| book.counts()), Some([1024; 4]));
        let beyond = [book.bytes(), &entry(4096, 1).block(4096)].concat();
        assert!(Book::reopen(&beyond).is_none());
    }

    #[test]
    fn layout() {
        let block = Entry { tape: 0x01020304, verdict: 2, place: 0x05060708, code: 9 }.block(10);
        let text = crate::hex::text(&block[..24]);
        assert_eq!(text, "0000000A0102030402000000050607080000000900000000");
        assert!(check_holds(&block));
    }

    #[test]
    fn reopening_after_a_cut() {
        let whole = book(&[(1, 1), (2, 4), (9, 4)]);
        let counts = [[0, 0, 0, 0], [1, 0, 0, 0], [1, 0, 0, 1], [1, 0, 0, 2]];
        for size in 0..=3 * BLOCK {
            let reopened = Book::reopen(&whole.bytes()[..size]).map(|book| book.counts());
            let expected = size.is_multiple_of(BLOCK).then(|| counts[size / BLOCK]);
            assert_eq!(reopened, expected, "{size}");
        }
    }

    /// Block 1 of two with one byte set and a good check.
    fn reopens(at: usize, value: u8) -> bool {
        let mut bytes = book(&[(1, 1), (2, 4)]).bytes().to_vec();
        bytes[BLOCK + at] = value;
        seal(&mut bytes[BLOCK..]);
        Book::reopen(&bytes).is_some()
    }

    #[test]
    fn what_no_entries_can_have_left() {
        assert!(reopens(4, 0xFF) && reopens(7, 3) && !reopens(7, 1));
        assert!(!reopens(3, 0) && !reopens(3, 2) && !reopens(0, 1));
        assert!(reopens(8, 1) && !reopens(8, 0) && !reopens(8, 5));
        assert!(!reopens(9, 1) && !reopens(10, 1) && !reopens(11, 1));
        assert!((12..20).all(|at| reopens(at, 0xAA)));
        assert!(!reopens(20, 1) && !reopens(507, 1));
        let mut bytes = book(&[(1, 1), (2, 4)]).bytes().to_vec();
        bytes[14] ^= 1;
        assert!(Book::reopen(&bytes).is_none());
    }
}
