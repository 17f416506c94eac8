//! Histories of campaign books, and reopenings after anything has been done to
//! their bytes (02, R-11).

use crate::random::Random;
use lines::books::{run, Change};
use rules::book::{Book, Entry, MOST_ENTRIES};
use rules::hex;
use rules::tape::{crc32, BLOCK};

/// A longer book is told by the CRC-32 of its bytes.
const MOST_TOLD: usize = 64 * BLOCK;

/// A book and the lines of its steps so far.
struct History {
    book: Book,
    room: usize,
    steps: Vec<String>,
}

impl History {
    fn new(room: usize) -> History {
        History { book: Book::new(room), room, steps: Vec::new() }
    }

    fn enter(&mut self, entry: Entry) {
        let reply = match self.book.enter(entry) {
            Ok(()) => "0".to_string(),
            Err(refusal) => format!("\"{}\"", refusal.name()),
        };
        let Entry { tape, verdict, place, code } = entry;
        self.steps.push(format!(
            "{{\"enter\": [{tape}, {verdict}, {place}, {code}], \"reply\": {reply}, \"counts\": {:?}}}",
            self.book.counts()
        ));
    }

    /// Many entries in one step, all of which must be accepted.
    fn run(&mut self, first: u32, count: usize, verdicts: &[u8]) {
        for entry in run(first, count, verdicts) {
            let accepted = self.book.enter(entry);
            debug_assert_eq!(accepted, Ok(()));
        }
        self.steps.push(format!(
            "{{\"run\": [{first}, {count}], \"verdicts\": {verdicts:?}, \"reply\": 0, \"counts\": {:?}}}",
            self.book.counts()
        ));
    }

    fn line(&self, name: &str, changes: &[Change]) -> String {
        let stored = self.book.bytes();
        let told = if stored.len() > MOST_TOLD {
            format!("\"stored_crc\": {}", crc32(stored))
        } else {
            format!("\"stored\": \"{}\"", hex::text(stored).to_lowercase())
        };
        let reopen: Vec<String> = changes.iter().map(|change| change.line(stored)).collect();
        format!(
            "{{\"name\": \"{name}\", \"room\": {}, \"steps\": [{}], {told}, \"reopen\": [{}]}}",
            self.room,
            self.steps.join(", "),
            reopen.join(", ")
        )
    }
}

/// A tape number: often one of a few, so that it comes again.
fn any_tape(r: &mut Random) -> u32 {
    match r.below(4) {
        0 => r.below(6) as u32,
        1 => *r.pick(&[0, 1, 0x7FFF_FFFF, 0x8000_0000, u32::MAX]),
        _ => r.next() as u32,
    }
}

fn any_entry(wrong: usize, r: &mut Random) -> Entry {
    let verdict =
        if r.chance(wrong) { *r.pick(&[0, 0, 5, 5, 6, 128, 255]) } else { r.between(1, 4) as u8 };
    let place = *r.pick(&[0, 1, 12, 127, 1023, 1024, u32::MAX]);
    let code = *r.pick(&[0, 0, 1, 3, 9, 255, u32::MAX]);
    Entry { tape: any_tape(r), verdict, place, code }
}

/// Steps of `history`; `wrong` of a hundred have no verdict.
fn some(history: &mut History, count: usize, wrong: usize, r: &mut Random) {
    for _ in 0..count {
        history.enter(any_entry(wrong, r));
    }
}

/// A book with all entries but one or none, and what it then takes.
fn full(r: &mut Random) -> History {
    let mut history = History::new(MOST_ENTRIES * BLOCK + *r.pick(&[0, 1, 511, 512, 4608]));
    let verdicts: Vec<u8> = (0..r.between(1, 5)).map(|_| r.between(1, 4) as u8).collect();
    history.run(1000, MOST_ENTRIES - r.below(2), &verdicts);
    for tape in [7, 8, 1000, 5094, 5095, 5096] {
        let entry = any_entry(30, r);
        history.enter(Entry { tape, ..entry });
    }
    some(&mut history, 4, 30, r);
    history
}

/// Cuts after whole blocks and inside of one.
fn cuts(blocks: usize, r: &mut Random) -> Vec<Change> {
    let mut all: Vec<Change> = if blocks <= 12 {
        (0..=blocks).map(Change::Blocks).collect()
    } else {
        [0, 1, blocks - 1, blocks].map(Change::Blocks).to_vec()
    };
    if blocks > 0 {
        let inside = (blocks - 1) * BLOCK;
        all.push(Change::Bytes(inside + 1));
        all.push(Change::Bytes(inside + BLOCK - 1));
        all.push(Change::Bytes(r.below(blocks) * BLOCK + r.between(1, BLOCK - 1)));
    }
    all
}

/// Bytes behind the end of the book.
fn additions(r: &mut Random) -> Vec<Change> {
    let mut all = vec![
        Change::Add(vec![0]),
        Change::Add(vec![0; BLOCK - 1]),
        Change::Add(vec![0; BLOCK]),
        Change::Add(vec![0xFF; BLOCK]),
        Change::Add(r.bytes(BLOCK)),
    ];
    let size = r.between(1, 2 * BLOCK);
    all.push(Change::Add(r.bytes(size)));
    all
}

/// One more block, of the right layout or nearly so.
fn more_blocks(blocks: usize, book: &Book, r: &mut Random) -> Vec<Change> {
    let next = blocks as u32;
    let fresh = Entry { tape: 4_000_000_000 + r.below(1000) as u32, ..any_entry(0, r) };
    let mut all = vec![
        fresh.block(next),
        fresh.block(next.wrapping_sub(1)),
        fresh.block(next + 1),
        Entry { verdict: 0, ..fresh }.block(next),
        Entry { verdict: 5, ..fresh }.block(next),
        any_entry(0, r).block(next),
    ];
    if let Some(first) = book.bytes().first_chunk::<BLOCK>() {
        let tape = rules::tape::word(&first[4..8]);
        all.push(Entry { tape, ..fresh }.block(next));
    }
    all.into_iter().map(|block| Change::Block(block.to_vec())).collect()
}

/// Changes of single blocks, at every kind of place in them.
fn inside(blocks: usize, r: &mut Random) -> Vec<Change> {
    let mut all = Vec::new();
    let fields = [(0, 4), (4, 4), (8, 1), (9, 3), (12, 4), (16, 4), (20, 488), (508, 4)];
    for (from, size) in fields {
        let step = r.below(blocks);
        let at = from + r.below(size);
        all.push(Change::Bit(step, at, r.below(8) as u32));
        if from < 508 {
            all.push(Change::Set(r.below(blocks), from + r.below(size), r.byte()));
            all.push(Change::Set(r.below(blocks), from + size - 1, *r.pick(&[0, 1, 255])));
        }
    }
    for value in 0..=5 {
        all.push(Change::Set(r.below(blocks), 8, value));
    }
    all.extend([9, 10, 11, 20, 507].map(|at| Change::Set(r.below(blocks), at, 1)));
    // A tape number that another block may have too.
    all.push(Change::Set(r.below(blocks), 7, r.below(6) as u8));
    all
}

/// Blocks in another order, missing, or there twice.
fn orders(blocks: usize, r: &mut Random) -> Vec<Change> {
    let mut all = vec![Change::Again(blocks - 1), Change::Again(r.below(blocks))];
    if blocks >= 2 {
        let one = r.below(blocks - 1);
        all.push(Change::Swap(one, r.between(one + 1, blocks - 1)));
        all.push(Change::Drop(0));
        all.push(Change::Drop(r.below(blocks - 1)));
    }
    all
}

fn changes(book: &Book, r: &mut Random) -> Vec<Change> {
    let blocks = book.entries();
    let mut all = [cuts(blocks, r), additions(r), more_blocks(blocks, book, r)].concat();
    if blocks > 0 {
        all.extend(inside(blocks, r));
        all.extend(orders(blocks, r));
    }
    // Of a long book each costs much.
    if blocks > 100 {
        all.truncate(24);
    }
    all
}

fn any(index: usize, r: &mut Random) -> (&'static str, History) {
    let ample = MOST_ENTRIES * BLOCK + *r.pick(&[0, 0, 4608]);
    let mut history = History::new(ample);
    match index % 10 {
        _ if index % 50 == 9 => return ("full", full(r)),
        0 => return ("empty", history),
        1 | 2 => {
            history = History::new(*r.pick(&[0, 511, 512, 513, 1023, 1024, 2000, 5000]));
            some(&mut history, r.between(1, 14), 15, r);
            return ("small room", history);
        }
        3 => some(&mut history, r.between(4, 12), 60, r),
        _ => {
            some(&mut history, r.between(1, 20), 15, r);
            return ("some", history);
        }
    }
    ("refused", history)
}

/// Prints `count` histories, one a line.
pub fn make_books(count: usize, seed: u64) {
    for index in 0..count {
        let mut r = Random::nth(seed, index as u64);
        let (name, history) = any(index, &mut r);
        let changes = changes(&history.book, &mut r);
        println!("{}", history.line(name, &changes));
    }
}

#[cfg(test)]
mod tests {
    use super::*;

    /// 02, R-11: the counts are those of the entries accepted, and a cut after
    /// any block leaves the counts of the entries before it.
    #[test]
    fn counts_of_histories() {
        for index in 0..200 {
            let (_, history) = any(index, &mut Random::nth(6, index as u64));
            let book = &history.book;
            assert_eq!(book.counts().iter().sum::<u32>() as usize, book.entries());
            for blocks in (0..=book.entries()).step_by(1 + book.entries() / 16) {
                let bytes = &book.bytes()[..blocks * BLOCK];
                let reopened = Book::reopen(bytes).expect("a cut after a block");
                assert_eq!(reopened.bytes(), bytes);
                for verdict in 1..=4_u8 {
                    let written = bytes.chunks(BLOCK).filter(|block| block[8] == verdict).count();
                    assert_eq!(reopened.counts()[usize::from(verdict) - 1] as usize, written);
                }
            }
        }
    }

    #[test]
    fn reopenings_of_both_sorts() {
        let (mut good, mut refused) = (0, 0);
        for index in (0..200).filter(|index| index % 50 != 9) {
            let mut r = Random::nth(6, index as u64);
            let (_, history) = any(index, &mut r);
            for change in changes(&history.book, &mut r) {
                match Book::reopen(&change.apply(history.book.bytes())) {
                    Some(_) => good += 1,
                    None => refused += 1,
                }
            }
        }
        assert!(good > 1000 && refused > 3000, "{good} {refused}");
    }
}
