//! The tape: blocks of equal size, each with its own entry (01, "The tape").

use crate::edition::Edition;

pub const BLOCK: usize = 512;
/// 02, R-8; 128 in 01.
pub const MOST_BLOCKS: usize = 1024;
pub const LONGEST_PAYLOAD: usize = 496;
const PAYLOAD_AT: usize = 12;
const CHECK_AT: usize = 508;

/// Refusal numbers of 01's table that belong to this module.
pub const BAD_ENTRY: u8 = 7;
pub const NO_SPACE: u8 = 8;

pub const START: u8 = 1;
pub const COMMAND: u8 = 2;
pub const ANSWER: u8 = 3;
pub const SILENCE: u8 = 4;
pub const HOST: u8 = 5;
pub const DECISION: u8 = 6;
/// 02, R-7: what came of each rule of the verification list.
pub const RESULTS: u8 = 7;
/// 02, R-12: the shopper's choice. No kind before that request has landed.
pub const CHOICE: u8 = 8;

/// One entry, its payload lying in the tape.
#[derive(Clone, Copy, Debug, PartialEq, Eq)]
pub struct Entry<'a> {
    pub kind: u8,
    pub payload: &'a [u8],
}

/// Why a tape cannot be read, and where.
#[derive(Clone, Copy, Debug, PartialEq, Eq)]
pub struct Unreadable {
    pub place: usize,
    pub code: u8,
}

/// Remainders of the CRC-32 of IEEE 802.3 for all single bytes.
static REMAINDERS: [u32; 256] = remainders();

const fn remainders() -> [u32; 256] {
    let mut table = [0; 256];
    let mut byte = 0;
    while byte < 256 {
        let mut value = byte as u32;
        let mut bit = 0;
        while bit < 8 {
            value = if value & 1 == 1 { (value >> 1) ^ 0xEDB8_8320 } else { value >> 1 };
            bit += 1;
        }
        table[byte] = value;
        byte += 1;
    }
    table
}

pub fn crc32(bytes: &[u8]) -> u32 {
    let last = bytes
        .iter()
        .fold(u32::MAX, |crc, &byte| REMAINDERS[usize::from(crc as u8 ^ byte)] ^ (crc >> 8));
    !last
}

/// The block that holds one entry. Only for payloads that fit.
fn block(number: u32, session: u32, entry: Entry) -> [u8; BLOCK] {
    let mut out = [0; BLOCK];
    out[0..4].copy_from_slice(&number.to_be_bytes());
    out[4..8].copy_from_slice(&session.to_be_bytes());
    out[8] = entry.kind;
    set_payload(&mut out, entry.payload);
    out
}

/// Puts a payload that fits into a block, in place of the one it had, and
/// mends the check.
pub fn set_payload(block: &mut [u8], payload: &[u8]) {
    block[10..12].copy_from_slice(&(payload.len() as u16).to_be_bytes());
    block[PAYLOAD_AT..CHECK_AT].fill(0);
    block[PAYLOAD_AT..PAYLOAD_AT + payload.len()].copy_from_slice(payload);
    seal(block);
}

/// Sets the check of a block to what its other bytes demand.
pub fn seal(block: &mut [u8]) {
    let check = crc32(&block[..CHECK_AT]);
    block[CHECK_AT..BLOCK].copy_from_slice(&check.to_be_bytes());
}

/// A tape being written into a space of `room` bytes.
pub struct Writer {
    edition: Edition,
    bytes: Vec<u8>,
    session: u32,
    room: usize,
}

impl Writer {
    pub fn new(session: u32, room: usize) -> Writer {
        Writer::by(Edition::default(), session, room)
    }

    pub fn by(edition: Edition, session: u32, room: usize) -> Writer {
        Writer { edition, bytes: Vec::new(), session, room }
    }

    /// Adds one entry and gives its block, or refuses with 7 or 8. Any
    /// payload of a good size will do.
    pub fn add(&mut self, entry: Entry) -> Result<[u8; BLOCK], u8> {
        let kinds = START..=self.edition.last_kind();
        if !kinds.contains(&entry.kind) || entry.payload.len() > LONGEST_PAYLOAD {
            return Err(BAD_ENTRY);
        }
        let used = self.bytes.len() / BLOCK;
        if self.room - self.bytes.len() < BLOCK || used >= self.edition.most_blocks() {
            return Err(NO_SPACE);
        }
        let written = block(used as u32, self.session, entry);
        self.bytes.extend_from_slice(&written);
        Ok(written)
    }

    pub fn into_bytes(self) -> Vec<u8> {
        self.bytes
    }
}

pub fn word(bytes: &[u8]) -> u32 {
    bytes.iter().fold(0, |n, &b| n << 8 | u32::from(b))
}

/// All entries of a tape, or the first damage found in it.
pub fn read(tape: &[u8]) -> Result<Vec<Entry<'_>>, Unreadable> {
    read_by(Edition::default(), tape)
}

pub fn read_by(edition: Edition, tape: &[u8]) -> Result<Vec<Entry<'_>>, Unreadable> {
    if tape.len() > edition.longest_tape() {
        return Err(Unreadable { place: 0, code: 1 });
    }
    if !tape.len().is_multiple_of(BLOCK) {
        return Err(Unreadable { place: tape.len() / BLOCK, code: 2 });
    }
    let session = tape.get(4..8).unwrap_or_default();
    tape.chunks(BLOCK)
        .enumerate()
        .map(|(place, block)| {
            read_block(edition, block, place, session).map_err(|code| Unreadable { place, code })
        })
        .collect()
}

/// The entry of one block, or the lowest code from 3 to 9 that applies.
pub fn read_block<'a>(
    edition: Edition,
    block: &'a [u8],
    place: usize,
    session: &[u8],
) -> Result<Entry<'a>, u8> {
    if !check_holds(block) {
        return Err(3);
    }
    if word(&block[0..4]) as usize != place {
        return Err(4);
    }
    if block[4..8] != *session {
        return Err(5);
    }
    read_shape(edition, block)
}

/// Whether the check of a block is what its other bytes demand.
pub fn check_holds(block: &[u8]) -> bool {
    word(&block[CHECK_AT..]) == crc32(&block[..CHECK_AT])
}

/// The entry of a block by itself, or the lowest code from 6 to 9 that applies.
pub fn read_shape(edition: Edition, block: &[u8]) -> Result<Entry<'_>, u8> {
    let kind = block[8];
    if !(START..=edition.last_kind()).contains(&kind) {
        return Err(6);
    }
    if block[9] != 0 {
        return Err(7);
    }
    let length = word(&block[10..12]) as usize;
    if length > LONGEST_PAYLOAD {
        return Err(8);
    }
    let (payload, rest) = block[PAYLOAD_AT..CHECK_AT].split_at(length);
    if rest.iter().any(|&b| b != 0) {
        return Err(9);
    }
    Ok(Entry { kind, payload })
}

#[cfg(test)]
mod tests {
    use super::*;

    #[test]
    fn published_check_value() {
        assert_eq!(crc32(b"123456789"), 0xCBF4_3926);
        assert_eq!(crc32(b""), 0);
    }

    fn tape() -> Vec<u8> {
        let mut writer = Writer::new(0x01020304, 4096);
        writer.add(Entry { kind: START, payload: &[7; 496] }).unwrap();
        writer.add(Entry { kind: SILENCE, payload: &[] }).unwrap();
        writer.into_bytes()
    }

    /// The code after setting one byte of block 1 and mending its check.
    fn damaged(at: usize, value: u8) -> Option<Unreadable> {
        let mut bytes = tape();
        bytes[BLOCK + at] = value;
        seal(&mut bytes[BLOCK..]);
        read(&bytes).err()
    }

    #[test]
    fn what_is_written_reads_back() {
        let bytes = tape();
        let entries = read(&bytes).unwrap();
        assert_eq!(entries[0], Entry { kind: START, payload: &[7; 496] });
        assert_eq!(entries[1], Entry { kind: SILENCE, payload: &[] });
        assert_eq!(read(&[]), Ok(vec![]));
    }

    #[test]
    fn codes_of_a_block() {
        let one = |code| Some(Unreadable { place: 1, code });
        assert_eq!(damaged(3, 2), one(4));
        assert_eq!(damaged(0, 1), one(4));
        assert_eq!(damaged(4, 9), one(5));
        assert_eq!(damaged(8, 0), one(6));
        assert_eq!(damaged(8, 7), None);
        assert_eq!(damaged(8, 8), one(6));
        assert_eq!(damaged(9, 1), one(7));
        assert_eq!(damaged(10, 2), one(8));
        assert_eq!(damaged(12, 1), one(9));
        assert_eq!(damaged(507, 1), one(9));
        assert_eq!(damaged(11, 1), None);
        let mut bytes = tape();
        bytes[600] ^= 1;
        assert_eq!(read(&bytes).err(), one(3));
    }

    #[test]
    fn codes_of_the_whole() {
        assert_eq!(read(&[0; 524_289]).err(), Some(Unreadable { place: 0, code: 1 }));
        assert_eq!(read(&[0; 1]).err(), Some(Unreadable { place: 0, code: 2 }));
        assert_eq!(read(&[0; 65_537]).err(), Some(Unreadable { place: 128, code: 2 }));
        assert_eq!(read(&[0; 524_287]).err(), Some(Unreadable { place: 1023, code: 2 }));
        assert_eq!(read(&[0; 524_288]).err(), Some(Unreadable { place: 0, code: 3 }));
    }

    #[test]
    fn refused_entries() {
        let entry = |kind| Entry { kind, payload: &[] };
        let mut small = Writer::new(0, 1023);
        assert_eq!(small.add(entry(0)), Err(7));
        assert_eq!(small.add(entry(8)), Err(7));
        assert_eq!(small.add(Entry { kind: 3, payload: &[0; 497] }), Err(7));
        assert!(small.add(entry(7)).is_ok());
        assert_eq!(small.add(entry(7)), Err(8));
        assert_eq!(small.add(entry(0)), Err(7));
        let mut large = Writer::new(0, 1 << 20);
        let added = (0..1100).filter(|_| large.add(entry(2)).is_ok()).count();
        assert_eq!(added, 1024);
    }
}
