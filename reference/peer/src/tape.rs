//! Blocks and what can be wrong with them (01, "The tape").

pub const BLOCK: usize = 512;
/// 02, R-8.
const MOST_BLOCKS: usize = 1024;
const LAST_KIND: u8 = 7;
pub const PAYLOAD_AT: usize = 12;
pub const CHECK_AT: usize = 508;
pub const LONGEST_PAYLOAD: usize = CHECK_AT - PAYLOAD_AT;

pub const START: u8 = 1;
pub const COMMAND: u8 = 2;
pub const ANSWER: u8 = 3;
pub const SILENCE: u8 = 4;
pub const HOST: u8 = 5;
pub const DECISION: u8 = 6;
pub const RESULTS: u8 = 7;

pub type Block = [u8; BLOCK];

/// Why a tape cannot be read, and where.
#[derive(Clone, Copy, Debug, PartialEq, Eq)]
pub struct Damage {
    pub place: usize,
    pub code: u8,
}

#[inline(always)]
pub fn word(block: &Block, at: usize) -> u32 {
    u32::from_be_bytes([block[at], block[at + 1], block[at + 2], block[at + 3]])
}

#[inline(always)]
pub fn session_of(block: &Block) -> u32 {
    word(block, 4)
}

#[inline(always)]
pub fn length_of(block: &Block) -> usize {
    usize::from(u16::from_be_bytes([block[10], block[11]]))
}

/// Kind and payload of a block whose length is good.
#[inline(always)]
pub fn entry_of(block: &Block) -> (u8, &[u8]) {
    let length = length_of(block).min(LONGEST_PAYLOAD);
    (block[8], &block[PAYLOAD_AT..PAYLOAD_AT + length])
}

/// The blocks of a tape, or codes 1 and 2.
pub fn blocks_of(tape: &[u8]) -> Result<&[Block], Damage> {
    let (blocks, tail) = tape.as_chunks::<BLOCK>();
    if tape.len() > MOST_BLOCKS * BLOCK {
        return Err(Damage { place: 0, code: 1 });
    }
    if !tail.is_empty() {
        return Err(Damage { place: blocks.len(), code: 2 });
    }
    Ok(blocks)
}

/// Codes 3 to 8, and 9 where `padded` says that only zeros follow the payload.
/// It is asked only of a length that is good.
#[inline(always)]
pub fn tested(
    block: &Block,
    place: usize,
    session: u32,
    check: u32,
    padded: impl FnOnce(usize) -> bool,
) -> Result<(), Damage> {
    let length = length_of(block);
    let code = if word(block, CHECK_AT) != check {
        3
    } else if word(block, 0) as usize != place {
        4
    } else if session_of(block) != session {
        5
    } else if !(START..=LAST_KIND).contains(&block[8]) {
        6
    } else if block[9] != 0 {
        7
    } else if length > LONGEST_PAYLOAD {
        8
    } else if !padded(length) {
        9
    } else {
        return Ok(());
    };
    Err(Damage { place, code })
}

/// Whether zeros follow a payload of this length.
#[inline(always)]
pub fn is_padded(block: &Block, length: usize) -> bool {
    block[PAYLOAD_AT + length..CHECK_AT].iter().fold(0, |all, byte| all | byte) == 0
}
