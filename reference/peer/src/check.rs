//! The check: CRC-32 of IEEE 802.3, eight bytes in a turn, two blocks side by
//! side.

use crate::tape::{is_padded, tested, Block, Damage, CHECK_AT};

const POLYNOMIAL: u32 = 0xEDB8_8320;

/// Remainders of single bytes with 0 to 7 bytes behind them.
static TABLES: [[u32; 256]; 8] = tables();

/// The register one bit further.
pub const fn shifted(register: u32) -> u32 {
    if register & 1 == 1 {
        register >> 1 ^ POLYNOMIAL
    } else {
        register >> 1
    }
}

const fn tables() -> [[u32; 256]; 8] {
    let mut tables = [[0; 256]; 8];
    let mut byte = 0;
    while byte < 256 {
        let mut register = byte as u32;
        let mut bit = 0;
        while bit < 64 {
            register = shifted(register);
            bit += 1;
            if bit % 8 == 0 {
                tables[bit / 8 - 1][byte] = register;
            }
        }
        byte += 1;
    }
    tables
}

/// What four bytes leave with so many bytes behind them.
#[inline(always)]
fn left(word: u32, behind: usize) -> u32 {
    let of = |at: usize| TABLES[behind + 3 - at][usize::from((word >> (8 * at)) as u8)];
    (of(0) ^ of(1)) ^ (of(2) ^ of(3))
}

/// Eight bytes more. Only half of the work waits for the register.
#[inline(always)]
pub fn eight(register: u32, &[a, b, c, d, e, f, g, h]: &[u8; 8]) -> u32 {
    let ahead = left(u32::from_le_bytes([e, f, g, h]), 0);
    left(u32::from_le_bytes([a, b, c, d]) ^ register, 4) ^ ahead
}

/// Four bytes more.
#[inline(always)]
pub fn four(register: u32, bytes: &[u8; 4]) -> u32 {
    left(u32::from_le_bytes(*bytes) ^ register, 0)
}

/// The part of a block that the check is over: eights and a four.
#[inline(always)]
fn parts(block: &Block) -> (&[[u8; 8]], &[u8; 4]) {
    let (eights, _) = block.as_chunks();
    let (fours, _) = block.as_chunks();
    (&eights[..CHECK_AT / 8], &fours[CHECK_AT / 4 - 1])
}

/// The check of one block.
pub fn one(block: &Block) -> u32 {
    let (eights, rest) = parts(block);
    !four(eights.iter().fold(u32::MAX, eight), rest)
}

/// The checks of two blocks.
#[inline(always)]
fn two([one, other]: &[Block; 2]) -> [u32; 2] {
    let ((one, one_rest), (other, other_rest)) = (parts(one), parts(other));
    let mut registers = [u32::MAX; 2];
    for (a, b) in one.iter().zip(other) {
        registers = [eight(registers[0], a), eight(registers[1], b)];
    }
    [!four(registers[0], one_rest), !four(registers[1], other_rest)]
}

/// The first damage of the blocks, if there is one.
pub fn read(blocks: &[Block], session: u32) -> Result<(), Damage> {
    let (pairs, rest) = blocks.as_chunks::<2>();
    for (index, pair) in pairs.iter().enumerate() {
        let checks = two(pair);
        for at in 0..2 {
            let padded = |length| is_padded(&pair[at], length);
            tested(&pair[at], 2 * index + at, session, checks[at], padded)?;
        }
    }
    match rest {
        [last] => {
            tested(last, blocks.len() - 1, session, one(last), |length| is_padded(last, length))
        }
        _ => Ok(()),
    }
}
