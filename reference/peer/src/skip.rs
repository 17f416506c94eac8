//! The check with the zeros behind a payload skipped: most of a block is such
//! zeros. They are tested, and what they do to the register is looked up.

use crate::check::{eight, four, one, shifted};
use crate::tape::{length_of, tested, Block, Damage, CHECK_AT, LONGEST_PAYLOAD, PAYLOAD_AT};

/// Zeros are skipped so many at a time.
const STEP: usize = 32;
/// What is left of a block before whole steps.
const HEAD: usize = CHECK_AT % STEP;
const STEPS: usize = CHECK_AT / STEP + 1;

/// What each half byte of the register leaves behind so many steps of zeros.
static LEFT: [[[u32; 16]; 8]; STEPS] = left();

const fn left() -> [[[u32; 16]; 8]; STEPS] {
    let mut table = [[[0; 16]; 8]; STEPS];
    let mut at = 0;
    while at < 8 * 16 {
        let mut register = (at as u32 % 16) << (at / 16 * 4);
        let mut steps = 0;
        while steps < STEPS {
            table[steps][at / 16][at % 16] = register;
            let mut bit = 0;
            while bit < 8 * STEP {
                register = shifted(register);
                bit += 1;
            }
            steps += 1;
        }
        at += 1;
    }
    table
}

/// The register so many steps of zeros further.
#[inline(always)]
fn past(register: u32, steps: usize) -> u32 {
    let left = &LEFT[steps];
    let of = |at: usize| left[at][(register >> (4 * at) & 15) as usize];
    ((of(0) ^ of(1)) ^ (of(2) ^ of(3))) ^ ((of(4) ^ of(5)) ^ (of(6) ^ of(7)))
}

#[inline(always)]
fn is_zero(bytes: &[u8; STEP]) -> bool {
    *bytes == [0; STEP]
}

/// The check where only zeros follow the payload, which ends before `used`.
#[inline(always)]
fn skipping(block: &Block, used: usize) -> Option<u32> {
    let taken = HEAD + (used + STEP - 1 - HEAD) / STEP * STEP;
    let (head, behind) = block[..CHECK_AT].split_at(taken);
    let (steps, _) = behind.as_chunks::<STEP>();
    let rest = head.get(used..)?;
    let zero = match block[used..CHECK_AT].first_chunk() {
        Some(chunk) => is_zero(chunk),
        None => rest.iter().all(|&byte| byte == 0),
    };
    let or = |all: [u64; 4], step: &[u8; STEP]| {
        let (words, _) = step.as_chunks::<8>();
        std::array::from_fn(|at| all[at] | u64::from_ne_bytes(words[at]))
    };
    let all: [u64; 4] = steps.iter().fold([0; 4], or);
    if !zero || all != [0; 4] {
        return None;
    }
    let (first, eights) = head.split_first_chunk::<4>()?;
    let (eights, _) = eights.as_chunks();
    let register = eights.iter().fold(four(u32::MAX, first), eight);
    Some(!past(register, steps.len()))
}

/// The first damage of the blocks, if there is one.
pub fn read(blocks: &[Block], session: u32) -> Result<(), Damage> {
    for (place, block) in blocks.iter().enumerate() {
        let length = length_of(block);
        let short =
            if length <= LONGEST_PAYLOAD { skipping(block, PAYLOAD_AT + length) } else { None };
        let check = short.unwrap_or_else(|| one(block));
        tested(block, place, session, check, |_| short.is_some())?;
    }
    Ok(())
}
