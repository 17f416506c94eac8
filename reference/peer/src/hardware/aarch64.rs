//! The check by the processor's CRC instruction, two blocks side by side.

use crate::check::one;
use crate::tape::{is_padded, tested, Block, Damage, CHECK_AT};
use std::arch::aarch64::{__crc32d, __crc32w};
use std::arch::is_aarch64_feature_detected;

pub fn are_there() -> bool {
    is_aarch64_feature_detected!("crc")
}

// In some editions of the library the instructions are not safe by themselves.
#[allow(unused_unsafe)]
#[target_feature(enable = "crc")]
fn two([one, other]: [&Block; 2]) -> [u32; 2] {
    let mut registers = [u32::MAX; 2];
    let ((a, _), (b, _)) = (one[..CHECK_AT].as_chunks::<8>(), other[..CHECK_AT].as_chunks::<8>());
    for (&a, &b) in a.iter().zip(b) {
        let (a, b) = (u64::from_le_bytes(a), u64::from_le_bytes(b));
        registers = unsafe { [__crc32d(registers[0], a), __crc32d(registers[1], b)] };
    }
    let last = |block: &Block| {
        let (words, _) = block.as_chunks::<4>();
        u32::from_le_bytes(words[CHECK_AT / 4 - 1])
    };
    let (a, b) = (last(one), last(other));
    unsafe { [!__crc32w(registers[0], a), !__crc32w(registers[1], b)] }
}

/// The first damage of the blocks, if there is one.
pub fn read(blocks: &[Block], session: u32) -> Result<(), Damage> {
    let are_there = are_there();
    for (index, pair) in blocks.chunks(2).enumerate() {
        let both = [&pair[0], &pair[pair.len() - 1]];
        // Safe: the processor has these instructions.
        let checks = if are_there { unsafe { two(both) } } else { both.map(one) };
        for (at, block) in pair.iter().enumerate() {
            let padded = |length| is_padded(block, length);
            tested(block, 2 * index + at, session, checks[at], padded)?;
        }
    }
    Ok(())
}
