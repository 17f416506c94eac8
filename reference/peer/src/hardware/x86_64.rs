//! The check by carry-less multiplication. The CRC instruction of x86-64 has
//! another polynomial (CRC-32C) and does not serve.

use crate::check::{eight, four, one};
use crate::tape::{is_padded, tested, Block, Damage, CHECK_AT};
use std::arch::x86_64::*;

/// Powers of x modulo the polynomial, bits turned round: what a lane is
/// multiplied by to stand 512, 128 and 64 bits further, then the polynomial and
/// its inverse for the last step.
const FURTHER_512: [i64; 2] = [0x1_5444_2BD4, 0x1_C6E4_1596];
const FURTHER_128: [i64; 2] = [0x1_7519_97D0, 0x0_CCAA_009E];
const FURTHER_64: i64 = 0x1_63CD_6124;
const POLYNOMIAL: i64 = 0x1_DB71_0641;
const INVERSE: i64 = 0x1_F701_1641;

/// The part of a block that goes by lanes of 16 bytes; 12 bytes are left.
const LANES: usize = CHECK_AT / 16;

pub fn are_there() -> bool {
    is_x86_feature_detected!("pclmulqdq") && is_x86_feature_detected!("sse4.1")
}

#[inline]
#[target_feature(enable = "pclmulqdq,sse4.1")]
fn lane(bytes: &[u8; 16]) -> __m128i {
    let whole = u128::from_le_bytes(*bytes);
    _mm_set_epi64x((whole >> 64) as i64, whole as i64)
}

/// A lane further by so many bits, and another joined to it.
#[inline]
#[target_feature(enable = "pclmulqdq,sse4.1")]
fn folded(lane: __m128i, further: __m128i, other: __m128i) -> __m128i {
    let low = _mm_clmulepi64_si128::<0x00>(lane, further);
    let high = _mm_clmulepi64_si128::<0x11>(lane, further);
    _mm_xor_si128(_mm_xor_si128(low, high), other)
}

/// One lane down to the register.
#[inline]
#[target_feature(enable = "pclmulqdq,sse4.1")]
fn reduced(lane: __m128i, further: __m128i) -> u32 {
    let low_word = _mm_setr_epi32(-1, 0, -1, 0);
    let x = _mm_xor_si128(_mm_srli_si128::<8>(lane), _mm_clmulepi64_si128::<0x10>(lane, further));
    let by =
        _mm_clmulepi64_si128::<0x00>(_mm_and_si128(x, low_word), _mm_set_epi64x(0, FURTHER_64));
    let x = _mm_xor_si128(_mm_srli_si128::<4>(x), by);
    let constants = _mm_set_epi64x(INVERSE, POLYNOMIAL);
    let by = _mm_clmulepi64_si128::<0x10>(_mm_and_si128(x, low_word), constants);
    let by = _mm_clmulepi64_si128::<0x00>(_mm_and_si128(by, low_word), constants);
    _mm_extract_epi32::<1>(_mm_xor_si128(x, by)) as u32
}

#[target_feature(enable = "pclmulqdq,sse4.1")]
fn check(block: &Block) -> u32 {
    let (lanes, _) = block.as_chunks::<16>();
    let (first, rest) = lanes[..LANES].split_at(4);
    let (fours, rest) = rest.as_chunks::<4>();
    let further = _mm_set_epi64x(FURTHER_512[1], FURTHER_512[0]);
    let mut x = [lane(&first[0]), lane(&first[1]), lane(&first[2]), lane(&first[3])];
    x[0] = _mm_xor_si128(x[0], _mm_cvtsi32_si128(-1));
    for next in fours {
        for at in 0..4 {
            x[at] = folded(x[at], further, lane(&next[at]));
        }
    }
    let further = _mm_set_epi64x(FURTHER_128[1], FURTHER_128[0]);
    let mut all = x[0];
    for other in [x[1], x[2], x[3]] {
        all = folded(all, further, other);
    }
    for next in rest {
        all = folded(all, further, lane(next));
    }
    let register = reduced(all, further);
    let (eights, _) = block.as_chunks();
    let (words, _) = block.as_chunks();
    !four(eight(register, &eights[2 * LANES]), &words[CHECK_AT / 4 - 1])
}

/// The first damage of the blocks, if there is one.
pub fn read(blocks: &[Block], session: u32) -> Result<(), Damage> {
    let are_there = are_there();
    for (place, block) in blocks.iter().enumerate() {
        // Safe: the processor has these instructions.
        let check = if are_there { unsafe { check(block) } } else { one(block) };
        tested(block, place, session, check, |length| is_padded(block, length))?;
    }
    Ok(())
}
