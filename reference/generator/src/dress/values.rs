//! Values of named objects, right and wrong.

use crate::random::Random;
use crate::sessions::applications::{any_indicator, any_name};
use crate::sessions::card::any_account;
use crate::sessions::lists::{any_list, bad_list};
use crate::sessions::start::any_date;
use crate::sessions::verification::RuleList;

/// AFLs of few records that any card may have.
const LOCATORS: [&[u8]; 5] =
    [&[8, 1, 1, 0], &[8, 1, 2, 1], &[16, 2, 3, 0], &[80, 255, 255, 1], &[8, 1, 1, 0, 24, 7, 8, 2]];

/// A value that the object may have, for a terminal with this AID.
pub fn right_value(tag: u16, aid: &[u8], r: &mut Random) -> Vec<u8> {
    match tag {
        0x84 => {
            let more = r.below(17 - aid.len());
            [aid, &r.bytes(more)].concat()
        }
        0x9F38 | 0x8C | 0x8D => any_list(None, r),
        0x82 | 0x9F08 | 0x9F42 | 0x9F36 => r.bytes(2),
        0x94 => r.pick(&LOCATORS).to_vec(),
        0x5A => any_account(r),
        0x5F24 | 0x5F25 => any_date(r).to_vec(),
        0x8E => RuleList::any(r.next() % 100_000, r).bytes(),
        0x9F27 => r.bytes(1),
        0x9F26 => r.bytes(8),
        0x9F10 => {
            let size = r.below(33);
            r.bytes(size)
        }
        0x4F => any_name(r),
        0x87 => any_indicator(r).into_iter().collect(),
        0x88 => vec![r.between(1, 10) as u8],
        // The three issuer's codes; 9D, which is not looked at.
        _ => r.bytes(5),
    }
}

/// A value that leads to a reason where the object is looked at: of a wrong
/// size, or of a right one and wrong all the same.
pub fn wrong_value(tag: u16, old: &[u8], r: &mut Random) -> Vec<u8> {
    let pick = |values: &[&[u8]], r: &mut Random| r.pick(values).to_vec();
    match tag {
        0x84 if r.chance(50) => old.iter().enumerate().map(|(i, b)| b ^ u8::from(i == 0)).collect(),
        0x84 => pick(&[&[], &[0xA0; 4], &[0xA0; 17]], r),
        0x9F38 | 0x8C | 0x8D => bad_list(r),
        0x94 => pick(
            &[&[], &[8, 1, 1], &[8, 0, 1, 0], &[7, 1, 1, 0], &[8, 1, 255, 0, 16, 1, 255, 0]],
            r,
        ),
        0x5A => pick(&[&[], &[0xFF], &[0x1A], &[0x12, 0xF3], &[0x12; 11]], r),
        0x5F24 | 0x5F25 => pick(&[&[], &[0x26, 0x13, 0x01], &[0x26, 0x01, 0x32], &[0x26, 0x01]], r),
        0x8E => pick(&[&[], &[0; 6], &[0; 9]], r),
        0x9F10 => r.bytes(33),
        0x4F => pick(&[&[], &[0xA0; 4], &[0xA0; 17]], r),
        0x88 => pick(&[&[], &[0], &[11], &[1, 1]], r),
        // The others have one size only.
        _ => [old, &r.bytes(1)].concat(),
    }
}
