//! Captures with about as many characters as there may be, or more (02, R-1;
//! 000, I-4.3), and everything that can be wrong where they end.

use super::breaks::BREAKS;
use super::made::{free_group, good, Made};
use crate::random::Random;

/// The last place that a character may have.
const LAST: usize = 32;

/// The most historical bytes there can be.
const MOST_HISTORICAL: usize = 15;

/// A beginning with three groups: behind them others may follow without
/// breaking a rule. Some of them break another one.
fn beginning(r: &mut Random) -> Made {
    loop {
        let mut made = good(r);
        if r.chance(25) {
            r.pick(&BREAKS).1(&mut made, r);
        }
        if made.groups.len() >= 3 {
            made.historical.clear();
            return made;
        }
    }
}

/// Such a beginning and groups without rules, until the characters announced
/// reach up to the place `last`, TCK among them.
fn reaching(last: usize, r: &mut Random) -> Made {
    let mut made = beginning(r);
    while made.data().len() + MOST_HISTORICAL < last {
        made.groups.push(free_group(r));
    }
    let count = last.saturating_sub(made.data().len());
    made.historical = r.bytes(count);
    made
}

/// Turns a bit of the last character, which is TCK where that is due.
fn spoil_check(data: &mut [u8], r: &mut Random) {
    if let Some(check) = data.last_mut() {
        *check ^= 1 << r.below(8);
    }
}

/// Such a capture and its bytes behind TS. The ends take turns.
pub fn long(index: usize, r: &mut Random) -> (Made, Vec<u8>) {
    // TCK and the first byte too many come to stand on both sides of the
    // border; what is missing stands behind it.
    let end = index % 6;
    let near = if end < 4 { LAST - 2 } else { LAST + 1 };
    let last = if r.chance(60) { r.between(near, LAST + 3) } else { r.between(near, LAST + 20) };
    let made = reaching(last, r);
    let mut data = made.data();
    let more = *r.pick(&[1, 1, 2, 3, 20]);
    match end {
        0 => (),
        1 => spoil_check(&mut data, r),
        2 => data.extend(r.bytes(more)),
        3 => {
            spoil_check(&mut data, r);
            data.extend(r.bytes(more));
        }
        4 => drop(data.pop()),
        _ => data.truncate(r.between(LAST, data.len() - 1)),
    }
    (made, data)
}
