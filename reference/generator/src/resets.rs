//! Made answers to reset: good ones of every shape, each rule broken, cut,
//! turned to the inverse convention, too long, and any bytes (02, R-1).

mod breaks;
mod long;
mod made;

use crate::random::Random;
use breaks::BREAKS;
use long::long;
use made::{check_of, good};
use rules::hex;
use rules::reset::{turned, Reset, DIRECT, INVERSE};

/// Something that is put wrong in the bytes behind TS.
fn bend(data: &mut Vec<u8>, r: &mut Random) {
    match r.below(8) {
        // Cut anywhere, before T0 too.
        0..=2 => data.truncate(r.below(data.len() + 1)),
        3 => {
            data.pop();
        }
        // The right check where none may be due, or anything.
        4 => data.push(check_of(data)),
        5 => {
            let count = *r.pick(&[1, 2, 31, 32, 33, 40]);
            data.extend(r.bytes(count));
        }
        // As many characters as there may be, and one more.
        6 => data.resize(data.len().max(r.between(31, 34)), 0),
        _ => {
            let at = r.below(data.len());
            data[at] ^= 1 << r.below(8);
        }
    }
}

/// TS and the other bytes as they stand on the line.
fn capture(data: &[u8], r: &mut Random) -> Vec<u8> {
    if r.chance(3) {
        let initial = *r.pick(&[0x3F, 0xFC, 0x00, 0xFF, 0x3A, 0xB3, 0x23, 0xDC]);
        return [&[initial], data].concat();
    }
    if r.chance(40) {
        return [INVERSE].into_iter().chain(data.iter().map(|&b| turned(b))).collect();
    }
    [&[DIRECT], data].concat()
}

/// Bytes without any plan, most of them behind a good TS.
fn random(r: &mut Random) -> (Reset, Vec<u8>) {
    let size = *r.pick(&[0, 1, 2, 3, 5, 8, 13, 20, 33, 34, 60]);
    let mut bytes = r.bytes(size);
    if size > 0 && r.chance(95) {
        bytes[0] = *r.pick(&[DIRECT, INVERSE]);
    }
    (if r.chance(50) { Reset::Cold } else { Reset::Warm }, bytes)
}

/// One capture; the kinds take turns.
fn any(index: usize, r: &mut Random) -> (Reset, Vec<u8>) {
    let mut made = good(r);
    match index % 8 {
        0 => (),
        1 => {
            let (made, data) = long(index / 8, r);
            return (made.reset, capture(&data, r));
        }
        2..=4 => {
            for round in 0..*r.pick(&[1, 1, 1, 2, 4]) {
                let at = if round == 0 { index / 8 % BREAKS.len() } else { r.below(BREAKS.len()) };
                BREAKS[at].1(&mut made, r);
            }
        }
        5 => return random(r),
        _ => {
            if r.chance(30) {
                r.pick(&BREAKS).1(&mut made, r);
            }
            let mut data = made.data();
            bend(&mut data, r);
            return (made.reset, capture(&data, r));
        }
    }
    (made.reset, capture(&made.data(), r))
}

/// Prints `count` captures as lines that `atr` reads.
pub fn make_resets(count: usize, seed: u64) {
    for index in 0..count {
        let (reset, bytes) = any(index, &mut Random::nth(seed, index as u64));
        let word = if reset == Reset::Cold { "COLD" } else { "WARM" };
        println!("{word} {}", hex::text_or_dash(&bytes));
    }
}

#[cfg(test)]
mod tests;
