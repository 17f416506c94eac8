//! Ways to damage the bytes of a tape.

use crate::random::Random;
use rules::tape::{seal, BLOCK, MOST_BLOCKS};
use std::rc::Rc;

type Change = dyn Fn(&mut Vec<u8>, &mut Random);

/// A way to damage a tape.
#[derive(Clone)]
pub struct Damage {
    pub label: String,
    pub apply: Rc<Change>,
}

pub fn damage(label: &str, apply: impl Fn(&mut Vec<u8>, &mut Random) + 'static) -> Damage {
    Damage { label: label.to_string(), apply: Rc::new(apply) }
}

/// Which block is hit.
#[derive(Clone, Copy)]
enum Hit {
    Any,
    First,
    Last,
}

/// Changes one block with a good check, and mends the check again.
fn on_block(hit: Hit, label: &str, change: impl Fn(&mut [u8], &mut Random) + 'static) -> Damage {
    damage(label, move |tape, r| {
        let blocks = tape.len() / BLOCK;
        if blocks == 0 {
            return;
        }
        let at = match hit {
            Hit::Any => r.below(blocks),
            Hit::First => 0,
            Hit::Last => blocks - 1,
        };
        let block = &mut tape[at * BLOCK..(at + 1) * BLOCK];
        change(block, r);
        seal(block);
    })
}

fn set_length(block: &mut [u8], length: usize) {
    block[10] = (length >> 8) as u8;
    block[11] = length as u8;
}

/// A byte behind the payload: the first, the last or any.
pub fn behind_payload(block: &mut [u8], r: &mut Random) {
    let length = usize::from(block[10]) * 256 + usize::from(block[11]);
    let first = 12 + length.min(496);
    if first < 508 {
        let at = *r.pick(&[first, 507, first + (507 - first) / 2]);
        block[at] = 1 + r.below(255) as u8;
    }
}

/// One change for each of the codes 4 to 9.
pub fn break_block(code: usize, block: &mut [u8], r: &mut Random) {
    match code {
        4 => block[r.below(4)] ^= 1 << r.below(8),
        5 => block[4 + r.below(4)] ^= 1 << r.below(8),
        6 => block[8] = *r.pick(&[0, 8, 9, 128, 255]),
        7 => block[9] = *r.pick(&[1, 1, 2, 128, 255]),
        8 => set_length(block, *r.pick(&[497, 498, 512, 0x8000, 0xFFFF])),
        _ => behind_payload(block, r),
    }
}

fn codes() -> Vec<Damage> {
    let mut all = Vec::new();
    for code in 4..=9 {
        for (hit, name) in [(Hit::Any, "any"), (Hit::First, "first"), (Hit::Last, "last")] {
            all.push(on_block(hit, &format!("code {code} in {name} block"), move |block, r| {
                break_block(code, block, r);
            }));
        }
        for other in code + 1..=9 {
            all.push(on_block(
                Hit::Any,
                &format!("codes {code} and {other} in a block"),
                move |block, r| {
                    break_block(other, block, r);
                    break_block(code, block, r);
                },
            ));
        }
    }
    all.push(damage("two blocks broken", |tape, r| {
        for _ in 0..2 {
            let at = r.below(tape.len() / BLOCK) * BLOCK;
            if let Some(block) = tape.get_mut(at..at + BLOCK) {
                break_block(r.between(4, 9), block, r);
                seal(block);
            }
        }
    }));
    all
}

fn checks() -> Vec<Damage> {
    vec![
        damage("a bit anywhere", |tape, r| {
            let at = r.below(tape.len());
            if let Some(byte) = tape.get_mut(at) {
                *byte ^= 1 << r.below(8);
            }
        }),
        damage("a bit of a check", |tape, r| {
            let at = r.below(tape.len() / BLOCK) * BLOCK + 508 + r.below(4);
            if let Some(byte) = tape.get_mut(at) {
                *byte ^= 1 << r.below(8);
            }
        }),
        damage("check and all else", |tape, r| {
            let at = r.below(tape.len() / BLOCK) * BLOCK;
            if let Some(block) = tape.get_mut(at..at + BLOCK) {
                (4..=9).for_each(|code| break_block(code, block, r));
            }
        }),
        damage("last block all zeros", |tape, _| {
            let from = tape.len().saturating_sub(BLOCK);
            tape[from..].fill(0);
        }),
        damage("check turned round", |tape, r| {
            let at = r.below(tape.len() / BLOCK) * BLOCK;
            if let Some(check) = tape.get_mut(at + 508..at + BLOCK) {
                check.reverse();
            }
        }),
    ]
}

fn orders() -> Vec<Damage> {
    vec![
        damage("two blocks swapped", |tape, r| {
            let blocks = tape.len() / BLOCK;
            if blocks >= 2 {
                let at = r.below(blocks - 1) * BLOCK;
                tape[at..at + 2 * BLOCK].rotate_left(BLOCK);
            }
        }),
        damage("a block missing", |tape, r| {
            let blocks = tape.len() / BLOCK;
            if blocks >= 1 {
                let at = r.below(blocks) * BLOCK;
                tape.drain(at..at + BLOCK);
            }
        }),
        damage("a block twice", |tape, r| {
            let at = r.below(tape.len() / BLOCK) * BLOCK;
            if let Some(block) = tape.get(at..at + BLOCK).map(<[u8]>::to_vec) {
                tape.splice(at..at, block);
            }
        }),
    ]
}

/// Brings the tape to a size: cut, or filled up.
fn sized(size: usize, label: &str, byte: u8) -> Damage {
    damage(label, move |tape, _| tape.resize(size, byte))
}

fn sizes() -> Vec<Damage> {
    let mut all: Vec<Damage> = [
        0, 1, 511, 512, 513, 1023, 1024, 1025, 65_535, 65_536, 65_537, 66_048, 523_776, 524_287,
        524_288, 524_289, 524_800, 1_048_576,
    ]
    .into_iter()
    .map(|size| sized(size, &format!("{size} bytes"), 0))
    .collect();
    all.push(sized(524_289, "524289 bytes of FF", 0xFF));
    all.push(damage("some bytes less", |tape, r| {
        let less = r.between(1, 511).min(tape.len());
        tape.truncate(tape.len() - less);
    }));
    all.push(damage("some bytes more", |tape, r| {
        let more = r.between(1, 511);
        tape.extend(r.bytes(more));
    }));
    all.push(damage("a line feed more", |tape, _| tape.push(b'\n')));
    all.push(damage("damaged and not whole", |tape, r| {
        let at = r.below(tape.len());
        if let Some(byte) = tape.get_mut(at) {
            *byte ^= 0x10;
        }
        tape.push(0);
    }));
    all.push(damage("any bytes", |tape, r| {
        let size = *r.pick(&[1, 511, 512, 1024, 5120, 524_288]);
        *tape = r.bytes(size);
    }));
    all
}

/// Lets good blocks follow until there are `blocks`, and `tail` bytes more.
pub fn grown(blocks: usize, tail: usize) -> Damage {
    damage(&format!("{blocks} blocks and {tail} bytes"), move |tape, r| {
        if tape.len() < BLOCK {
            return;
        }
        tape.truncate(tape.len() / BLOCK * BLOCK);
        while tape.len() < blocks * BLOCK {
            let number = tape.len() / BLOCK;
            let mut block = tape[tape.len() - BLOCK..].to_vec();
            block[..4].copy_from_slice(&(number as u32).to_be_bytes());
            seal(&mut block);
            tape.extend(block);
        }
        tape.truncate(blocks * BLOCK);
        tape.extend(r.bytes(tail));
    })
}

/// A bit of a late block, and perhaps a tail.
fn late(tail: usize) -> Damage {
    damage(&format!("a late bit and {tail} bytes"), move |tape, r| {
        let from_end = r.below(tape.len() / 8);
        if let Some(byte) = tape.iter_mut().rev().nth(from_end) {
            *byte ^= 1 << r.below(8);
        }
        tape.extend(r.bytes(tail));
    })
}

/// Damages that show where the limits of a tape lie.
pub fn long_damages() -> Vec<Damage> {
    let most = MOST_BLOCKS;
    [
        (128, 0),
        (129, 0),
        (129, 1),
        (most - 1, 0),
        (most - 1, 1),
        (most - 1, 511),
        (most, 0),
        (most, 1),
        (most, 511),
        (most + 1, 0),
        (most + 1, 7),
    ]
    .map(|(blocks, tail)| grown(blocks, tail))
    .into_iter()
    .chain([late(0), late(300)])
    .collect()
}

pub fn damages() -> Vec<Damage> {
    [codes(), checks(), orders(), sizes()].concat()
}
