//! Damaged tapes, with what is left of them (02, R-9).

use crate::damages::{behind_payload, break_block};
use crate::random::Random;
use crate::scenarios::by_chance_of;
use crate::sessions::plan::play;
use crate::tapes::tape_by;
use rules::edition::Edition;
use rules::hex;
use rules::recover::said_by;
use rules::tape::{check_holds, seal, BLOCK};

/// Some bytes, with the blocks that were not overwritten where they are a good
/// tape with blocks overwritten such that each fails its check.
struct Damaged {
    name: &'static str,
    bytes: Vec<u8>,
    untouched: Option<Vec<usize>>,
}

impl Damaged {
    fn new(name: &'static str, bytes: Vec<u8>) -> Damaged {
        Damaged { name, bytes, untouched: None }
    }

    fn line(&self, edition: Edition) -> String {
        let Damaged { name, bytes, untouched } = self;
        let bytes_text = hex::text(bytes).to_lowercase();
        let premise = match untouched {
            Some(steps) => format!("true, \"untouched\": {steps:?}"),
            None => "false".to_string(),
        };
        format!(
            "{{\"name\": \"{name}\", \"bytes\": \"{bytes_text}\", {}, \"premise\": {premise}}}",
            said_by(edition, bytes)
        )
    }
}

/// A readable tape of a session, whole or cut, with an entry at least. Long
/// ones are rare.
fn any_tape(edition: Edition, r: &mut Random) -> Vec<u8> {
    loop {
        let scenario = by_chance_of(edition, r);
        let mut items = play(&scenario.plan, r);
        if items.len() > 40 && r.chance(90) {
            continue;
        }
        if r.chance(30) {
            items.truncate(r.between(1, items.len()));
        }
        return tape_by(edition, &items, r.next() as u32 >> *r.pick(&[0, 0, 24, 31]));
    }
}

fn block_at(bytes: &mut [u8], step: usize) -> &mut [u8] {
    &mut bytes[step * BLOCK..(step + 1) * BLOCK]
}

/// A part of the block is that of another one, as a torn store leaves it.
fn tear(block: &mut [u8], other: &[u8], r: &mut Random) {
    let at = r.between(1, BLOCK - 1);
    if r.chance(50) {
        block[..at].copy_from_slice(&other[..at]);
    } else {
        block[at..].copy_from_slice(&other[at..]);
    }
}

/// Overwrites a block so that its check fails.
fn overwrite(block: &mut [u8], other: &[u8], r: &mut Random) {
    match r.below(8) {
        0 => block.fill(0),
        1 => block.fill(0xFF),
        2 => block.copy_from_slice(&r.bytes(BLOCK)),
        3 => block[r.below(BLOCK)] ^= 1 << r.below(8),
        4 => block[r.below(BLOCK)] = r.byte(),
        5 => break_block(r.between(4, 9), block, r),
        6 => block.copy_from_slice(&[&other[..BLOCK - 1], &[!other[BLOCK - 1]]].concat()),
        _ => tear(block, other, r),
    }
    // The bytes may have been such already.
    if check_holds(block) {
        block[BLOCK - 1 - r.below(4)] ^= 1 << r.below(8);
    }
}

/// A good tape with some blocks overwritten, few or many.
fn damaged(edition: Edition, r: &mut Random) -> Damaged {
    let mut bytes = any_tape(edition, r);
    let other = any_tape(edition, r);
    let blocks = bytes.len() / BLOCK;
    let most = *r.pick(&[1, 1, 2, 3, blocks]);
    let mut hit: Vec<usize> = (0..most).map(|_| r.below(blocks)).collect();
    hit.extend(r.chance(15).then_some(0));
    hit.sort_unstable();
    hit.dedup();
    for &step in &hit {
        overwrite(block_at(&mut bytes, step), &other[..BLOCK], r);
    }
    let untouched = (0..blocks).filter(|step| !hit.contains(step)).collect();
    Damaged { name: "damaged", bytes, untouched: Some(untouched) }
}

/// Whole blocks and some bytes of one more.
fn torn_tail(edition: Edition, r: &mut Random) -> Damaged {
    let mut bytes = any_tape(edition, r);
    let less = r.between(1, BLOCK - 1);
    bytes.truncate(bytes.len() - less);
    Damaged::new("torn_tail", bytes)
}

fn damaged_and_torn(edition: Edition, r: &mut Random) -> Damaged {
    let mut bytes = damaged(edition, r).bytes;
    let less = *r.pick(&[1, 2, 100, 510, 511]);
    bytes.truncate(bytes.len() - less);
    Damaged::new("damaged_and_torn", bytes)
}

/// Blocks of two tapes, good ones in places that are not theirs.
fn mixed(edition: Edition, r: &mut Random) -> Damaged {
    let mut bytes = any_tape(edition, r);
    let other = any_tape(edition, r);
    for _ in 0..r.between(1, 3) {
        let blocks = bytes.len() / BLOCK;
        let (to, own) = (r.below(blocks), r.below(blocks));
        let from = r.below(other.len() / BLOCK);
        let foreign = other[from * BLOCK..(from + 1) * BLOCK].to_vec();
        match r.below(5) {
            0 => block_at(&mut bytes, to).copy_from_slice(&foreign),
            1 => drop(bytes.splice(to * BLOCK..to * BLOCK, foreign)),
            2 => bytes.copy_within(own * BLOCK..(own + 1) * BLOCK, to * BLOCK),
            3 => bytes.extend_from_slice(&other),
            _ => bytes.rotate_left(to * BLOCK),
        }
    }
    Damaged::new("mixed", bytes)
}

/// Blocks with a good check that a code from 4 to 9 keeps from the judge.
fn shape(edition: Edition, r: &mut Random) -> Damaged {
    let mut bytes = any_tape(edition, r);
    for _ in 0..r.between(1, 3) {
        let step = r.below(bytes.len() / BLOCK);
        let block = block_at(&mut bytes, step);
        match r.below(8) {
            0 => block[8] = r.below(10) as u8,
            1 => behind_payload(block, r),
            code => break_block(code + 2, block, r),
        }
        seal(block);
    }
    Damaged::new("shape", bytes)
}

/// The tape does not begin where the bytes do.
fn shifted(edition: Edition, r: &mut Random) -> Damaged {
    let mut bytes = any_tape(edition, r);
    let by = *r.pick(&[1, 2, 255, 256, 511, 512, 513]);
    if r.chance(50) {
        bytes.splice(0..0, vec![0; by]);
    } else {
        bytes.drain(..by.min(bytes.len()));
    }
    Damaged::new("shifted", bytes)
}

fn noise(r: &mut Random) -> Damaged {
    let size = *r.pick(&[0, 1, 511, 512, 513, 1024, 2000, 5120]);
    let bytes = if r.chance(30) { vec![0; size] } else { r.bytes(size) };
    Damaged::new("noise", bytes)
}

/// More blocks than a tape may have; those beyond are listed all the same.
fn beyond(edition: Edition, r: &mut Random) -> Damaged {
    let mut bytes = any_tape(edition, r);
    let blocks = edition.most_blocks() + r.below(3);
    while bytes.len() < blocks * BLOCK {
        let number = (bytes.len() / BLOCK) as u32;
        let mut block = bytes[..BLOCK].to_vec();
        block[..4].copy_from_slice(&number.to_be_bytes());
        seal(&mut block);
        if r.chance(1) {
            block[r.below(BLOCK)] ^= 1;
        }
        bytes.extend(block);
    }
    let tail = *r.pick(&[0, 0, 1, 511]);
    bytes.extend(r.bytes(tail));
    Damaged::new("beyond", bytes)
}

fn any(edition: Edition, index: usize, r: &mut Random) -> Damaged {
    match index % 16 {
        0..=5 => damaged(edition, r),
        6 => torn_tail(edition, r),
        7 => damaged_and_torn(edition, r),
        8 | 9 => mixed(edition, r),
        10..=12 => shape(edition, r),
        13 => shifted(edition, r),
        14 => noise(r),
        _ if index % 64 == 15 => beyond(edition, r),
        _ => Damaged::new("plain", any_tape(edition, r)),
    }
}

/// Prints `count` damaged tapes, one a line.
pub fn make_remains(edition: Edition, count: usize, seed: u64) {
    for index in 0..count {
        let made = any(edition, index, &mut Random::nth(seed, index as u64));
        println!("{}", made.line(edition));
    }
}

#[cfg(test)]
mod tests {
    use super::*;
    use rules::judge::{judge, Verdict};
    use rules::recover::recover;

    /// 02, R-9: under the premise the list is what was not overwritten, and
    /// the judge does not pass it.
    #[test]
    fn under_the_premise() {
        for index in 0..300 {
            let made = any(Edition::default(), index, &mut Random::nth(8, index as u64));
            let Some(untouched) = &made.untouched else { continue };
            let steps: Vec<usize> = recover(&made.bytes).blocks.iter().map(|b| b.step).collect();
            assert_eq!(&steps, untouched, "{index}");
            let Verdict::Unreadable(damage) = judge(&made.bytes).verdict else {
                panic!("{index}: readable");
            };
            assert_eq!(damage.code, 3, "{index}");
        }
    }

    #[test]
    fn a_line_reads_as_it_should() {
        let made = Damaged { name: "damaged", bytes: vec![0; 512], untouched: Some(vec![1, 2]) };
        let line = made.line(Edition::default());
        assert!(line.ends_with(
            "\"blocks\": [], \"tail\": 0, \"judge\": \"UNREADABLE 0 3 0\", \
             \"premise\": true, \"untouched\": [1, 2]}"
        ));
        assert!(lines::json::parse(&line).is_some());
    }
}
