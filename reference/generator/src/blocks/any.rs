//! Messages and blocks of any kind, good and spoilt.

use crate::random::Random;
use rules::t1::block::{write, Control, Topic};

/// Information field sizes at the edges and between.
pub const SIZES: [usize; 13] = [1, 2, 3, 5, 15, 16, 17, 32, 64, 128, 200, 253, 254];
/// Lengths of messages, all such that sessions take them whole.
const LENGTHS: [usize; 14] = [1, 2, 2, 3, 4, 5, 6, 16, 30, 100, 254, 255, 258, 261];

pub fn any_message(r: &mut Random) -> Vec<u8> {
    let size = if r.chance(20) { r.between(1, 300) } else { *r.pick(&LENGTHS) };
    r.bytes(size)
}

/// A block of any protocol control byte and information field, with a good LRC.
pub fn any_control(r: &mut Random) -> Vec<u8> {
    let size = *r.pick(&[0, 0, 1, 1, 2, 5, 33]);
    let (nad, pcb) = (if r.chance(5) { r.byte() } else { 0 }, r.byte());
    let mut block = vec![nad, pcb, size as u8];
    block.extend(r.bytes(size));
    let lrc = block.iter().fold(0, |sum, byte| sum ^ byte);
    block.push(lrc);
    block
}

/// An S-block of the layer's own topics.
pub fn any_supervisory(r: &mut Random) -> Vec<u8> {
    let topic = *r.pick(&[Topic::Ifs, Topic::Ifs, Topic::Wtx, Topic::Wtx, Topic::Resynch]);
    let topic = if r.chance(4) { Topic::Abort } else { topic };
    let response = r.chance(25);
    let value = *r.pick(&[0x00, 0x01, 0x0F, 0x10, 0x11, 0x20, 0x80, 0xFD, 0xFE, 0xFF]);
    let inf: &[u8] = if matches!(topic, Topic::Ifs | Topic::Wtx) { &[value] } else { &[] };
    write(Control::S { topic, response }, inf)
}

pub fn any_ready(r: &mut Random) -> Vec<u8> {
    let error = *r.pick(&[0, 0, 1, 2, 2, 7, 15]);
    write(Control::R { number: r.below(2) as u8, error }, &[])
}

pub fn any_information(most: usize, r: &mut Random) -> Vec<u8> {
    let size = *r.pick(&[0, 1, 1, 1, 2, most, most, most, (most + 1).min(254), 254]);
    let control = Control::I { number: r.below(2) as u8, more: r.chance(40) };
    write(control, &r.bytes(size))
}

/// A block that is valid as such, mostly.
pub fn any_block(most: usize, r: &mut Random) -> Vec<u8> {
    match r.below(8) {
        0 | 1 => any_ready(r),
        2..=4 => any_supervisory(r),
        5 | 6 => any_information(most, r),
        _ => any_control(r),
    }
}

/// Spoils a block on its way.
pub fn spoilt(mut block: Vec<u8>, r: &mut Random) -> Vec<u8> {
    let at = r.below(block.len());
    match r.below(7) {
        0 | 1 => block[at] ^= 1 << r.below(8),
        2 => block[at] = r.byte(),
        3 => block.truncate(at),
        4 => {
            let more = r.between(1, 10);
            block.extend(r.bytes(more));
        }
        5 => drop(block.remove(at)),
        _ => {
            let size = r.below(12);
            block = r.bytes(size);
        }
    }
    block
}
