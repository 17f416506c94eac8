//! Object lists as made cards have them.

use crate::random::Random;

/// Tags for object lists, with the length their value has.
pub const LIST_TAGS: [(u16, usize); 33] = [
    (0x9F02, 6),
    (0x9F03, 6),
    (0x9F1A, 2),
    (0x5F2A, 2),
    (0x9A, 3),
    (0x9C, 1),
    (0x9F37, 4),
    (0x9F09, 2),
    (0x95, 5),
    (0x9B, 2),
    (0x8A, 2),
    (0x82, 2),
    (0x5A, 8),
    (0x5F24, 3),
    (0x5F25, 3),
    (0x9F08, 2),
    (0x9F0D, 5),
    (0x9F0E, 5),
    (0x9F0F, 5),
    (0x9F06, 7),
    (0x9F1B, 4),
    (0x9F35, 1),
    (0x8C, 4),
    (0x8D, 4),
    (0x94, 4),
    (0x84, 7),
    (0x70, 3),
    (0x9F00, 2),
    (0xBF0C, 5),
    (0x9F38, 3),
    (0x9F33, 3),
    (0x8E, 10),
    (0x9F42, 2),
];

/// One entry of a list in bytes.
pub fn wish(tag: u16, length: usize) -> Vec<u8> {
    let [high, low] = tag.to_be_bytes();
    if high == 0 {
        vec![low, length as u8]
    } else {
        vec![high, low, length as u8]
    }
}

/// A list that asks for exactly `total` bytes, or for about what is usual.
pub fn any_list(total: Option<usize>, r: &mut Random) -> Vec<u8> {
    let entries = r.below(9);
    let mut left = total.unwrap_or(252);
    let mut out = Vec::new();
    for _ in 0..entries {
        let (tag, natural) = *r.pick(&LIST_TAGS);
        let length = match r.below(8) {
            0 => 0,
            1 => natural - 1,
            2 => natural + 1,
            3 => r.below(20),
            _ => natural,
        };
        if length <= left {
            left -= length;
            out.extend(wish(tag, length));
        }
    }
    if total.is_some() {
        let (tag, _) = *r.pick(&LIST_TAGS);
        out.extend(wish(tag, left));
    }
    out
}

/// Lists that give reason 9 where they are to be filled.
pub fn bad_list(r: &mut Random) -> Vec<u8> {
    let mut list = any_list(Some(r.below(100)), r);
    match r.below(9) {
        0 => list = vec![0x00],
        1 => list.push(0x9C),
        2 => list.extend([0x9F, 0x80, 0x01]),
        3 => list.push(0x9F),
        4 => list.extend([0x00, 0x00]),
        5 => list.extend([0x9F, 0x02]),
        6 => list = any_list(Some(253), r),
        7 => list = [wish(0x9F02, 200), wish(0x95, 53)].concat(),
        _ => list = [wish(0x9C, 255), wish(0x9C, 255)].concat(),
    }
    list
}
