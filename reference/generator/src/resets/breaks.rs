//! Ways to put the characters of a capture wrong, each with its rule (02, R-1).

use super::made::{free_group, Group, Made, A, B, C};
use crate::random::Random;
use rules::reset::Reset;

/// Something that is put wrong in the characters, with the rule that breaks.
pub type Break = (&'static str, fn(&mut Made, &mut Random));

/// A byte that is none of those given.
fn other_than(good: &[u8], r: &mut Random) -> u8 {
    loop {
        let byte = if r.chance(50) { r.byte() } else { *r.pick(&[0x00, 0x01, 0x0F, 0x10, 0xFF]) };
        if !good.contains(&byte) {
            return byte;
        }
    }
}

pub const BREAKS: [Break; 19] = [
    ("TA1", |m, r| {
        m.groups[0].characters[A] = Some(other_than(&[0x11], r));
        if let Some(group) = m.groups.get_mut(1) {
            group.characters[A] = group.characters[A].map(|ta2| ta2 & !0x10);
        }
    }),
    // TA2 with b5 takes the rule off TA1.
    ("TA2", |m, r| {
        m.groups[0].characters[A] = Some(r.byte());
        m.group(2).characters[A] = Some(r.byte() | 0x10);
    }),
    ("TB1", |m, r| {
        m.reset = Reset::Cold;
        m.groups[0].characters[B] = Some(other_than(&[0x00], r));
    }),
    ("TB1-ABSENT", |m, _| {
        m.reset = Reset::Cold;
        m.groups[0].characters[B] = None;
    }),
    ("TD1", |m, r| m.group(2).protocol = r.between(2, 15) as u8),
    ("TA2", |m, r| m.group(2).characters[A] = Some(r.byte() | 0x10)),
    ("TB2", |m, r| m.group(2).characters[B] = Some(other_than(&[], r))),
    ("TC2", |m, r| m.group(2).characters[C] = Some(*r.pick(&[0, 1, 9, 11, 0x1A, 0xFF]))),
    ("TD2", |m, r| m.group(3).protocol = *r.pick(&[0, 2, 3, 7, 13, 15])),
    ("TD2", |m, _| {
        m.group(2).protocol = 1;
        m.group(3).protocol = 14;
    }),
    ("TA3", |m, r| {
        m.group(3).protocol = 1;
        m.group(3).characters[A] = Some(*r.pick(&[0x00, 0x01, 0x0F, 0x0A, 0xFF]));
    }),
    ("TB3-ABSENT", |m, _| {
        m.group(3).protocol = 1;
        m.group(3).characters[B] = None;
    }),
    ("TB3-ABSENT", |m, r| {
        m.group(2).protocol = 1;
        m.group(3).protocol = *r.pick(&[0, 2, 14]);
        m.group(3).characters[B] = None;
    }),
    ("TB3-ABSENT", |m, _| {
        m.group(2).protocol = 1;
        m.groups.truncate(2);
    }),
    ("TB3-BWI", |m, r| {
        m.group(3).protocol = 1;
        m.group(3).characters[B] = Some((r.between(5, 15) * 16 + r.below(6)) as u8);
    }),
    ("TB3-CWI", |m, r| {
        m.group(3).protocol = 1;
        m.group(3).characters[B] = Some((r.below(5) * 16 + r.between(6, 15)) as u8);
    }),
    ("TB3-N", |m, r| {
        let cwi = r.below(8) as u8;
        let least = 1u16 << cwi;
        let n = *r.pick(&[least, least + 1, 254]);
        m.groups[0].characters[C] = Some(n.clamp(least, 254) as u8);
        m.group(3).protocol = 1;
        m.group(3).characters[B] = Some(r.below(5) as u8 * 16 + cwi);
    }),
    ("TC3", |m, r| {
        m.group(3).protocol = 1;
        m.group(3).characters[C] = Some(*r.pick(&[0x01, 0x02, 0x80, 0xFF]));
    }),
    // More characters are announced than may be sent, and they are there.
    ("LONG", |m, r| {
        m.group(3);
        while m.data().len() < 33 + 15 {
            m.groups.push(Group { characters: [Some(0); 3], ..free_group(r) });
        }
        let count = r.below(16);
        m.historical = r.bytes(count);
    }),
];
