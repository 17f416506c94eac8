//! Captures before they are in bytes, and good ones of every shape.

use crate::random::Random;
use rules::reset::Reset;

/// A group of interface characters: TAi, TBi, TCi. The bit map before it (T0
/// or TD of the group before) also names a protocol; T0 does not.
#[derive(Clone, Default)]
pub struct Group {
    pub protocol: u8,
    pub characters: [Option<u8>; 3],
}

/// A capture before it is in bytes.
#[derive(Clone)]
pub struct Made {
    pub reset: Reset,
    pub groups: Vec<Group>,
    pub historical: Vec<u8>,
}

pub const A: usize = 0;
pub const B: usize = 1;
pub const C: usize = 2;

impl Made {
    /// The map that announces a group.
    fn map(&self, at: usize) -> u8 {
        let bits = self.groups[at].characters.map(|c| u8::from(c.is_some()));
        let more = u8::from(at + 1 < self.groups.len());
        (bits[A] | bits[B] << 1 | bits[C] << 2 | more << 3) << 4
    }

    /// Data bytes without TS.
    pub fn data(&self) -> Vec<u8> {
        let mut out = vec![self.map(0) | self.historical.len() as u8];
        for (at, group) in self.groups.iter().enumerate() {
            out.extend(group.characters.iter().flatten());
            if let Some(next) = self.groups.get(at + 1) {
                out.push(self.map(at + 1) | next.protocol);
            }
        }
        out.extend(&self.historical);
        if self.groups[1..].iter().any(|g| g.protocol != 0) {
            out.push(check_of(&out));
        }
        out
    }

    /// Group 2 or 3, put there if need be.
    pub fn group(&mut self, number: usize) -> &mut Group {
        while self.groups.len() < number {
            let protocol = u8::from(self.groups.len() > 1);
            self.groups.push(Group { protocol, ..Group::default() });
        }
        &mut self.groups[number - 1]
    }
}

pub fn check_of(data: &[u8]) -> u8 {
    data.iter().fold(0, |x, b| x ^ b)
}

fn maybe(percent: usize, value: u8, r: &mut Random) -> Option<u8> {
    r.chance(percent).then_some(value)
}

/// TB3 that is good for the TC1 given, which is one that allows any.
fn waiting(tc1: Option<u8>, r: &mut Random) -> u8 {
    let least = match tc1 {
        Some(0xFF) | None => 0,
        Some(n) => (0..5).find(|&cwi| 1u16 << cwi > u16::from(n)).unwrap_or(5),
    };
    (r.below(5) * 16 + r.between(least, 5)) as u8
}

/// A group without rules.
pub fn free_group(r: &mut Random) -> Group {
    let protocol = *r.pick(&[0, 1, 2, 14, 15]);
    Group { protocol, characters: [0; 3].map(|_: u8| r.chance(40).then(|| r.byte())) }
}

/// A capture that is accepted.
pub fn good(r: &mut Random) -> Made {
    let reset = if r.chance(50) { Reset::Cold } else { Reset::Warm };
    let tb1 = match reset {
        Reset::Cold => Some(0),
        Reset::Warm => *r.pick(&[None, Some(0), Some(0x25), Some(0xFF)]),
    };
    // The protocols of TD1 and TD2.
    const PROTOCOLS: [&[u8]; 7] = [&[], &[], &[0], &[0, 1], &[0, 14], &[1, 1], &[1, 1]];
    let protocols = *r.pick(&PROTOCOLS);
    let tc1 = if protocols.get(1) == Some(&1) {
        *r.pick(&[None, Some(0), Some(1), Some(3), Some(15), Some(30), Some(31), Some(0xFF)])
    } else {
        let byte = r.byte();
        *r.pick(&[None, Some(0), Some(0xFF), Some(0xFE), Some(31), Some(32), Some(byte)])
    };
    let mut groups = vec![Group { protocol: 0, characters: [maybe(30, 0x11, r), tb1, tc1] }];
    if let Some(&protocol) = protocols.first() {
        let ta2 = r.byte() & !0x10;
        let characters = [maybe(25, ta2, r), None, maybe(30, 0x0A, r)];
        groups.push(Group { protocol, characters });
    }
    match protocols.get(1) {
        Some(1) => {
            let size = *r.pick(&[0x10, 0x11, 0x20, 0x7F, 0x80, 0xFD, 0xFE]);
            let characters = [maybe(70, size, r), Some(waiting(tc1, r)), maybe(20, 0x00, r)];
            groups.push(Group { protocol: 1, characters });
        }
        Some(&protocol) => groups.push(Group { protocol, ..free_group(r) }),
        None => (),
    }
    if protocols.len() == 2 && r.chance(30) {
        for _ in 0..r.between(1, 3) {
            groups.push(free_group(r));
        }
    }
    let mut made = Made { reset, groups, historical: Vec::new() };
    let most = (32 - made.data().len()).min(15);
    let some = r.below(most + 1);
    let count = *r.pick(&[0, 0, 1.min(most), some, most]);
    made.historical = r.bytes(count);
    made
}
