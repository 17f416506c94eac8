//! Faults of the answers to GENERATE AC.

use super::elsewhere::verification_elsewhere;
use crate::random::Random;
use crate::sessions::fault::{fault, Fault};
use crate::sessions::nodes::{Answer, Node};

/// The four objects of a GENERATE AC answer and their proper length.
const CRYPTOGRAM: [(u16, usize); 4] = [(0x9F27, 1), (0x9F36, 2), (0x9F26, 8), (0x9F10, 32)];

pub fn cryptogram() -> Vec<Fault> {
    [cryptogram_members(), cryptogram_pairs(), vec![verification_elsewhere()]].concat()
}

fn cryptogram_pairs() -> Vec<Fault> {
    vec![
        fault(8, "nothing inside", |a, _| a.open().clear()),
        fault(5, "9F36 wrong, no 9F27", |a, _| {
            a.replace(0x9F36, vec![]);
            a.remove(0x9F27);
        }),
        fault(4, "9F36 twice, 9F26 wrong", |a, r| {
            a.double(0x9F36, r);
            a.replace(0x9F26, vec![]);
        }),
        fault(5, "9F26 wrong, other cryptogram", |a, _| {
            a.replace(0x9F27, vec![0xC0]);
            a.replace(0x9F26, vec![0; 7]);
        }),
        fault(8, "no 9F36, other cryptogram", |a, _| {
            a.replace(0x9F27, vec![0xC0]);
            a.remove(0x9F36);
        }),
        fault(5, "9F10 of 33 bytes", |a, r| set_issuer_data(a, 33, r)),
        fault(0, "9F10 of 32 bytes", |a, r| set_issuer_data(a, 32, r)),
        fault(0, "9F10 empty", |a, r| set_issuer_data(a, 0, r)),
        fault(0, "no 9F10", |a, _| a.remove(0x9F10)),
    ]
}

fn cryptogram_members() -> Vec<Fault> {
    let mut all = Vec::new();
    for (tag, size) in CRYPTOGRAM {
        all.push(fault(4, &format!("{tag:X} twice"), move |a, r| {
            a.remove(tag);
            a.insert(Node::Leaf(tag, vec![0; size]), r);
            a.insert(Node::Leaf(tag, vec![0; size]), r);
        }));
        if tag != 0x9F10 {
            for wrong in [size - 1, size + 1] {
                all.push(fault(5, &format!("{tag:X} of {wrong} bytes"), move |a, r| {
                    a.replace(tag, r.bytes(wrong));
                }));
            }
            all.push(fault(8, &format!("no {tag:X}"), move |a, _| a.remove(tag)));
        }
    }
    for size in [0, 1, 10, 44, 100] {
        all.push(fault(5, &format!("80 of {size} bytes"), move |a, r| {
            a.joined = Some(r.bytes(size))
        }));
    }
    all
}

fn set_issuer_data(a: &mut Answer, size: usize, r: &mut Random) {
    a.remove(0x9F10);
    let data = r.bytes(size);
    a.insert(Node::Leaf(0x9F10, data), r);
}
