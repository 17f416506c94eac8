//! Faults that can befall every answer.

use crate::random::Random;
use crate::sessions::card::meaningless;
use crate::sessions::fault::{chance, fault, Fault};
use crate::sessions::nodes::{Answer, Node};

/// Zeros behind the object until the whole answer has `size` bytes.
fn stretch(answer: &mut Answer, size: usize, r: &mut Random) {
    answer.loose = false;
    let mut bytes = answer.bytes(r);
    let status = bytes.split_off(bytes.len().saturating_sub(2));
    bytes.resize(size - 2, 0);
    bytes.extend(status);
    answer.raw = Some(bytes);
}

/// Bends the bytes of the answer as it would have been sent. One that another
/// fault has left without any data stays as it is.
fn bend(answer: &mut Answer, r: &mut Random, change: impl Fn(&mut Vec<u8>, &mut Random)) {
    let mut bytes = answer.bytes(r);
    if bytes.len() > 2 {
        change(&mut bytes, r);
        answer.raw = Some(bytes);
    }
}

fn sizes() -> Vec<Fault> {
    let mut all: Vec<Fault> = [259, 260, 300, 495, 496]
        .into_iter()
        .map(|size| fault(1, &format!("{size} bytes"), move |a, r| stretch(a, size, r)))
        .collect();
    all.push(fault(0, "258 bytes", |a, r| stretch(a, 258, r)));
    all.push(fault(0, "257 bytes", |a, r| stretch(a, 257, r)));
    all.push(fault(1, "no bytes", |a, _| a.raw = Some(vec![])));
    all.push(fault(1, "one byte", |a, _| a.raw = Some(vec![0x90])));
    all.push(fault(1, "496 bytes of other status", |a, r| {
        a.status = [0x6A, 0x82];
        stretch(a, 496, r);
    }));
    all.push(fault(2, "258 bytes of nothing", |a, _| a.raw = Some(vec![0; 258])));
    all
}

fn statuses() -> Vec<Fault> {
    const WORDS: [[u8; 2]; 10] = [
        [0x69, 0x85],
        [0x6A, 0x82],
        [0x90, 0x01],
        [0x91, 0x00],
        [0x00, 0x90],
        [0x62, 0x83],
        [0x61, 0x10],
        [0x80, 0x00],
        [0x00, 0x00],
        [0xFF, 0xFF],
    ];
    let mut all: Vec<Fault> = WORDS
        .into_iter()
        .map(|word| {
            fault(2, &format!("status {:02X}{:02X}", word[0], word[1]), move |a, _| a.status = word)
        })
        .collect();
    all.push(fault(2, "status alone", |a, r| a.raw = Some(r.pick(&WORDS).to_vec())));
    all.push(fault(2, "status and no list", |a, _| {
        a.status = [0x6F, 0x00];
        a.behind.push(Node::Raw(vec![0x5A]));
    }));
    all
}

/// Bytes that no list may hold at the place of an object.
const RUBBISH: [&[u8]; 15] = [
    &[0xC1],
    &[0x5F],
    &[0xC1, 0x80],
    &[0xC1, 0x83, 0x00, 0x00, 0x00],
    &[0xC1, 0xFF],
    &[0xDF, 0x80, 0x00],
    &[0xDF, 0xFF, 0x00],
    &[0xC1, 0x81],
    &[0xC1, 0x83, 0x00, 0x00, 0x01, 0x07],
    &[0xC1, 0x84, 0x00, 0x00, 0x00, 0x01, 0x07],
    &[0xDF, 0x81, 0x01, 0x01, 0x07],
    &[0xC1, 0x82, 0x00],
    &[0xC1, 0x7F, 0x01],
    &[0xE1, 0x01, 0xC1],
    &[0xE1, 0x04, 0xE2, 0x02, 0xC1, 0x05],
];

/// Another number of objects than one.
fn numbers() -> Vec<Fault> {
    vec![
        fault(3, "9000 alone", |a, _| a.raw = Some(vec![0x90, 0x00])),
        fault(3, "only zeros", |a, r| {
            let size = r.between(1, 256);
            a.raw = Some([vec![0; size], vec![0x90, 0x00]].concat());
        }),
        fault(3, "the object twice", |a, r| {
            bend(a, r, |bytes, _| {
                let data = bytes[..bytes.len() - 2].to_vec();
                bytes.splice(0..0, data);
                if bytes.len() > 258 {
                    *bytes = vec![0x90, 0x00];
                }
            })
        }),
        fault(3, "another object behind", |a, r| a.behind.push(meaningless(1, r))),
        fault(3, "another object before", |a, r| a.before.push(meaningless(1, r))),
    ]
}

/// The one object itself spoilt.
fn spoilt() -> Vec<Fault> {
    let mut all = vec![
        fault(3, "another outer tag", |a, r| {
            a.open();
            a.outer = *r.pick(&[0x61, 0x71, 0x7F00, 0x30, 0xE1]);
        }),
        // With as many bytes behind it as the length byte would say if it
        // were an ordinary one.
        fault(3, "length byte 80 and 128 bytes", |a, _| {
            let inside = [&[0xC1, 0x80][..], &[0; 128]].concat();
            *a.open() = vec![Node::Raw(inside)];
        }),
        fault(3, "length byte 83 and 131 bytes", |a, _| {
            let inside = [&[0xC1, 0x83][..], &[0; 131]].concat();
            *a.open() = vec![Node::Raw(inside)];
        }),
        fault(3, "last byte of the value missing", |a, r| {
            a.loose = false;
            a.insert(Node::Leaf(0xC1, vec![1, 2]), r);
            bend(a, r, |bytes, _| {
                bytes.remove(bytes.len() - 3);
            })
        }),
    ];
    for (index, bytes) in RUBBISH.into_iter().enumerate() {
        all.push(fault(3, &format!("rubbish {index} behind"), move |a, _| {
            a.behind.push(Node::Raw(bytes.to_vec()));
        }));
        all.push(fault(3, &format!("rubbish {index} inside"), move |a, _| {
            a.loose = false;
            a.open().push(Node::Raw(bytes.to_vec()));
        }));
    }
    all
}

/// Answers that stay good.
fn harmless() -> Vec<Fault> {
    vec![
        fault(0, "zeros around", |a, r| {
            a.before.push(Node::Raw(vec![0; r.between(1, 3)]));
            a.behind.push(Node::Raw(vec![0; r.between(1, 3)]));
        }),
        fault(0, "loose writing", |a, _| a.loose = true),
        fault(0, "meaningless objects", |a, r| {
            for _ in 0..r.between(1, 3) {
                let node = meaningless(3, r);
                let at = r.below(a.members.len() + 1);
                a.members.insert(at, node);
            }
        }),
        fault(0, "a meaningless object twice", |a, _| {
            a.members.push(Node::Leaf(0x5F20, vec![0x41]));
            a.members.push(Node::Leaf(0x5F20, vec![0x42]));
        }),
    ]
}

/// Answers that chance bends.
fn chances() -> Vec<Fault> {
    vec![
        chance("one byte other", |a, r| {
            bend(a, r, |bytes, r| {
                let at = r.below(bytes.len());
                bytes[at] = r.byte();
            })
        }),
        chance("one bit other", |a, r| {
            bend(a, r, |bytes, r| {
                let at = r.below(bytes.len());
                bytes[at] ^= 1 << r.below(8);
            })
        }),
        chance("a byte more", |a, r| {
            bend(a, r, |bytes, r| {
                let at = r.below(bytes.len());
                bytes.insert(at, r.byte());
            })
        }),
        chance("a byte less", |a, r| {
            bend(a, r, |bytes, r| {
                let at = r.below(bytes.len());
                bytes.remove(at);
            })
        }),
        chance("any bytes", |a, r| {
            let size = r.below(300);
            a.raw = Some([r.bytes(size), vec![0x90, 0x00]].concat());
        }),
    ]
}

/// Faults that can befall every answer.
pub fn anywhere() -> Vec<Fault> {
    [sizes(), statuses(), numbers(), spoilt(), harmless(), chances()].concat()
}
