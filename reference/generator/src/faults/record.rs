//! Faults of records.

use crate::sessions::fault::{fault, Fault};
use crate::sessions::nodes::Node;

pub fn record() -> Vec<Fault> {
    let mut all = Vec::new();
    for tag in [0x5A, 0x5F24, 0x8C, 0x8D] {
        all.push(fault(4, &format!("{tag:X} again"), move |a, r| {
            // A good value: its first appearance must not be the trouble.
            let value: &[u8] = match tag {
                0x5A => &[0x12],
                0x5F24 => &[0x26, 0x01, 0x01],
                _ => &[],
            };
            a.insert(Node::Leaf(tag, value.to_vec()), r);
        }));
    }
    for tag in [0x5F25, 0x9F08, 0x9F0D, 0x9F0E, 0x9F0F] {
        all.push(fault(4, &format!("{tag:X} twice"), move |a, r| {
            a.insert(Node::Leaf(tag, vec![0; 5]), r);
            a.insert(Node::Leaf(tag, vec![0; 5]), r);
        }));
    }
    // Whether they harm depends on the size of START.
    all.extend(verification().into_iter().map(|(_, fault)| Fault { reason: None, ..fault }));
    all
}

/// Faults of records about 8E and 9F42, in a card that has both, and the
/// reason where START has capabilities; where it has none they are harmless
/// (02, R-7).
pub fn verification() -> Vec<(u8, Fault)> {
    let mut all = Vec::new();
    for (tag, size) in [(0x8E, 8), (0x8E, 14), (0x9F42, 2)] {
        all.push((
            4,
            fault(4, &format!("{tag:X} of {size} bytes again"), move |a, r| {
                let value = r.bytes(size);
                a.insert(Node::Leaf(tag, value), r);
            }),
        ));
        all.push((
            4,
            fault(4, &format!("{tag:X} of {size} bytes and empty"), move |a, r| {
                a.insert(Node::Leaf(tag, vec![]), r);
                a.insert(Node::Leaf(tag, vec![0; size]), r);
            }),
        ));
        all.push((
            0,
            fault(0, &format!("{tag:X} inside another object"), move |a, r| {
                let inner = vec![Node::Leaf(tag, vec![0; 3]), Node::Leaf(tag, vec![])];
                a.insert(Node::Tree(0x73, inner), r);
            }),
        ));
    }
    all
}
