//! Faults of the answers while the application is chosen (02, R-12), and the
//! stages that they can befall.

use super::{anywhere, select};
use crate::random::Random;
use crate::sessions::fault::{chance, Fault};
use crate::sessions::nodes::{Answer, Node};
use rules::choosing::Stage;

/// Statuses that 001 tells apart, and some that it does not.
#[rustfmt::skip]
const STATUSES: [[u8; 2]; 14] = [
    [0x6A, 0x81], [0x6A, 0x82], [0x6A, 0x83], [0x62, 0x83], [0x62, 0x00], [0x62, 0x82], [0x63, 0x00],
    [0x63, 0xC1], [0x69, 0x85], [0x61, 0x10], [0x6C, 0x20], [0x90, 0x01], [0x6E, 0x00], [0x91, 0x00],
];

/// Each status, with the data and without.
fn statuses() -> Vec<Fault> {
    let mut all = Vec::new();
    for status in STATUSES {
        let [high, low] = status;
        all.push(chance(&format!("status {high:02X}{low:02X} with data"), move |a, r| {
            let mut bytes = a.bytes(r);
            bytes.truncate(bytes.len().saturating_sub(2));
            a.raw = Some([&bytes[..], &status].concat());
        }));
        all.push(chance(&format!("status {high:02X}{low:02X}"), move |a, _| {
            a.raw = Some(status.to_vec());
        }));
    }
    all.push(chance("9000 alone", |a, _| a.raw = Some(vec![0x90, 0x00])));
    all
}

/// Changes what is inside a constructed member, or inside all of its kind.
fn inside(a: &mut Answer, outer: u16, change: impl Fn(&mut Vec<Node>)) {
    for member in a.open() {
        match member {
            Node::Tree(tag, inner) if *tag == outer => change(inner),
            _ => (),
        }
    }
}

/// Sets an object inside: none, one or more values of it.
fn set(inner: &mut Vec<Node>, tag: u16, values: &[&[u8]]) {
    inner.retain(|node| node.tag() != Some(tag));
    inner.extend(values.iter().map(|value| Node::Leaf(tag, value.to_vec())));
}

/// A fault that sets an object inside `outer`.
fn setting(outer: u16, tag: u16, values: &'static [&'static [u8]]) -> Fault {
    let sizes: Vec<String> = values.iter().map(|value| value.len().to_string()).collect();
    let label = format!("{tag:X} in {outer:X}: {} of {} bytes", values.len(), sizes.join(", "));
    chance(&label, move |a, _| inside(a, outer, |inner| set(inner, tag, values)))
}

fn pse() -> Vec<Fault> {
    let values: [&'static [&'static [u8]]; 9] =
        [&[], &[&[]], &[&[0]], &[&[1]], &[&[10]], &[&[11]], &[&[30]], &[&[1, 1]], &[&[1], &[1]]];
    let mut all: Vec<Fault> = values.map(|values| setting(0xA5, 0x88, values)).to_vec();
    all.push(chance("88 in 6F", |a, r| a.insert(Node::Leaf(0x88, vec![1]), r)));
    all.push(chance("87 of no meaning here", |a, _| {
        inside(a, 0xA5, |inner| set(inner, 0x87, &[&[], &[1, 2]]));
    }));
    all.push(chance("9F38 of no meaning here", |a, _| {
        inside(a, 0xA5, |inner| set(inner, 0x9F38, &[&[0], &[0]]));
    }));
    for size in [13, 15, 16, 17] {
        all.push(chance(&format!("84 of {size} bytes"), move |a, _| {
            let mut name = rules::choosing::PSE.to_vec();
            name.resize(size, 0x20);
            a.replace(0x84, name);
        }));
    }
    all
}

/// 87 in an FCI, and labels that nobody looks at.
fn application() -> Vec<Fault> {
    let values: [&'static [&'static [u8]]; 6] =
        [&[], &[&[]], &[&[0x81]], &[&[2]], &[&[1, 1]], &[&[1], &[1]]];
    let mut all: Vec<Fault> = values.map(|values| setting(0xA5, 0x87, values)).to_vec();
    for tag in [0x50, 0x9F12, 0x9F11, 0x5F2D, 0x88] {
        all.push(setting(0xA5, tag, &[&[], &[7; 20]]));
    }
    all.push(chance("87 in 6F", |a, r| a.insert(Node::Leaf(0x87, vec![1]), r)));
    all
}

fn with_entry(label: &str, entry: impl Fn(&mut Random) -> Node + 'static) -> Fault {
    chance(label, move |a, r| {
        let node = entry(r);
        a.insert(node, r);
    })
}

fn leaf(tag: u16, value: &[u8]) -> Node {
    Node::Leaf(tag, value.to_vec())
}

/// Records of the directory: every object of an entry, and other entries.
fn directory() -> Vec<Fault> {
    let names: [&'static [&'static [u8]]; 6] =
        [&[], &[&[]], &[&[0xA0; 4]], &[&[0xA0; 17]], &[&[0xA0; 5], &[0xA0; 5]], &[&[0xA0; 16]]];
    let priorities: [&'static [&'static [u8]]; 5] =
        [&[], &[&[]], &[&[1, 1]], &[&[1], &[1]], &[&[0x85]]];
    let mut all: Vec<Fault> = names.map(|values| setting(0x61, 0x4F, values)).to_vec();
    all.extend(priorities.map(|values| setting(0x61, 0x87, values)));
    all.push(setting(0x61, 0x50, &[&[], &[7; 20]]));
    all.push(setting(0x61, 0x9D, &[&[0xA0; 5]]));
    all.extend([
        with_entry("a DDF's entry", |_| {
            Node::Tree(0x61, vec![leaf(0x9D, &[0xA0; 5]), leaf(0x87, &[1, 2, 3])])
        }),
        with_entry("a DDF's entry with 9D twice", |_| {
            Node::Tree(0x61, vec![leaf(0x9D, &[]), leaf(0x9D, &[0xA0; 5])])
        }),
        with_entry("an entry without anything", |_| Node::Tree(0x61, vec![])),
        with_entry("an entry with a wrong 87 that cannot match", |_| {
            Node::Tree(0x61, vec![leaf(0x4F, &[0xEE; 7]), leaf(0x87, &[])])
        }),
        with_entry("an entry that cannot match", |_| {
            Node::Tree(0x61, vec![leaf(0x4F, &[0xEE; 7])])
        }),
        with_entry("an entry inside 73", |_| {
            Node::Tree(0x73, vec![Node::Tree(0x61, vec![leaf(0x87, &[])])])
        }),
        with_entry("a name outside the entries", |_| leaf(0x4F, &[0xA0])),
        chance("an entry again", |a, r| a.double(0x61, r)),
        chance("an entry inside an entry", |a, _| {
            inside(a, 0x61, |inner| inner.push(Node::Tree(0x61, vec![leaf(0x4F, &[1])])));
        }),
        chance("two records in one", |a, _| a.behind.push(Node::Tree(0x70, vec![]))),
        chance("no entries", |a, _| a.open().clear()),
    ]);
    all
}

/// What is peculiar to the answers of a stage: statuses and its own objects.
pub fn choosing_own(stage: Stage) -> Vec<Fault> {
    let own = match stage {
        Stage::Pse => pse(),
        Stage::Directory => directory(),
        _ => application(),
    };
    [statuses(), own].concat()
}

/// What can befall them as it can befall others.
pub fn choosing_other(stage: Stage) -> Vec<Fault> {
    let all = if stage == Stage::Directory { anywhere() } else { [select(), anywhere()].concat() };
    // What 01 has as a reason is none here.
    all.into_iter().map(|fault| Fault { reason: None, ..fault }).collect()
}
