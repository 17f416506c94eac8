//! Faults of the answer to SELECT.

use super::elsewhere::verification_elsewhere;
use crate::sessions::fault::{fault, Fault};
use crate::sessions::lists::{any_list, bad_list, wish};
use crate::sessions::nodes::{Answer, Node};

/// Replaces 9F38, or adds it to A5.
fn set_inner_list(a: &mut Answer, list: Vec<u8>) {
    for member in a.open() {
        if let Node::Tree(0xA5, inner) = member {
            inner.retain(|m| m.tag() != Some(0x9F38));
            inner.push(Node::Leaf(0x9F38, list.clone()));
        }
    }
}

fn double_inner_list(a: &mut Answer) {
    set_inner_list(a, vec![0x9C, 0x01]);
    for member in a.open() {
        if let Node::Tree(0xA5, inner) = member {
            inner.insert(0, Node::Leaf(0x9F38, vec![]));
        }
    }
}

/// Bends the name in 84.
fn change_name(a: &mut Answer, change: impl Fn(&mut Vec<u8>)) {
    for member in a.open() {
        match member {
            Node::Leaf(0x84, name) if name.len() >= 5 => change(name),
            _ => (),
        }
    }
}

pub fn select() -> Vec<Fault> {
    [select_members(), select_lists(), vec![verification_elsewhere()]].concat()
}

fn select_members() -> Vec<Fault> {
    vec![
        fault(0, "A5 empty", |a, _| {
            a.remove(0xA5);
            a.members.insert(0, Node::Tree(0xA5, vec![]));
        }),
        fault(4, "84 twice", |a, r| a.double(0x84, r)),
        fault(4, "A5 twice", |a, r| a.double(0xA5, r)),
        fault(4, "9F38 twice", |a, _| double_inner_list(a)),
        fault(4, "84 twice, one empty, no A5", |a, _| {
            a.remove(0xA5);
            a.members.push(Node::Leaf(0x84, vec![]));
        }),
        fault(5, "84 of 4 bytes", |a, _| change_name(a, |n| n.truncate(4))),
        fault(5, "84 empty", |a, _| change_name(a, Vec::clear)),
        fault(5, "84 of 17 bytes", |a, _| change_name(a, |n| n.resize(17, 1))),
        fault(5, "84 begins otherwise", |a, _| change_name(a, |n| n[0] ^= 1)),
        fault(5, "84 differs in byte 5", |a, _| change_name(a, |n| n[4] ^= 0x80)),
        fault(5, "84 wrong and no A5", |a, _| {
            change_name(a, |n| n[0] ^= 1);
            a.remove(0xA5);
        }),
        fault(8, "no 84", |a, _| a.remove(0x84)),
        fault(8, "no A5", |a, _| a.remove(0xA5)),
        fault(8, "nothing inside", |a, _| a.open().clear()),
    ]
}

fn select_lists() -> Vec<Fault> {
    vec![
        fault(8, "no 84, bad list", |a, r| {
            a.remove(0x84);
            set_inner_list(a, bad_list(r));
        }),
        fault(9, "bad list", |a, r| set_inner_list(a, bad_list(r))),
        fault(9, "list asks 253", |a, r| set_inner_list(a, any_list(Some(253), r))),
        fault(0, "list asks 252", |a, r| set_inner_list(a, any_list(Some(252), r))),
        fault(0, "list asks 128", |a, r| set_inner_list(a, any_list(Some(128), r))),
        fault(0, "list asks 127", |a, r| set_inner_list(a, any_list(Some(127), r))),
        fault(0, "list asks 0", |a, r| set_inner_list(a, any_list(Some(0), r))),
        fault(0, "list empty", |a, _| set_inner_list(a, vec![])),
        fault(0, "list of length byte 81", |a, _| set_inner_list(a, wish(0x9F37, 0x81))),
        fault(0, "list outside A5", |a, _| {
            set_inner_list(a, vec![]);
            a.members.push(Node::Leaf(0x9F38, vec![0x00]));
        }),
    ]
}
