//! Ways to change the CHOICEs of a session that has been played, to put some
//! where none is due, and to change the list in START (02, R-12).

use super::ending::{any_of, ending, flip, on_payload, Ending};
use crate::random::Random;
use crate::sessions::plan::Item;
use rules::tape::{ANSWER, CHOICE, COMMAND, DECISION, HOST, RESULTS, SILENCE, START};

/// Changes the entries at the place of a CHOICE, if there is one.
fn at_choice(label: &str, change: impl Fn(&mut Vec<Item>, usize, &mut Random) + 'static) -> Ending {
    ending(label, move |items, r| {
        if let Some(at) = any_of(items, CHOICE, r) {
            change(items, at, r);
        }
    })
}

fn payloads() -> Vec<Ending> {
    let mut all = vec![
        on_payload(CHOICE, "CHOICE empty", |p, _| p.clear()),
        on_payload(CHOICE, "CHOICE of two bytes", |p, r| p.push(r.byte() & 1)),
        on_payload(CHOICE, "CHOICE of 496 bytes", |p, _| p.resize(496, 0)),
        on_payload(CHOICE, "CHOICE with another bit", |p, r| flip(p, r)),
        on_payload(CHOICE, "CHOICE of the next place", |p, _| {
            p.iter_mut().for_each(|place| *place = place.wrapping_add(1));
        }),
        on_payload(CHOICE, "CHOICE of any place", |p, r| *p = vec![r.below(8) as u8]),
    ];
    for place in [0, 1, 2, 3, 4, 5, 6, 7, 0x7F, 0xFD, 0xFE, 0xFF] {
        let label = format!("CHOICE {place:02X}");
        all.push(on_payload(CHOICE, &label, move |p, _| *p = vec![place]));
    }
    all
}

fn places() -> Vec<Ending> {
    vec![
        at_choice("CHOICE dropped", |items, at, _| drop(items.remove(at))),
        at_choice("CHOICE twice", |items, at, _| items.insert(at, items[at].clone())),
        at_choice("CHOICE before the answer", |items, at, _| {
            items.swap(at, at.saturating_sub(1));
        }),
        at_choice("CHOICE behind the command", |items, at, _| {
            let next = (at + 1).min(items.len() - 1);
            items.swap(at, next);
        }),
        at_choice("CHOICE anywhere else", |items, at, r| {
            let moved = items.remove(at);
            let to = r.below(items.len() + 1);
            items.insert(to, moved);
        }),
        ending("all CHOICEs dropped", |items, _| items.retain(|item| item.kind != CHOICE)),
    ]
}

fn interruptions() -> Vec<Ending> {
    vec![
        at_choice("cut before CHOICE", |items, at, _| items.truncate(at)),
        at_choice("cut after CHOICE", |items, at, _| items.truncate(at + 1)),
        at_choice("cut after CHOICE and a command", |items, at, _| items.truncate(at + 2)),
        at_choice("silence in place of CHOICE", |items, at, r| {
            items[at] = Item::new(SILENCE, []);
            if r.chance(50) {
                items.truncate(at + 1);
            }
        }),
        at_choice("silence after CHOICE", |items, at, _| {
            items.truncate(at + 1);
            items.push(Item::new(SILENCE, []));
        }),
        at_choice("another kind in place of CHOICE", |items, at, r| {
            items[at].kind = *r.pick(&[START, COMMAND, ANSWER, HOST, DECISION, RESULTS]);
        }),
        at_choice("none chosen", |items, at, _| {
            items.truncate(at);
            items.push(Item::new(CHOICE, [0xFF]));
            items.push(Item::new(DECISION, [3, 12, 0, 0, 0, 0, 0, 0, 0]));
        }),
        at_choice("another place chosen and selected", |items, at, r| {
            items.truncate(at);
            items.push(Item::new(CHOICE, [r.below(4) as u8]));
        }),
    ]
}

/// CHOICE where none is due.
fn strangers() -> Vec<Ending> {
    vec![
        ending("CHOICE alone", |items, _| *items = vec![Item::new(CHOICE, [0])]),
        ending("CHOICE put in", |items, r| {
            let at = r.below(items.len() + 1);
            items.insert(at, Item::new(CHOICE, [*r.pick(&[0, 0, 1, 0xFF])]));
        }),
        ending("CHOICE put in after an ANSWER", |items, r| {
            let at = any_of(items, ANSWER, r).unwrap_or(0);
            items.insert(at + 1, Item::new(CHOICE, [*r.pick(&[0, 0xFF])]));
        }),
        ending("CHOICE at the end", |items, _| items.push(Item::new(CHOICE, [0]))),
        ending("an entry made a CHOICE", |items, r| {
            let at = r.below(items.len());
            items[at].kind = CHOICE;
        }),
        ending("end of a selection with another reason", |items, r| {
            let at = any_of(items, ANSWER, r).unwrap_or(0);
            items.truncate(at + 1);
            let reason = *r.pick(&[1, 2, 3, 4, 5, 8, 9, 11, 12]);
            items.push(Item::new(DECISION, [3, reason, 0, 0, 0, 0, 0, 0, 0]));
        }),
    ]
}

/// Bytes of a START with a list: those that make it another one, or none.
#[rustfmt::skip]
const POKES: [(usize, u8); 22] = [
    (57, 0), (57, 1), (57, 2), (57, 8), (57, 9), (58, 0), (58, 4), (58, 16), (58, 17), (58, 6),
    (74, 1), (75, 0), (75, 1), (75, 2), (76, 5), (201, 1), (205, 0), (205, 1), (205, 2), (206, 0),
    (206, 2), (202, 0xFF),
];

fn starts() -> Vec<Ending> {
    let mut all: Vec<Ending> = POKES
        .into_iter()
        .map(|(at, value)| {
            on_payload(START, &format!("list: START byte {at} is {value:02X}"), move |p, _| {
                p.iter_mut().skip(at).take(1).for_each(|byte| *byte = value);
            })
        })
        .collect();
    all.extend([74, 77, 202, 205, 206, 208, 225, 496].map(|size| {
        on_payload(START, &format!("list: START of {size} bytes"), move |p, _| p.resize(size, 0))
    }));
    all.push(on_payload(START, "list: another bit", |p, r| {
        let from = 57.min(p.len());
        flip(&mut p[from..], r);
    }));
    all
}

pub fn choices() -> Vec<Ending> {
    [payloads(), places(), interruptions(), strangers(), starts()].concat()
}
