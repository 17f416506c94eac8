//! Ways to change the RESULTS of a session that has been played, or to put
//! some where none are due (02, R-7).

use super::ending::{any_of, ending, flip, on_payload, Ending};
use crate::random::Random;
use crate::sessions::plan::Item;
use crate::sessions::start::any_capabilities;
use crate::sessions::verification::{any_results, bad_results};
use rules::tape::{ANSWER, COMMAND, DECISION, HOST, RESULTS, SILENCE, START};

/// Changes the entries at the place of RESULTS, if there is one.
fn at_results(
    label: &str,
    change: impl Fn(&mut Vec<Item>, usize, &mut Random) + 'static,
) -> Ending {
    ending(label, move |items, r| {
        if let Some(at) = any_of(items, RESULTS, r) {
            change(items, at, r);
        }
    })
}

fn payloads() -> Vec<Ending> {
    let mut all = vec![
        on_payload(RESULTS, "RESULTS empty", |p, _| p.clear()),
        on_payload(RESULTS, "RESULTS one byte longer", |p, _| p.push(0)),
        on_payload(RESULTS, "RESULTS one byte shorter", |p, _| {
            p.truncate(p.len().saturating_sub(1))
        }),
        on_payload(RESULTS, "RESULTS of 496 bytes", |p, _| p.resize(496, 1)),
        on_payload(RESULTS, "RESULTS with another bit", |p, r| flip(p, r)),
        on_payload(RESULTS, "RESULTS not good", |p, r| *p = bad_results(p.len(), r)),
        on_payload(RESULTS, "RESULTS of any other kind", |p, r| *p = any_results(p.len(), r)),
        on_payload(RESULTS, "RESULTS turned round", |p, _| p.reverse()),
    ];
    for value in [0, 1, 2, 3, 4, 5, 6, 0x41, 0x80, 0xFF] {
        all.push(on_payload(RESULTS, &format!("RESULTS with a byte {value}"), move |p, r| {
            let at = r.below(p.len());
            if let Some(byte) = p.get_mut(at) {
                *byte = value;
            }
        }));
        all.push(on_payload(RESULTS, &format!("RESULTS all {value}"), move |p, _| p.fill(value)));
    }
    all
}

fn places() -> Vec<Ending> {
    vec![
        at_results("RESULTS dropped", |items, at, _| drop(items.remove(at))),
        at_results("RESULTS twice", |items, at, _| items.insert(at, items[at].clone())),
        at_results("RESULTS before the last answer", |items, at, _| {
            items.swap(at, at.saturating_sub(1));
        }),
        at_results("RESULTS behind the request", |items, at, _| {
            let next = (at + 1).min(items.len() - 1);
            items.swap(at, next);
        }),
        at_results("RESULTS anywhere else", |items, at, r| {
            let moved = items.remove(at);
            let to = r.below(items.len() + 1);
            items.insert(to, moved);
        }),
    ]
}

/// Cuts, silences and other entries where RESULTS are.
fn interruptions() -> Vec<Ending> {
    vec![
        at_results("cut before RESULTS", |items, at, _| items.truncate(at)),
        at_results("cut after RESULTS", |items, at, _| items.truncate(at + 1)),
        at_results("cut after RESULTS and a command", |items, at, _| items.truncate(at + 2)),
        at_results("silence in place of RESULTS", |items, at, r| {
            items[at] = Item::new(SILENCE, []);
            if r.chance(50) {
                items.truncate(at + 1);
            }
        }),
        at_results("silence before RESULTS", |items, at, _| {
            items.insert(at, Item::new(SILENCE, []));
        }),
        at_results("silence after RESULTS", |items, at, _| {
            items.truncate(at + 1);
            items.push(Item::new(SILENCE, []));
        }),
        at_results("another kind in place of RESULTS", |items, at, r| {
            items[at].kind = *r.pick(&[START, COMMAND, ANSWER, HOST, DECISION]);
        }),
        at_results("HOST in place of RESULTS", |items, at, _| {
            items[at] = Item::new(HOST, [1, 0x30, 0x30]);
        }),
    ]
}

/// RESULTS where none are due.
fn strangers() -> Vec<Ending> {
    vec![
        ending("RESULTS alone", |items, r| {
            let size = r.below(4);
            *items = vec![Item::new(RESULTS, any_results(size, r))];
        }),
        ending("RESULTS put in", |items, r| {
            let count = r.below(5);
            let at = r.below(items.len() + 1);
            items.insert(at, Item::new(RESULTS, any_results(count, r)));
        }),
        ending("RESULTS put in after an ANSWER", |items, r| {
            let at = any_of(items, ANSWER, r).unwrap_or(0);
            let count = r.below(5);
            items.insert(at + 1, Item::new(RESULTS, any_results(count, r)));
        }),
        ending("RESULTS at the end", |items, r| {
            let count = r.below(3);
            items.push(Item::new(RESULTS, any_results(count, r)));
        }),
    ]
}

pub fn without_capabilities() -> Ending {
    on_payload(START, "START without its capabilities", |p, _| p.truncate(74))
}

/// START with and without its capabilities, and with other ones: what follows
/// stays as it was.
fn capabilities() -> Vec<Ending> {
    vec![
        without_capabilities(),
        on_payload(START, "START with capabilities it had not", |p, r| {
            p.truncate(74);
            p.extend(any_capabilities(r));
        }),
        on_payload(START, "START with other means", |p, r| {
            if let Some(byte) = p.get_mut(75) {
                *byte ^= 0x20 << r.below(3);
            }
        }),
        on_payload(START, "START with other unused capabilities", |p, r| {
            let at = *r.pick(&[74, 76]);
            if let Some(byte) = p.get_mut(at) {
                *byte ^= 1 << r.below(8);
            }
        }),
    ]
}

pub fn results() -> Vec<Ending> {
    [payloads(), places(), interruptions(), strangers(), capabilities()].concat()
}
