//! Entries cut off, silent, too many, too few or out of order.

use super::ending::{any_of, ending, Ending};
use crate::random::Random;
use crate::sessions::plan::Item;
use rules::tape::{ANSWER, COMMAND, DECISION, HOST, MOST_BLOCKS, RESULTS, SILENCE, START};

/// An entry of any kind; half of the time copied from the session.
fn any_item(items: &[Item], r: &mut Random) -> Item {
    if !items.is_empty() && r.chance(50) {
        return r.pick(items).clone();
    }
    let size = *r.pick(&[0, 0, 1, 3, 9, 74, 77, 496]);
    Item::new(r.between(1, usize::from(RESULTS)) as u8, r.bytes(size))
}

pub fn cuts() -> Vec<Ending> {
    vec![
        ending("whole", |_, _| ()),
        ending("cut anywhere", |items, r| items.truncate(r.below(items.len()))),
        ending("cut before the decision", |items, _| items.truncate(items.len() - 1)),
        ending("cut after START", |items, _| items.truncate(1)),
        ending("cut after a COMMAND", |items, r| {
            let at = any_of(items, COMMAND, r).unwrap_or(0);
            items.truncate(at + 1);
        }),
        ending("cut after an ANSWER", |items, r| {
            let at = any_of(items, ANSWER, r).unwrap_or(0);
            items.truncate(at + 1);
        }),
        ending("cut after HOST", |items, r| {
            let at = any_of(items, HOST, r).unwrap_or(0);
            items.truncate(at + 1);
        }),
        ending("nothing left", |items, _| items.clear()),
    ]
}

/// Cuts after an entry of the kind and lets a silence follow.
fn silence_after(kind: u8, payload: &'static [u8], label: &str) -> Ending {
    ending(label, move |items, r| {
        let at = any_of(items, kind, r).unwrap_or(0);
        items.truncate(at + 1);
        items.push(Item::new(SILENCE, payload));
    })
}

pub fn silences() -> Vec<Ending> {
    vec![
        silence_after(COMMAND, &[], "silence where an answer is due"),
        silence_after(COMMAND, &[0], "silence with a payload"),
        silence_after(COMMAND, &[7; 496], "silence with a long payload"),
        silence_after(START, &[], "silence after START"),
        silence_after(ANSWER, &[], "silence after an ANSWER"),
        silence_after(HOST, &[], "silence after HOST"),
        silence_after(DECISION, &[], "silence after the DECISION"),
        ending("silence alone", |items, _| *items = vec![Item::new(SILENCE, [])]),
        ending("silence twice", |items, r| {
            let at = any_of(items, COMMAND, r).unwrap_or(0);
            items.truncate(at + 1);
            items.extend([Item::new(SILENCE, []), Item::new(SILENCE, [])]);
        }),
        ending("silence between COMMAND and ANSWER", |items, r| {
            let at = any_of(items, COMMAND, r).unwrap_or(0);
            items.insert(at + 1, Item::new(SILENCE, []));
        }),
        ending("silence in place of an ANSWER", |items, r| {
            let at = any_of(items, ANSWER, r).unwrap_or(0);
            items[at] = Item::new(SILENCE, []);
        }),
        ending("silence and another entry", |items, r| {
            let at = any_of(items, COMMAND, r).unwrap_or(0);
            let more = any_item(items, r);
            items.truncate(at + 1);
            items.extend([Item::new(SILENCE, []), more]);
        }),
        ending("silence anywhere", |items, r| {
            let at = r.below(items.len() + 1);
            items.insert(at, Item::new(SILENCE, []));
        }),
    ]
}

pub fn additions() -> Vec<Ending> {
    vec![
        ending("an entry too many", |items, r| items.push(any_item(items, r))),
        ending("the decision twice", |items, _| items.extend(items.last().cloned())),
        ending("the session twice", |items, _| items.extend(items.clone())),
        ending("START twice", |items, _| items.insert(1, items[0].clone())),
        ending("an entry too many inside", |items, r| {
            let at = r.below(items.len());
            items.insert(at, any_item(items, r));
        }),
        ending("an entry doubled", |items, r| {
            let at = r.below(items.len());
            items.insert(at, items[at].clone());
        }),
        ending("an entry dropped", |items, r| {
            items.remove(r.below(items.len()));
        }),
        ending("two entries swapped", |items, r| {
            let at = r.below(items.len() - 1);
            let last = items.len() - 1;
            items.swap(at, (at + 1).min(last));
        }),
        ending("an entry of another kind", |items, r| {
            let at = r.below(items.len());
            items[at].kind = items[at].kind % RESULTS + 1;
        }),
    ]
}

pub fn strangers() -> Vec<Ending> {
    vec![
        ending("HOST put in", |items, r| {
            let at = r.between(1, items.len());
            items.insert(at, Item::new(HOST, [1, 0x30, 0x30]));
        }),
        ending("HOST dropped", |items, _| items.retain(|item| item.kind != HOST)),
        ending("a full tape", |items, r| {
            while items.len() < MOST_BLOCKS {
                items.push(any_item(items, r));
            }
        }),
        ending("any entries", |items, r| {
            let count = r.between(1, 12);
            *items = (0..count).map(|_| any_item(items, r)).collect();
        }),
    ]
}

/// Entries of one session and another, until the tape is full, or nearly.
pub fn filled_up() -> Vec<Ending> {
    [MOST_BLOCKS - 1, MOST_BLOCKS].map(filled_up_to).to_vec()
}

pub fn filled_up_to(entries: usize) -> Ending {
    ending(&format!("{entries} entries"), move |items, r| {
        while items.len() < entries {
            let item = r.pick(items).clone();
            items.push(item);
        }
    })
}
