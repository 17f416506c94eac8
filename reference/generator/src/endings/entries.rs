//! Cuts and breaks at every entry of a session whose lists are all filled in
//! part with zeros (02, R-6).

use super::ending::{ending, flip, Ending};
use crate::random::Random;
use crate::sessions::plan::Item;
use rules::tape::{RESULTS, SILENCE};

/// Entries of a session with one record, HOST and RESULTS among them.
pub const ENTRIES: usize = 14;

fn at_entry(
    at: usize,
    what: &str,
    change: impl Fn(&mut Vec<Item>, &mut Random) + 'static,
) -> Ending {
    ending(&format!("entry {at} {what}"), move |items, r| {
        if at < items.len() {
            change(items, r);
        }
    })
}

/// Cuts and breaks at one entry.
fn at(at: usize) -> Vec<Ending> {
    vec![
        at_entry(at, "is not there, nor any behind", move |items, _| items.truncate(at)),
        at_entry(at, "has another bit or none", move |items, r| {
            match items[at].payload.is_empty() {
                true => items[at].payload.push(0),
                false => flip(&mut items[at].payload, r),
            }
        }),
        at_entry(at, "is of another kind", move |items, r| {
            let shift = r.below(6) as u8;
            items[at].kind = (items[at].kind + shift) % RESULTS + 1;
        }),
        at_entry(at, "is a silence", move |items, r| {
            items[at] = Item::new(SILENCE, []);
            if r.chance(50) {
                items.truncate(at + 1);
            }
        }),
        at_entry(at, "is too short", move |items, _| {
            items[at].payload.pop();
        }),
    ]
}

/// Cuts and breaks at every entry of such a session.
pub fn at_every_entry() -> Vec<Ending> {
    (0..ENTRIES).flat_map(at).collect()
}
