//! A way to change the entries of a session that has been played.

use crate::random::Random;
use crate::sessions::plan::Item;
use rules::tape::{DECISION, START};
use std::rc::Rc;

type Change = dyn Fn(&mut Vec<Item>, &mut Random);

/// A way to change the entries.
#[derive(Clone)]
pub struct Ending {
    pub label: String,
    pub apply: Rc<Change>,
}

pub fn ending(label: &str, apply: impl Fn(&mut Vec<Item>, &mut Random) + 'static) -> Ending {
    Ending { label: label.to_string(), apply: Rc::new(apply) }
}

/// The index of any entry of a kind, if there is one.
pub fn any_of(items: &[Item], kind: u8, r: &mut Random) -> Option<usize> {
    let all: Vec<usize> = (0..items.len()).filter(|&i| items[i].kind == kind).collect();
    (!all.is_empty()).then(|| *r.pick(&all))
}

/// Changes the payload of any entry of a kind. A DECISION or START that an
/// earlier ending has brought to another size is left alone.
pub fn on_payload(
    kind: u8,
    label: &str,
    change: impl Fn(&mut Vec<u8>, &mut Random) + 'static,
) -> Ending {
    ending(label, move |items, r| {
        if let Some(at) = any_of(items, kind, r) {
            let payload = &mut items[at].payload;
            let usual = match kind {
                START => [74, 77, 207].contains(&payload.len()),
                DECISION => payload.len() == 9,
                _ => true,
            };
            if usual {
                change(payload, r);
                payload.truncate(496);
            }
        }
    })
}

pub fn flip(bytes: &mut [u8], r: &mut Random) {
    if !bytes.is_empty() {
        let at = r.below(bytes.len());
        bytes[at] ^= 1 << r.below(8);
    }
}
