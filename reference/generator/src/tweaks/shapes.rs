//! 8E and 9F42 of every shape, missing and where they do not count, with a
//! START of either size.

use super::verified::SUPPORTED;
use crate::random::Random;
use crate::sessions::card::Card;
use crate::sessions::lists::bad_list;
use crate::sessions::tweak::{tweak, Tweak};
use crate::sessions::verification::{any_rule, RuleList};

/// The longest value of 8E that an answer can hold.
const LONGEST: usize = 250;

/// 8E of so many bytes, alone in its record if it is long.
fn set_sized(card: &mut Card, size: usize, r: &mut Random) {
    let mut value = RuleList::any(0, r).bytes();
    while value.len() < size {
        value.extend(any_rule(r));
    }
    value.truncate(size);
    if size > 60 {
        card.noisy = false;
        card.relocate(vec![[8, 1, 2, 0]], r);
        card.objects.values_mut().for_each(|object| object.0 = 0);
        card.objects.insert(0x8E, (1, value));
    } else {
        card.set(0x8E, value, r);
    }
}

/// A way to set 8E or 9F42 up, and the reason under a START with capabilities
/// and under one without.
fn shape(
    reasons: (u8, u8),
    label: &str,
    apply: impl Fn(&mut Card, &mut Random) + Clone + 'static,
) -> Vec<Tweak> {
    let before = apply.clone();
    vec![
        tweak(reasons.0, label, move |_, card, r| apply(card, r)),
        tweak(reasons.1, &format!("{label}, formerly"), move |start, card, r| {
            before(card, r);
            start.capabilities = None;
        }),
    ]
}

fn sizes() -> Vec<Tweak> {
    let long = [122, 124, 126, 128, 130, 248, 249, LONGEST];
    let short = [0, 1, 2, 4, 6, 7, 8, 9, 10, 11, 12, 13, 31, 32, 33, 59];
    let mut all = Vec::new();
    for size in short.into_iter().chain(long) {
        let reason = if size >= 8 && size % 2 == 0 { 0 } else { 5 };
        all.extend(shape((reason, 0), &format!("8E of {size} bytes"), move |card, r| {
            set_sized(card, size, r);
            card.aip[0] |= SUPPORTED;
        }));
    }
    for (size, reason) in [(0, 5), (1, 5), (2, 0), (3, 5), (4, 5)] {
        all.extend(shape((reason, 0), &format!("9F42 of {size} bytes"), move |card, r| {
            card.set(0x9F42, r.bytes(size), r);
        }));
    }
    all
}

/// 8E and the bit of the AIP, one without the other.
fn presences() -> Vec<Tweak> {
    [
        shape((0, 0), "8E without the bit", |card, _| card.aip[0] &= !SUPPORTED),
        shape((0, 0), "8E and every other bit", |card, _| card.aip = [!SUPPORTED, 0xFF]),
        shape((0, 0), "8E and no other bit", |card, _| card.aip = [SUPPORTED, 0x00]),
        shape((0, 0), "the bit without 8E", |card, _| drop(card.objects.remove(&0x8E))),
        shape((0, 0), "neither the bit nor 8E", |card, _| {
            card.aip[0] &= !SUPPORTED;
            card.objects.remove(&0x8E);
        }),
        shape((0, 0), "no 9F42", |card, _| drop(card.objects.remove(&0x9F42))),
        shape((5, 0), "8E odd without the bit", |card, r| {
            card.set(0x8E, vec![0; 9], r);
            card.aip[0] &= !SUPPORTED;
        }),
    ]
    .concat()
}

/// Verification together with reasons to terminate.
fn pairs() -> Vec<Tweak> {
    let mut all = Vec::new();
    for tag in [0x5A, 0x5F24, 0x8C, 0x8D] {
        all.extend(shape((8, 8), &format!("no {tag:X}, 8E"), move |card, _| {
            card.objects.remove(&tag);
        }));
        all.extend(shape((5, 8), &format!("no {tag:X}, 8E odd"), move |card, r| {
            card.objects.remove(&tag);
            card.set(0x8E, vec![0; 11], r);
        }));
    }
    all.extend(shape((9, 9), "8C bad, 8E", |card, r| card.set(0x8C, bad_list(r), r)));
    all.extend(shape((9, 9), "8C bad, 8E of 8 bytes", |card, r| {
        card.set(0x8C, bad_list(r), r);
        card.set(0x8E, r.bytes(8), r);
    }));
    all.extend(shape((5, 9), "8C bad, 8E odd", |card, r| {
        card.set(0x8C, bad_list(r), r);
        card.set(0x8E, vec![0; 13], r);
    }));
    all
}

/// What a free mix can choose from.
pub fn shapes() -> Vec<Tweak> {
    [sizes(), presences(), pairs()].concat()
}
