//! Terminals and cards with verification, and such as only look like it (02,
//!

use crate::random::Random;
use crate::sessions::card::Card;
use crate::sessions::start::{any_capabilities, digits, Start, MOST_AMOUNT};
use crate::sessions::tweak::{tweak, Tweak};
use crate::sessions::verification::{
    any_limit, any_method, any_rule, flagged, RuleList, CONDITIONS, GO_ON, METHODS, NO_METHODS,
};

/// AIP byte 1: the card supports verification.
pub const SUPPORTED: u8 = 0x10;

/// Lets the session have verification by this list.
pub fn verify_by(list: RuleList, start: &mut Start, card: &mut Card, r: &mut Random) {
    if start.capabilities.is_none() {
        start.capabilities = Some(any_capabilities(r));
    }
    card.aip[0] |= SUPPORTED;
    card.set(0x8E, list.bytes(), r);
}

/// Three bits tell the means: offline PIN, online PIN, signature.
fn set_means(start: &mut Start, means: u8, r: &mut Random) {
    start.capabilities = Some([r.byte(), means << 5 | r.byte() & 0x1F, r.byte()]);
}

/// The rule and perhaps some behind it, so that it shows whether one goes on.
fn followed(rule: [u8; 2], r: &mut Random) -> Vec<[u8; 2]> {
    let mut rules = vec![rule];
    match r.below(5) {
        0 => (),
        1 => rules.push([0x1F, 0x00]),
        2 => rules.push([0x00, 0x00]),
        _ => rules.extend((0..r.between(1, 3)).map(|_| any_rule(r))),
    }
    rules
}

/// The six methods, and one that is none of them.
fn methods() -> impl Iterator<Item = (String, Option<u8>)> {
    let named = METHODS.into_iter().map(|method| (format!("method {method:02X}"), Some(method)));
    named.chain([("an unknown method".to_string(), None)])
}

fn method_or_none(method: Option<u8>, r: &mut Random) -> u8 {
    method.unwrap_or_else(|| *r.pick(&NO_METHODS))
}

/// Every method with all means there can be, always tried.
pub fn with_means() -> Vec<Tweak> {
    let mut all = Vec::new();
    for (name, method) in methods() {
        for means in 0..8 {
            let label = format!("{name}, means {means:03b}");
            all.push(tweak(0, &label, move |start, card, r| {
                let rule = [flagged(method_or_none(method, r), r), 0x00];
                let list = RuleList { rules: followed(rule, r), ..RuleList::default() };
                set_means(start, means, r);
                verify_by(list, start, card, r);
            }));
        }
    }
    all
}

/// Every method under all conditions.
pub fn under_conditions() -> Vec<Tweak> {
    let mut all = Vec::new();
    for (name, method) in methods() {
        for condition in CONDITIONS {
            let label = format!("{name}, condition {condition:02X}");
            all.push(tweak(0, &label, move |start, card, r| {
                let rule = [flagged(method_or_none(method, r), r), condition];
                let (x, y) = (any_limit(start.amount, r), any_limit(start.amount, r));
                let list = RuleList { x, y, rules: followed(rule, r) };
                verify_by(list, start, card, r);
            }));
        }
    }
    all
}

/// Whether the method is supported, as a condition and its opposite.
pub fn if_supported() -> Vec<Tweak> {
    let mut all = Vec::new();
    for (name, method) in methods() {
        for (means, condition) in (0..8).flat_map(|means| [(means, 0x03), (means, 0x04)]) {
            let label = format!("{name}, means {means:03b}, condition {condition:02X}");
            all.push(tweak(0, &label, move |start, card, r| {
                let rule = [flagged(method_or_none(method, r), r), condition];
                let list = RuleList { rules: followed(rule, r), ..RuleList::default() };
                set_means(start, means, r);
                verify_by(list, start, card, r);
            }));
        }
    }
    all
}

/// Whether 9F42 is there, and is the terminal's currency.
#[derive(Clone, Copy)]
enum Currency {
    Absent,
    Own,
    Other,
}

fn set_currency(currency: Currency, start: &Start, card: &mut Card, r: &mut Random) {
    let mut value = digits(start.currency, 2);
    match currency {
        Currency::Absent => {
            card.objects.remove(&0x9F42);
            return;
        }
        Currency::Own => (),
        Currency::Other => value[r.below(2)] ^= 1 << r.below(8),
    }
    card.set(0x9F42, value, r);
}

/// An amount held against one limit; the other one would tell the opposite.
fn limit(label: &str, currency: Currency, condition: u8, limit: u32, amount: u64) -> Tweak {
    tweak(0, label, move |start, card, r| {
        start.amount = amount;
        let under = matches!(condition, 0x06 | 0x08);
        let is_under = amount < u64::from(limit);
        let is_over = amount > u64::from(limit);
        let opposite = match (under, if under { is_under } else { is_over }) {
            (true, true) | (false, false) => 0,
            _ => u32::MAX,
        };
        let (x, y) = if condition < 0x08 { (limit, opposite) } else { (opposite, limit) };
        let method = if r.chance(60) { *r.pick(&[0x1F, 0x00, 0x3F]) } else { any_method(r) };
        let rules = followed([flagged(method, r), condition], r);
        set_currency(currency, start, card, r);
        verify_by(RuleList { x, y, rules }, start, card, r);
    })
}

/// Limits from both sides, in the own currency and in none.
pub fn limits() -> Vec<Tweak> {
    const CURRENCIES: [(Currency, &str); 3] = [
        (Currency::Absent, "no 9F42"),
        (Currency::Own, "own currency"),
        (Currency::Other, "another currency"),
    ];
    const HIGH: u64 = 1 << 32;
    let edges: [(u32, u64); 14] = [
        (5000, 4999),
        (5000, 5000),
        (5000, 5001),
        (0, 0),
        (0, 1),
        (1, 0),
        (u32::MAX, HIGH - 2),
        (u32::MAX, HIGH - 1),
        (u32::MAX, HIGH),
        (u32::MAX, MOST_AMOUNT),
        (7, HIGH + 6),
        (7, HIGH + 7),
        (0x8000_0000, 0x8000_0000),
        (0x7500, 7500),
    ];
    let mut all = Vec::new();
    for condition in 0x06..=0x09 {
        for (number, (most, amount)) in edges.into_iter().enumerate() {
            // The first three in every currency, the others in the own.
            for (currency, name) in CURRENCIES {
                if number < 3 || matches!(currency, Currency::Own) {
                    let label = format!("condition {condition:02X}, {most} and {amount}, {name}");
                    all.push(limit(&label, currency, condition, most, amount));
                }
            }
        }
    }
    all
}

/// Cash, cashback, both and neither.
pub fn cash() -> Vec<Tweak> {
    let mut all = Vec::new();
    for (transaction, other) in [
        (0, 0),
        (1, 0),
        (0, 1),
        (1, 1),
        (9, 0),
        (9, 4711),
        (10, 0),
        (11, 0),
        (20, MOST_AMOUNT),
        (99, 100_000_000_000),
    ] {
        for condition in [0x01, 0x02] {
            let label = format!("9C {transaction:02}, 9F03 {other}, condition {condition:02X}");
            all.push(tweak(0, &label, move |start, card, r| {
                (start.transaction, start.other) = (transaction, other);
                let method =
                    if r.chance(60) { *r.pick(&[0x1F, 0x00, 0x3F]) } else { any_method(r) };
                let rules = followed([flagged(method, r), condition], r);
                verify_by(RuleList { rules, ..RuleList::default() }, start, card, r);
            }));
        }
    }
    all
}

/// Some rules that all go on after a failure, most of them tried: several
/// bits can come together.
pub fn ways() -> Vec<Tweak> {
    let one = |number: usize| {
        tweak(0, &format!("way {number} through many rules"), |start, card, r| {
            let rule = |r: &mut Random| {
                let condition = if r.chance(70) { 0x00 } else { any_rule(r)[1] };
                [any_method(r) | GO_ON, condition]
            };
            let rules = (0..r.between(2, 9)).map(|_| rule(r)).collect();
            if r.chance(70) {
                set_means(start, 7, r);
            }
            verify_by(RuleList { rules, ..RuleList::default() }, start, card, r);
        })
    };
    (1..=60).map(one).collect()
}

/// A list of any rules, and verification due.
pub fn verified() -> Tweak {
    tweak(0, "verified", |start, card, r| {
        let list = RuleList::any(start.amount, r);
        verify_by(list, start, card, r);
    })
}

/// START of the former size, the card as for verification.
pub fn formerly() -> Tweak {
    tweak(0, "formerly", |start, card, r| {
        (verified().apply)(start, card, r);
        start.capabilities = None;
    })
}

/// Verification is not due, whatever the size of START.
pub fn unverified() -> Tweak {
    tweak(0, "unverified", |_, card, _| {
        card.objects.remove(&0x8E);
    })
}

/// All ways to set terminal and card up for a list that is good.
pub fn good_lists() -> Vec<Tweak> {
    let listed = [with_means(), under_conditions(), if_supported(), limits(), cash(), ways()];
    let listed = listed.concat();
    [listed, vec![verified(), formerly(), unverified()]].concat()
}
