//! The edges of the floor limit and of random selection.

use crate::sessions::start::MOST_AMOUNT;
use crate::sessions::tweak::{tweak, Tweak};

/// Limits, amount and percentages that decide floor and selection.
#[derive(Clone, Copy)]
struct Money {
    floor: u64,
    threshold: u64,
    amount: u64,
    target: u8,
    maximum: u8,
    random: u8,
}

fn money(label: &str, m: Money) -> Tweak {
    tweak(0, label, move |start, card, _| {
        (start.floor, start.threshold, start.amount) = (m.floor, m.threshold, m.amount);
        (start.target, start.maximum, start.random) = (m.target, m.maximum, m.random);
        card.aip[0] |= 0x08;
    })
}

/// The numbers of 01's cases J and K.
const BASE: Money =
    Money { floor: 10_000, threshold: 5000, amount: 7500, target: 10, maximum: 70, random: 40 };

/// The edges of the floor limit and of random selection.
pub fn edges_of_money() -> Vec<Tweak> {
    [edges_of_amounts(), edges_of_percentages(), highest_amounts()].concat()
}

fn edges_of_amounts() -> Vec<Tweak> {
    let base = BASE;
    vec![
        money("half way, random 40", base),
        money("half way, random 41", Money { random: 41, ..base }),
        money("one below half way, random 40", Money { amount: 7499, ..base }),
        money("amount is the floor limit", Money { amount: 10_000, ..base }),
        money("amount one below the floor limit", Money { amount: 9999, random: 69, ..base }),
        money("one below the floor limit, random 70", Money { amount: 9999, random: 70, ..base }),
        money("amount over the floor limit", Money { amount: 10_001, ..base }),
        money("amount is the threshold, random 10", Money { amount: 5000, random: 10, ..base }),
        money("amount is the threshold, random 11", Money { amount: 5000, random: 11, ..base }),
        money("below the threshold, random 10", Money { amount: 4999, random: 10, ..base }),
        money("below the threshold, random 11", Money { amount: 4999, random: 11, ..base }),
        money("floor limit 0", Money { floor: 0, threshold: 0, amount: 0, ..base }),
        money(
            "floor limit 1, amount 0",
            Money { floor: 1, threshold: 0, amount: 0, random: 10, ..base },
        ),
        money("threshold 0", Money { threshold: 0, amount: 5000, ..base }),
        money(
            "threshold one below the floor limit",
            Money { threshold: 9999, amount: 9999, random: 11, ..base },
        ),
    ]
}

fn edges_of_percentages() -> Vec<Tweak> {
    let base = BASE;
    vec![
        money("random below target", Money { random: 1, ..base }),
        money("target 0, random 1", Money { target: 0, amount: 0, random: 1, ..base }),
        money("target and maximum 0", Money { target: 0, maximum: 0, random: 1, ..base }),
        money("target and maximum 99", Money { target: 99, maximum: 99, random: 99, ..base }),
        money("target is maximum", Money { target: 50, maximum: 50, random: 51, ..base }),
    ]
}

fn highest_amounts() -> Vec<Tweak> {
    let huge = Money {
        floor: MOST_AMOUNT,
        threshold: 0,
        amount: MOST_AMOUNT - 1,
        target: 0,
        maximum: 99,
        random: 98,
    };
    vec![
        money("highest amounts, random 98", huge),
        money("highest amounts, random 99", Money { random: 99, ..huge }),
        money("highest amounts, target above", Money { target: 99, random: 1, ..huge }),
        money("amount highest of all", Money { amount: MOST_AMOUNT, ..huge }),
    ]
}
