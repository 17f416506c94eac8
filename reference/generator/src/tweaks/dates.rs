//! Dates of terminal and card, as far as they stay good.

use crate::sessions::start::{month_end, shifted, BORDER_DAYS, NO_DAYS};
use crate::sessions::tweak::{tweak, Tweak};

fn dates(label: &str, expiry: Option<bool>, effective: Option<bool>) -> Tweak {
    tweak(0, label, move |start, card, r| {
        start.date = [0x26, 0x07, 0x15];
        let moved = |way: Option<bool>| way.map_or(start.date, |later| shifted(start.date, later));
        card.set(0x5F24, moved(expiry).to_vec(), r);
        card.set(0x5F25, moved(effective).to_vec(), r);
    })
}

/// Dates that stay good.
pub fn good_dates() -> Vec<Tweak> {
    [edges_of_dates(), borders_of_years(), ends_of_months(), days_of_cards()].concat()
}

fn edges_of_dates() -> Vec<Tweak> {
    vec![
        dates("all dates equal", None, None),
        dates("expired yesterday", Some(false), None),
        dates("expires tomorrow", Some(true), None),
        dates("effective tomorrow", None, Some(true)),
        dates("effective yesterday", None, Some(false)),
        dates("effective tomorrow, expired yesterday", Some(false), Some(true)),
        tweak(0, "expires in 99, today in 00", |start, card, r| {
            start.date = [0x00, 0x01, 0x01];
            card.set(0x5F24, vec![0x99, 0x12, 0x31], r);
        }),
        tweak(0, "day 31 of month 02", |_, card, r| card.set(0x5F24, vec![0x26, 0x02, 0x31], r)),
    ]
}

/// The days on both sides of the year 50 rule's borders (02, R-2) against each
/// other, in both comparisons.
fn borders_of_years() -> Vec<Tweak> {
    let mut all = Vec::new();
    for today in BORDER_DAYS {
        for date in BORDER_DAYS {
            let text = |day: [u8; 3]| rules::hex::text(&day);
            let label = format!("today {}, expires {}", text(today), text(date));
            all.push(tweak(0, &label, move |start, card, r| {
                start.date = today;
                card.set(0x5F24, date.to_vec(), r);
                card.objects.remove(&0x5F25);
            }));
            let label = format!("today {}, effective {}", text(today), text(date));
            all.push(tweak(0, &label, move |start, card, r| {
                start.date = today;
                card.set(0x5F24, today.to_vec(), r);
                card.set(0x5F25, date.to_vec(), r);
            }));
        }
    }
    all
}

/// The last day of every month as today, and of February in leap and common
/// years (02, R-5).
fn ends_of_months() -> Vec<Tweak> {
    let months = (1..=12).map(|month| (23, month));
    let februaries = [0, 1, 4, 48, 49, 50, 51, 52, 72, 96, 99].map(|year| (year, 2));
    months
        .chain(februaries)
        .map(|(year, month)| {
            let today = month_end(year, month);
            let label = format!("today {}", rules::hex::text(&today));
            tweak(0, &label, move |start, _, _| start.date = today)
        })
        .collect()
}

/// Days that START may not have, as the card's dates, which keep the old test
/// (02, R-5).
fn days_of_cards() -> Vec<Tweak> {
    let mut all = Vec::new();
    for date in NO_DAYS {
        for tag in [0x5F24, 0x5F25] {
            let label = format!("{tag:X} is {}", rules::hex::text(&date));
            all.push(tweak(0, &label, move |_, card, r| card.set(tag, date.to_vec(), r)));
        }
    }
    all
}
