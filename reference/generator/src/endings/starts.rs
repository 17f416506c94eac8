//! START with another payload.

use super::ending::{flip, on_payload, Ending};
use crate::sessions::start::{any_date, NO_DAYS};
use rules::hex;
use rules::tape::START;

/// Single bytes of START that make it invalid, or at least another one.
#[rustfmt::skip]
const POKES: [(usize, u8); 32] = [
    (0, 3), (0, 255), (1, 0xA0), (6, 0x0A), (7, 0xF0), (12, 0x0F), (13, 0xA0), (15, 0x0B),
    (16, 0x9C), (17, 0x1A), (18, 0x00), (18, 0x13), (18, 0x0A), (19, 0x00), (19, 0x32), (19, 0x2F),
    (20, 0xA0), (25, 0xFF), (30, 0x0A), (31, 0), (31, 100), (31, 255), (32, 100), (33, 0xA0),
    (38, 0x0A), (39, 100), (57, 4), (57, 17), (57, 0), (57, 255), (21, 0xFF), (42, 0xFF),
];

pub fn starts() -> Vec<Ending> {
    let mut all: Vec<Ending> = POKES
        .into_iter()
        .map(|(at, value)| {
            on_payload(START, &format!("START byte {at} is {value:02X}"), move |p, _| p[at] = value)
        })
        .collect();
    all.extend(NO_DAYS.map(|date| {
        let label = format!("START on {}", hex::text(&date));
        on_payload(START, &label, move |p, _| p[17..20].copy_from_slice(&date))
    }));
    all.extend([
        on_payload(START, "START on any date", |p, r| p[17..20].copy_from_slice(&any_date(r))),
        on_payload(START, "START late in a month", |p, r| p[19] = *r.pick(&[0x29, 0x30, 0x31])),
        on_payload(START, "START empty", |p, _| p.clear()),
        on_payload(START, "START with target above maximum", |p, _| {
            p[32] = 50;
            p[39] = 49;
        }),
        on_payload(START, "START with the threshold at the floor limit", |p, _| {
            p[25..31].copy_from_slice(&[0, 0, 0, 0, 0, 9]);
            p[33..39].copy_from_slice(&[0, 0, 0, 0, 0, 9]);
        }),
        on_payload(START, "START with the threshold over the floor limit", |p, _| {
            p[25..31].copy_from_slice(&[0; 6]);
            p[33..39].copy_from_slice(&[0, 0, 0, 0, 0, 1]);
        }),
        on_payload(START, "START with a byte behind the AID", |p, _| {
            p[57] = 15;
            p[73] = 1;
        }),
        on_payload(START, "START with another bit", |p, r| flip(p, r)),
        on_payload(START, "START of another type", |p, r| p[0] = r.below(3) as u8),
    ]);
    all.extend([72, 73, 74, 75, 76, 77, 78, 80, 151].map(|size| {
        on_payload(START, &format!("START of {size} bytes"), move |p, _| p.resize(size, 0))
    }));
    all
}
