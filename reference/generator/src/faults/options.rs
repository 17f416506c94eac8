//! Faults of the answer to GET PROCESSING OPTIONS.

use super::elsewhere::verification_elsewhere;
use crate::random::Random;
use crate::sessions::fault::{fault, Fault};
use crate::sessions::locators::dealt;
use crate::sessions::nodes::{Answer, Node};
use rules::answers::MOST_RECORDS;

/// Puts an AFL in, in whichever form the answer has.
fn set_locator(a: &mut Answer, locator: &[u8]) {
    if let Some(joined) = &mut a.joined {
        joined.truncate(2);
        joined.extend_from_slice(locator);
    } else {
        a.replace(0x94, locator.to_vec());
    }
}

/// One AFL entry with wrong contents.
fn bad_entry(r: &mut Random) -> [u8; 4] {
    const BAD: [[u8; 4]; 14] = [
        [0x00, 1, 1, 0],
        [0x58, 1, 1, 0],
        [0xF8, 1, 1, 0],
        [0x80, 1, 1, 0],
        [0x09, 1, 1, 0],
        [0x0A, 1, 1, 0],
        [0x0C, 1, 1, 0],
        [0x08, 0, 1, 0],
        [0x08, 0, 0, 0],
        [0x08, 2, 1, 0],
        [0x08, 255, 1, 0],
        [0x08, 1, 1, 2],
        [0x08, 1, 3, 4],
        [0x08, 5, 5, 255],
    ];
    *r.pick(&BAD)
}

pub fn options() -> Vec<Fault> {
    let own = [options_members(), options_pairs(), options_sizes()].concat();
    [own, vec![verification_elsewhere()]].concat()
}

fn options_members() -> Vec<Fault> {
    vec![
        fault(4, "82 twice", |a, r| a.double(0x82, r)),
        fault(4, "94 twice", |a, r| a.double(0x94, r)),
        fault(4, "94 twice, one wrong", |a, _| a.open().push(Node::Leaf(0x94, vec![0; 3]))),
        fault(6, "bad entry", |a, r| set_locator(a, &bad_entry(r))),
        fault(6, "bad entry last", |a, r| {
            set_locator(a, &[&[8, 1, 2, 1][..], &bad_entry(r)].concat())
        }),
        fault(6, "bad entry first", |a, r| {
            set_locator(a, &[&bad_entry(r)[..], &[8, 1, 2, 1]].concat())
        }),
        fault(6, "bad entry and too many", |a, r| {
            set_locator(a, &[&[8, 1, 255, 1].repeat(2)[..], &bad_entry(r)].concat());
        }),
        fault(7, "501 records", |a, r| set_locator(a, &dealt(MOST_RECORDS + 1, r).concat())),
        fault(7, "510 records", |a, _| set_locator(a, &[80, 1, 255, 255].repeat(2))),
        fault(7, "255 and 246 records", |a, _| {
            set_locator(a, &[8, 1, 255, 0, 16, 1, 246, 246]);
        }),
        fault(7, "very many records", |a, _| set_locator(a, &[8, 1, 255, 0].repeat(40))),
        fault(8, "no 82", |a, _| a.remove(0x82)),
        fault(8, "no 94", |a, _| a.remove(0x94)),
        fault(8, "nothing inside", |a, _| a.open().clear()),
    ]
}

/// Two things wrong at once: the lower reason counts.
fn options_pairs() -> Vec<Fault> {
    vec![
        fault(5, "82 wrong, bad entry", |a, r| {
            a.replace(0x82, vec![0]);
            set_locator(a, &bad_entry(r));
        }),
        fault(5, "82 wrong, no 94", |a, _| {
            a.replace(0x82, vec![0; 3]);
            a.remove(0x94);
        }),
        fault(6, "no 82, bad entry", |a, r| {
            a.remove(0x82);
            set_locator(a, &bad_entry(r));
        }),
        fault(7, "no 82, too many", |a, r| {
            a.remove(0x82);
            set_locator(a, &dealt(MOST_RECORDS + 1, r).concat());
        }),
        fault(8, "no 82, as many as can be", |a, r| {
            a.remove(0x82);
            set_locator(a, &dealt(MOST_RECORDS, r).concat());
        }),
    ]
}

fn options_sizes() -> Vec<Fault> {
    let mut all = Vec::new();
    for size in [0, 1, 3] {
        all.push(fault(5, &format!("82 of {size} bytes"), move |a, r| {
            a.replace(0x82, r.bytes(size))
        }));
    }
    for size in [0, 1, 2, 3, 5, 6, 7, 9] {
        all.push(fault(5, &format!("94 of {size} bytes"), move |a, _| {
            a.replace(0x94, vec![8; size])
        }));
    }
    for size in [0, 1, 2, 3, 4, 5, 7, 8, 9, 11] {
        all.push(fault(5, &format!("80 of {size} bytes"), move |a, _| {
            a.joined = Some(vec![8; size])
        }));
    }
    all
}
