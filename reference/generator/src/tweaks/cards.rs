//! Cards that stay good: what they may lack, and how many records they have.

use crate::random::Random;
use crate::sessions::card::Card;
use crate::sessions::locators::dealt;
use crate::sessions::tweak::{tweak, Tweak};
use rules::answers::MOST_RECORDS;

/// The records that the base allowed (01); from the next on a session is long.
const FORMERLY_MOST: usize = 58;

pub fn optional_objects() -> Vec<Tweak> {
    vec![
        tweak(0, "same version", |start, card, r| card.set(0x9F08, start.version.to_vec(), r)),
        tweak(0, "other version", |start, card, r| {
            card.set(0x9F08, vec![start.version[0], start.version[1] ^ 0x80], r);
        }),
        tweak(0, "no version", |_, card, _| {
            card.objects.remove(&0x9F08);
        }),
        tweak(0, "no risk management, all other AIP bits", |_, card, _| card.aip = [0xF7, 0xFF]),
        // Without the issuer's codes another cryptogram may be asked for than
        // the one the plan answers with.
        Tweak {
            reason: None,
            ..tweak(0, "no optional objects", |_, card, _| {
                card.objects.retain(|tag, _| [0x5A, 0x5F24, 0x8C, 0x8D].contains(tag));
            })
        },
        tweak(0, "all in one record", |_, card, r| {
            card.relocate(vec![[8, 1, 1, 0]], r);
        }),
    ]
}

pub fn good_accounts() -> Vec<Tweak> {
    const ACCOUNTS: [&str; 7] = [
        "12",
        "1F",
        "0F",
        "12FF",
        "99999999999999999999",
        "1FFFFFFFFFFFFFFFFFFF",
        "1234567890123456789F",
    ];
    let mut all = Vec::new();
    for text in ACCOUNTS {
        let value = rules::hex::bytes(text).unwrap_or_default();
        all.push(tweak(0, &format!("account {text}"), move |_, card, r| {
            card.set(0x5A, value.clone(), r);
            // Both lists ask for it, too short, exact and too long.
            let list = [0x5A, 1, 0x5A, 10, 0x5A, 12, 0x5A, 0];
            card.set(0x8C, list.to_vec(), r);
            card.set(0x8D, list.to_vec(), r);
        }));
    }
    all
}

pub fn good_locators() -> Vec<Tweak> {
    let shapes: [(&str, &[[u8; 4]]); 8] = [
        ("58 records", &[[8, 1, 58, 0]]),
        ("58 records in two files", &[[8, 1, 29, 29], [80, 227, 255, 0]]),
        ("58 records in 58 entries", &[[16, 3, 3, 1]; 58]),
        ("57 records", &[[8, 1, 57, 57]]),
        ("the same record twice", &[[8, 1, 1, 1], [8, 1, 1, 1]]),
        ("file 10, record 255", &[[80, 255, 255, 1]]),
        ("all signed", &[[8, 1, 3, 3]]),
        ("files out of order", &[[80, 2, 3, 0], [8, 1, 2, 2], [40, 9, 9, 0]]),
    ];
    let mut all = Vec::new();
    for (label, shape) in shapes {
        all.push(tweak(0, label, move |_, card, r| card.relocate(shape.to_vec(), r)));
        all.push(tweak(0, &format!("{label}, short form"), move |_, card, r| {
            card.short[0] = true;
            card.relocate(shape.to_vec(), r);
        }));
    }
    all
}

/// A card that has so many records, dealt over several files.
fn with_records(records: usize) -> impl Fn(&mut Card, &mut Random) {
    move |card, r| {
        card.noisy = false;
        let locator = dealt(records, r);
        card.relocate(locator, r);
    }
}

/// AFLs that name more records than the base allowed.
pub fn long_locators() -> Vec<Tweak> {
    let mut all = Vec::new();
    for records in [59, 60, 63, 64, 140, 255, 256, 257, MOST_RECORDS - 1, MOST_RECORDS] {
        let set = with_records(records);
        all.push(tweak(0, &format!("{records} records"), move |_, card, r| set(card, r)));
    }
    all.push(tweak(0, "500 records, short form", |_, card, r| {
        with_records(MOST_RECORDS)(card, r);
        card.short[0] = true;
    }));
    all.push(tweak(0, "500 records, all the same", |_, card, r| {
        card.noisy = false;
        card.relocate([vec![[8, 7, 7, 0]; 2], vec![[8, 1, 249, 0]; 2]].concat(), r);
    }));
    all.push(tweak(0, "many records", |_, card, r| {
        with_records(r.between(FORMERLY_MOST + 1, MOST_RECORDS))(card, r);
    }));
    all
}
