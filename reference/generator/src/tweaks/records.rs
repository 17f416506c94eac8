//! Records that end the session.

use crate::sessions::lists::bad_list;
use crate::sessions::tweak::{tweak, Tweak};

/// Values that give reason 5 wherever the object is.
fn bad_values() -> Vec<(u16, &'static str)> {
    let mut all = vec![];
    for text in [
        "",
        "F1",
        "FF",
        "1A",
        "A1",
        "12F3",
        "1FF1",
        "12EF",
        "1234567890123456789012",
        "FFFFFFFFFFFFFFFFFFFF",
    ] {
        all.push((0x5A, text));
    }
    for tag in [0x5F24, 0x5F25] {
        for text in [
            "", "2612", "26123100", "260001", "261301", "260100", "260132", "2A0101", "261A01",
            "26010A",
        ] {
            all.push((tag, text));
        }
    }
    for text in ["", "01", "010203"] {
        all.push((0x9F08, text));
    }
    for tag in [0x9F0D, 0x9F0E, 0x9F0F] {
        for text in ["", "00000000", "000000000000"] {
            all.push((tag, text));
        }
    }
    all
}

/// Records that end the session.
pub fn bad_records() -> Vec<Tweak> {
    let mut all = Vec::new();
    for (tag, text) in bad_values() {
        let value = rules::hex::bytes(text).unwrap_or_default();
        all.push(tweak(5, &format!("{tag:X} is {text}"), move |_, card, r| {
            card.set(tag, value.clone(), r);
        }));
    }
    for tag in [0x5A, 0x5F24, 0x8C, 0x8D] {
        all.push(tweak(8, &format!("no {tag:X}"), move |_, card, _| {
            card.objects.remove(&tag);
        }));
        all.push(tweak(5, &format!("no {tag:X} and a wrong version"), move |_, card, r| {
            card.objects.remove(&tag);
            card.set(0x9F08, vec![1], r);
        }));
    }
    all.push(tweak(8, "no objects at all", |_, card, _| card.objects.clear()));
    all.push(tweak(8, "no 8D, 8C bad", |_, card, r| {
        card.objects.remove(&0x8D);
        card.set(0x8C, bad_list(r), r);
    }));
    all
}
