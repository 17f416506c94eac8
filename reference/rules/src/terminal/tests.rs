use super::*;
use crate::bench::{former, sample};

/// Whether a START with these bytes is valid; its size makes no difference.
fn with(changes: &[(usize, u8)]) -> bool {
    let mut b = sample();
    for &(at, value) in changes {
        b[at] = value;
    }
    let valid = Terminal::read(&b).is_some();
    assert_eq!(valid, Terminal::read_either(&b).is_some());
    assert_eq!(valid, Terminal::read_either(&b[..FORMER_SIZE]).is_some());
    valid
}

#[test]
fn fields() {
    let t = Terminal::read(&sample()).unwrap();
    assert_eq!((t.amount(), t.floor(), t.threshold()), (7500, 10000, 5000));
    assert_eq!((t.random(), t.target(), t.maximum()), (40, 10, 70));
    assert_eq!(t.aid(), [0xA0, 0, 0, 0, 3]);
    assert_eq!((t.transaction(), t.other_amount(), t.currency()), (0, 0, &[0, 0][..]));
}

#[test]
fn two_sizes() {
    let long = [&sample()[..], &[0; 10]].concat();
    for size in 0..long.len() {
        let start = &long[..size];
        assert_eq!(Terminal::read(start).is_some(), size == 77, "{size}");
        assert_eq!(Terminal::read_either(start).is_some(), [74, 77].contains(&size), "{size}");
    }
    let now = Terminal::read(&sample()).unwrap();
    assert_eq!(now.capabilities(), Some(&[0x60, 0xE0, 0x00]));
    assert_eq!(now.tagged()[8], (0x9F33, &[0x60, 0xE0, 0x00][..]));
    let before = Terminal::read_either(&former()).unwrap();
    assert_eq!((before.capabilities(), before.tagged().len()), (None, 8));
    for at in 74..77 {
        assert!(with(&[(at, 0x00)]) && with(&[(at, 0x1F)]) && with(&[(at, 0xFF)]));
    }
}

#[test]
fn size_type_digits() {
    assert!(with(&[(0, 0)]) && with(&[(0, 1)]) && !with(&[(0, 3)]));
    let decimal =
        |at: usize| (1..21).contains(&at) || (25..31).contains(&at) || (33..39).contains(&at);
    for at in (1..31).chain(33..39) {
        assert_eq!(with(&[(at, 0x1A)]), !decimal(at), "{at}");
    }
}

#[test]
fn dates() {
    for (month, day, good) in [
        (0x01, 0x01, true),
        (0x12, 0x31, true),
        (0x02, 0x31, false),
        (0x00, 0x01, false),
        (0x13, 0x01, false),
        (0x01, 0x00, false),
        (0x01, 0x32, false),
    ] {
        assert_eq!(with(&[(18, month), (19, day)]), good);
    }
}

#[test]
fn days_that_exist() {
    let on = |d: u32| with(&[(17, (d >> 16) as u8), (18, (d >> 8) as u8), (19, d as u8)]);
    for good in [0x000229, 0x520229, 0x960229, 0x480229, 0x230228, 0x991231, 0x230430] {
        assert!(on(good), "{good:06X}");
    }
    for bad in [0x500229, 0x490229, 0x010229, 0x990229, 0x230230, 0x000230, 0x230431] {
        assert!(!on(bad), "{bad:06X}");
    }
    for (month, days) in [31, 28, 31, 30, 31, 30, 31, 31, 30, 31, 30, 31].into_iter().enumerate() {
        let month = (month + 1) as u32;
        let day = |d: u32| 0x230000 | (month / 10 * 16 + month % 10) << 8 | (d / 10 * 16 + d % 10);
        assert!(on(day(days)) && !on(day(days + 1)), "{month}");
        assert!(days == 31 || is_date(&day(31).to_be_bytes()[1..]), "{month}");
    }
}

#[test]
fn years() {
    assert_eq!([0x00, 0x49, 0x50, 0x99].map(year), [2000, 2049, 1950, 1999]);
    let order = [0x500101, 0x991231, 0x000101, 0x230228, 0x230231, 0x230301, 0x491231];
    let days = order.map(|date: u32| day_number(&date.to_be_bytes()[1..]));
    assert!(days.windows(2).all(|pair| pair[0] < pair[1]), "{days:?}");
}

#[test]
fn percentages_and_threshold() {
    assert!(with(&[(31, 1)]) && with(&[(31, 99)]) && !with(&[(31, 0)]) && !with(&[(31, 100)]));
    assert!(with(&[(32, 70)]) && !with(&[(32, 71)]));
    assert!(with(&[(39, 99)]) && !with(&[(39, 100)]) && !with(&[(39, 9)]));
    assert!(with(&[(36, 0x00), (37, 0x99), (38, 0x99)]));
    assert!(!with(&[(36, 0x01), (37, 0x00)]));
    assert!(with(&[(28, 0), (37, 0)]));
    assert!(!with(&[(28, 0)]));
}

#[test]
fn aids() {
    assert!(!with(&[(57, 4)]) && with(&[(57, 6)]) && with(&[(57, 16), (73, 9)]));
    assert!(!with(&[(57, 17)]) && !with(&[(63, 1)]) && !with(&[(73, 1)]) && !with(&[(57, 255)]));
}
