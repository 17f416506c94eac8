use super::*;
use crate::hex;

fn h(text: &str) -> Vec<u8> {
    hex::bytes(&text.replace(' ', "")).unwrap()
}

fn options(text: &str) -> Result<usize, Reason> {
    read_options(&h(text)).map(|o| o.records.len())
}

fn afl(text: &str) -> Result<usize, Reason> {
    read_locator(&h(text)).map(|r| r.len())
}

#[test]
fn case_g_records_in_order() {
    let records = read_locator(&h("08010301")).unwrap();
    assert_eq!(records, [[1, 0x0C], [2, 0x0C], [3, 0x0C]]);
}

#[test]
fn cases_h_i_the_most_records() {
    // 02, R-8: 59 are no longer too many, 501 are.
    assert_eq!(afl("08013A00"), Ok(58));
    assert_eq!(afl("08013B00"), Ok(59));
    assert_eq!(afl("0801FF00 1001F500"), Ok(500));
    assert_eq!(afl("0801FF00 1001F600"), Err(7));
    assert_eq!(afl("0801FF00 1001F600 08000100"), Err(6));
}

#[test]
fn run_case_first_record_zero() {
    assert_eq!(afl("08000100"), Err(6));
    assert_eq!(options("80 06 0000 08000100 9000"), Err(6));
}

#[test]
fn locator_contents() {
    for bad in [
        "00010100",
        "09010100",
        "0C010100",
        "58010100",
        "F8010100",
        "08020100",
        "08010102",
        "08010304",
        "08013B00 00010100",
        "0801FF00 08000000",
    ] {
        assert_eq!(afl(bad), Err(6), "{bad}");
    }
    assert_eq!(afl("50FFFF01"), Ok(1));
    assert_eq!(afl("0801FFFF"), Ok(255));
    assert_eq!(afl("08010101 08010101"), Ok(2));
}

#[test]
fn sizes_and_status() {
    assert_eq!(options(""), Err(1));
    assert_eq!(options("90"), Err(1));
    assert_eq!(read_options(&[0; 259]), Err(1));
    assert_eq!(read_options(&[0; 258]), Err(2));
    assert_eq!(options("6985"), Err(2));
    assert_eq!(options("9000"), Err(3));
    assert_eq!(options("0000 9000"), Err(3));
}

#[test]
fn options_forms_and_reasons() {
    assert_eq!(options("80 06 0000 08010100 9000"), Ok(1));
    assert_eq!(options("00 77 0A 82020000 9404 08010100 00 9000"), Ok(1));
    assert_eq!(options("77 0A 82020000 9404 08010100 77 00 9000"), Err(3));
    assert_eq!(options("70 0A 82020000 9404 08010100 9000"), Err(3));
    assert_eq!(options("80 02 0000 9000"), Err(5));
    assert_eq!(options("80 01 00 9000"), Err(5));
    assert_eq!(options("80 07 0000 08010100 08 9000"), Err(5));
    assert_eq!(options("77 0E 82020000 82020000 9404 08010100 9000"), Err(4));
    assert_eq!(options("77 09 820100 9404 08000100 9000"), Err(5));
    assert_eq!(options("77 06 9404 08000100 9000"), Err(6));
    assert_eq!(options("77 0A 9408 0801FF00 0801F600 9000"), Err(7));
    assert_eq!(options("77 06 9404 08013B00 9000"), Err(8));
    assert_eq!(options("77 06 9404 08010100 9000"), Err(8));
    assert_eq!(options("77 04 82020000 9000"), Err(8));
    assert_eq!(options("77 06 82020000 9400 9000"), Err(5));
}

#[test]
fn select_reasons() {
    let aid = h("A000000003");
    let select = |text: &str| read_select(&h(text), &aid);
    assert_eq!(select("6F 09 8405A000000003 A500 9000"), Ok(None));
    assert_eq!(select("6F 0D 8406A00000000399 A504 9F380100 9000"), Err(3));
    assert_eq!(select("6F 0E 8406A00000000399 A504 9F380100 9000"), Ok(Some(vec![0])));
    assert_eq!(select("6F 0B 8405A000000003 A500 A500 9000"), Err(4));
    assert_eq!(select("6F 0F 8405A000000003 A506 9F3800 9F3800 9000"), Err(4));
    assert_eq!(select("6F 0C 8405A000000003 9F3800 A500 9000"), Ok(None));
    assert_eq!(select("6F 09 8405A000000004 A500 9000"), Err(5));
    assert_eq!(select("6F 08 8404A0000000 A500 9000"), Err(5));
    assert_eq!(select("6F 07 8405A000000004 9000"), Err(5));
    assert_eq!(select("6F 07 8405A000000003 9000"), Err(8));
    assert_eq!(select("6F 02 A500 9000"), Err(8));
}

#[test]
fn accounts() {
    for good in ["12", "1F", "12FF", "0F", "1234567890FFFFFFFFFF", "99999999999999999999"] {
        assert!(is_account(&h(good)), "{good}");
    }
    for bad in ["", "F1", "FF", "1FF1", "1A", "1EFF", "12F3", "1234567890123456789012"] {
        assert!(!is_account(&h(bad)), "{bad}");
    }
}

#[test]
fn records() {
    let mut data = CardData::new(true);
    assert_eq!(data.take_record(&h("70 03 5A0112 9000")), Ok(()));
    assert_eq!(data.take_record(&h("70 03 5A0112 9000")), Err(4));
    assert_eq!(data.take_record(&h("70 05 7203 5A0112 9000")), Ok(()));
    assert_eq!(data.take_record(&h("70 00 9000")), Ok(()));
    assert_eq!(data.take_record(&h("70 06 5F2403 261301 9000")), Err(5));
    assert_eq!(data.take_record(&h("70 0A 8C00 8C00 5F2403 261301 9000")), Err(4));
    assert_eq!(data.take_record(&h("70 0A 8C00 8D00 5F2403 261231 9000")), Ok(()));
    assert!(data.is_complete());
    assert_eq!(data.get(0x5F24), Some(&[0x26, 0x12, 0x31][..]));
    assert_eq!(data.get(0x9F0D), None);
}

/// What a record gives for one object, which may follow others.
fn record(with_verification: bool, objects: &str) -> Result<(), Reason> {
    let value = h(objects);
    let answer = [&[0x70, 0x81, value.len() as u8][..], &value, &[0x90, 0x00]].concat();
    CardData::new(with_verification).take_record(&answer)
}

#[test]
fn verification_objects() {
    for size in [0, 1, 2, 4, 6, 7, 8, 9, 10, 11, 12, 31, 32, 33, 126, 127, 246, 247, 248] {
        let object = format!("8E81{size:02X}{}", "00".repeat(size));
        let want = if size >= 8 && size % 2 == 0 { Ok(()) } else { Err(5) };
        assert_eq!(record(true, &object), want, "{size}");
        assert_eq!(record(false, &object), Ok(()), "{size}");
    }
    for (object, want) in
        [("9F4200", Err(5)), ("9F420109", Err(5)), ("9F42020978", Ok(())), ("9F4203097800", Err(5))]
    {
        assert_eq!(record(true, object), want, "{object}");
        assert_eq!(record(false, object), Ok(()), "{object}");
    }
    for twice in ["9F420209789F42020978", "8E0100 8E00", "9F4200 5A00 9F4200"] {
        assert_eq!(record(true, twice), Err(4), "{twice}");
    }
    assert_eq!(record(false, "9F420209789F420209788E01008E00"), Ok(()));
    assert_eq!(record(false, "9F4200 5A00 9F4200"), Err(5));
    assert_eq!(record(true, "E103 8E0100 8E08 0000000000000000"), Ok(()));
}

#[test]
fn verification_objects_twice_in_the_session() {
    for object in ["8E08 0000000000000000", "9F42020978"] {
        let value = h(object);
        let answer = [&[0x70, value.len() as u8][..], &value, &[0x90, 0x00]].concat();
        let (mut now, mut before) = (CardData::new(true), CardData::new(false));
        assert_eq!((now.take_record(&answer), now.take_record(&answer)), (Ok(()), Err(4)));
        assert_eq!((before.take_record(&answer), before.take_record(&answer)), (Ok(()), Ok(())));
        assert_eq!((before.get(0x8E), before.get(0x9F42)), (None, None));
    }
    assert!(!CardData::new(true).is_complete());
}

#[test]
fn cryptograms() {
    let read = |text: &str| read_cryptogram(&h(text));
    let rest = "9F36020001 9F26080000000000000000";
    assert_eq!(read(&format!("77 14 9F2701BF {rest} 9000")), Ok(0xBF));
    assert_eq!(read(&format!("77 17 9F2701BF {rest} 9F1000 9000")), Ok(0xBF));
    assert_eq!(read(&format!("77 10 {rest} 9000")), Err(8));
    assert_eq!(read(&format!("77 13 9F2700 {rest} 9000")), Err(5));
    assert_eq!(read(&format!("77 18 9F270100 9F270100 {rest} 9000")), Err(4));
    for (size, want) in [(10, Err(5)), (11, Ok(0)), (43, Ok(0)), (44, Err(5)), (0, Err(5))] {
        let answer = [&[0x80, size][..], &vec![0; size as usize], &[0x90, 0]].concat();
        assert_eq!(read_cryptogram(&answer), want);
    }
}
