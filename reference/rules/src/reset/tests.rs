use super::*;

fn say(reset: Reset, text: &str) -> String {
    line(&hex::bytes(&text.replace(' ', "")).unwrap(), reset)
}

fn cold(text: &str) -> String {
    say(Reset::Cold, text)
}

#[test]
fn line_bytes() {
    assert_eq!(turned(0x03), 0x3F);
    for byte in 0..=255 {
        assert_eq!(turned(turned(byte)), byte);
        for bit in 0..8 {
            assert_ne!(turned(byte) >> bit & 1, byte >> (7 - bit) & 1);
        }
    }
}

#[test]
fn basic_answers() {
    assert_eq!(
        cold("3B 62 00 05 4142"),
        "ACCEPTED direct T=0 N=5 INTERVAL=17 TA2=no WI=10 HISTORICAL=4142"
    );
    assert_eq!(cold("3B E0 00 00 81 31 FE 45 6B"), "REFUSED TCK:8");
    assert_eq!(
        cold("3B E0 00 00 81 31 FE 45 EB"),
        "ACCEPTED direct T=1 N=0 INTERVAL=12 TA2=no IFSC=254 BWI=4 CWI=5 HISTORICAL=-"
    );
    // The line bytes of 3F 61 00 FF 41.
    assert_eq!(
        cold("03 79 FF 00 7D"),
        "ACCEPTED inverse T=0 N=255 INTERVAL=12 TA2=no WI=10 HISTORICAL=7D"
    );
}

#[test]
fn initial_characters() {
    for text in ["3F 60 00 00", "FC 60 00 00", "00", "3A", "C0 79 FF 00"] {
        assert_eq!(cold(text), "REFUSED TS:0");
    }
    assert_eq!(cold("-"), "REFUSED CUT:0");
    assert_eq!(cold("3B"), "REFUSED CUT:1");
    assert_eq!(cold("03"), "REFUSED CUT:1");
}

#[test]
fn first_group() {
    assert_eq!(cold("3B 70 11 00 00")[..8], *"ACCEPTED");
    assert_eq!(cold("3B 70 12 00 00"), "REFUSED TA1:2");
    assert_eq!(cold("3B 60 25 00"), "REFUSED TB1:2");
    assert_eq!(cold("3B 40 00"), "REFUSED TB1-ABSENT:2");
    assert_eq!(cold("3B 50 12 00"), "REFUSED TA1:2 TB1-ABSENT:3");
    assert_eq!(say(Reset::Warm, "3B 60 25 00")[..8], *"ACCEPTED");
    assert_eq!(say(Reset::Warm, "3B 00")[..8], *"ACCEPTED");
    assert_eq!(cold("3B A0 00 02 02"), "REFUSED TD1:3 TCK:4");
}

#[test]
fn ta1_asks_ta2() {
    // TD1 announces TA2; T=0 only, so there is no check character.
    assert_eq!(cold("3B B0 12 00 10 10"), "REFUSED TA2:5");
    assert_eq!(cold("3B B0 12 00 10 00"), "REFUSED TA1:2");
    assert_eq!(
        cold("3B B0 11 00 10 81"),
        "ACCEPTED direct T=0 N=0 INTERVAL=12 TA2=yes WI=10 HISTORICAL=-"
    );
}

#[test]
fn second_group() {
    assert_eq!(cold("3B A0 00 20 07"), "REFUSED TB2:4");
    assert_eq!(cold("3B A0 00 40 0A")[..8], *"ACCEPTED");
    assert_eq!(cold("3B A0 00 40 09"), "REFUSED TC2:4");
    // TD2: T=14 after T=0, and after T=1; other protocols never.
    assert_eq!(cold("3B A0 00 80 0E 2E")[..8], *"ACCEPTED");
    assert_eq!(cold("3B A0 00 81 0E 2F"), "REFUSED TD2:4 TB3-ABSENT:5");
    assert_eq!(cold("3B A0 00 80 00"), "REFUSED TD2:4");
}

#[test]
fn third_group() {
    let with = |middle: &str| {
        let mut bytes = hex::bytes(&middle.replace(' ', "")).unwrap();
        bytes.push(bytes.iter().fold(0, |x, b| x ^ b));
        line(&[&[DIRECT], &bytes[..]].concat(), Reset::Cold)
    };
    for (middle, want) in [
        ("A0 00 81 31 0F 00", "TA3:5"),
        ("A0 00 81 31 FF 00", "TA3:5"),
        ("A0 00 81 11 20", "TB3-ABSENT:6"),
        ("A0 00 01", "TB3-ABSENT:4"),
        ("A0 00 81 21 50", "TB3-BWI:5"),
        ("A0 00 81 21 06", "TB3-CWI:5"),
        ("E0 00 1F 81 21 04", "TB3-N:6"),
        ("E0 00 01 81 21 F0", "TB3-BWI:6 TB3-N:6"),
        ("A0 00 81 61 00 01", "TC3:6"),
        ("A0 00 81 41 02", "TB3-ABSENT:5 TC3:5"),
    ] {
        assert_eq!(with(middle), format!("REFUSED {want}"), "{middle}");
    }
    for middle in ["E0 00 1F 81 21 05", "E0 00 FF 81 21 00", "A0 00 81 61 00 00"] {
        assert_eq!(with(middle)[..20], *"ACCEPTED direct T=1 ", "{middle}");
    }
    // T=0 first: its parameters are used, the rules of T=1 are kept.
    assert_eq!(with("A0 00 80 21 60"), "REFUSED TB3-BWI:5");
    assert_eq!(with("A0 00 80 21 40")[..20], *"ACCEPTED direct T=0 ");
    // No rules for TA3 to TC3 where TD2 names another protocol.
    assert_eq!(with("A0 00 80 7E 00 FF FF")[..20], *"ACCEPTED direct T=0 ");
}

#[test]
fn ends() {
    // TD3 announces two characters that have no rules.
    let mut good = hex::bytes("3BE2000081B1FE453F1F2F4142").unwrap();
    good.push(good[1..].iter().fold(0, |x, b| x ^ b));
    assert_eq!(line(&good, Reset::Cold)[..20], *"ACCEPTED direct T=1 ");
    for size in 2..good.len() {
        let rule = if size == good.len() - 1 { "TCK-ABSENT" } else { "CUT" };
        let want = format!("REFUSED {rule}:{size}");
        assert_eq!(line(&good[..size], Reset::Cold), want);
    }
    assert_eq!(cold("3B 60 00 00 60"), "REFUSED EXTRA:4");
    let long = |size: usize| line(&[&[DIRECT, 0x60][..], &vec![0; size]].concat(), Reset::Cold);
    assert_eq!(long(31), "REFUSED EXTRA:4");
    assert_eq!(long(32), "REFUSED EXTRA:4 LONG:33");
}

/// A capture whose characters reach up to the place `last`, which is TCK's:
/// TD2 names T=14, and TD3 and those behind it each announce the next.
fn reaching(last: usize) -> Vec<u8> {
    let mut bytes = hex::bytes("3BA000808E").unwrap();
    bytes.resize(last - 1, 0x80);
    bytes.push(0x00);
    bytes.push(bytes[1..].iter().fold(0, |x, b| x ^ b));
    bytes
}

/// The same with a wrong TCK.
fn spoilt(last: usize) -> Vec<u8> {
    let mut bytes = reaching(last);
    bytes[last] ^= 1;
    bytes
}

fn refused(bytes: &[u8]) -> String {
    line(bytes, Reset::Cold).replace("REFUSED ", "")
}

#[test]
fn long_by_its_place() {
    let longer = |mut bytes: Vec<u8>| {
        bytes.push(0x07);
        refused(&bytes)
    };
    assert_eq!(refused(&reaching(32))[..8], *"ACCEPTED");
    assert_eq!(refused(&reaching(33)), "LONG:33");
    // Behind all that stands before it or there, before all that does not.
    assert_eq!(refused(&spoilt(32)), "TCK:32");
    assert_eq!(refused(&spoilt(33)), "TCK:33 LONG:33");
    assert_eq!(refused(&spoilt(34)), "LONG:33 TCK:34");
    assert_eq!(longer(reaching(31)), "EXTRA:32");
    assert_eq!(longer(reaching(32)), "EXTRA:33 LONG:33");
    assert_eq!(longer(reaching(33)), "LONG:33 EXTRA:34");
    assert_eq!(longer(spoilt(32)), "TCK:32 EXTRA:33 LONG:33");
    assert_eq!(longer(spoilt(33)), "TCK:33 LONG:33 EXTRA:34");
    assert_eq!(longer(spoilt(34)), "LONG:33 TCK:34 EXTRA:35");
}

#[test]
fn long_beside_a_cut() {
    let mut bytes = reaching(40);
    assert_eq!(refused(&bytes[..33]), "CUT:33");
    for size in 34..40 {
        assert_eq!(refused(&bytes[..size]), format!("LONG:33 CUT:{size}"));
    }
    assert_eq!(refused(&bytes[..40]), "LONG:33 TCK-ABSENT:40");
    assert_eq!(refused(&reaching(33)[..33]), "TCK-ABSENT:33");
    assert_eq!(refused(&reaching(34)[..34]), "LONG:33 TCK-ABSENT:34");
    // Rules of earlier characters go before it; of missing historical bytes
    // the first counts, as of all others.
    (bytes[1], bytes[2]) = (0xAF, 0x25);
    assert_eq!(refused(&bytes[..40]), "TB1:2 LONG:33 CUT:40");
    bytes[0] = 0x3F;
    assert_eq!(refused(&bytes), "TS:0");
}
