//! Sessions worked out by hand, from the samples' scripts and the two papers.

use super::*;
use crate::judge::judge;
use crate::tape::{Entry, Writer, BLOCK};

fn sample(name: &str) -> Vec<u8> {
    let folder = concat!(env!("CARGO_MANIFEST_DIR"), "/../../samples");
    std::fs::read(format!("{folder}/{name}.tape")).unwrap()
}

/// All lines, the judge's last.
fn said(bytes: &[u8]) -> String {
    let account = Account::of(bytes);
    format!("{}{}", account.lines(), account.judgement)
}

/// `DUE` and the index before each line but the last; blanks inside bytes taken out.
fn numbered(lines: &[&str]) -> String {
    let (last, dues) = lines.split_last().unwrap();
    let one = |(index, line): (usize, &&str)| match line.split_once(' ') {
        Some((word, bytes)) => format!("DUE {index} {word} {}\n", bytes.replace(' ', "")),
        None => format!("DUE {index} {line}\n"),
    };
    dues.iter().enumerate().map(one).collect::<String>() + last
}

/// SELECT of A0000000031010; 9F38 asks for 9F02, 9F1A and 5F2A: `amount`,
/// 0826, 0826.
const SELECT: &str = "COMMAND 00A40400 07 A0000000031010 00";

/// Amount 125.00 over the floor limit of 100.00, AIP '18': TVR byte 1 b8 and
/// byte 4 b8, TSI b4. Three rules; an online PIN, which the terminal has,
/// succeeds: byte 3 b3, TSI b7. The terminal's online code has byte 4 b8, so
/// ARQC; it is allowed (TSI b6); the issuer approves with 3030: TC.
const ONLINE_PIN: [&str; 18] = [
    "START",
    SELECT,
    "ANSWER",
    "COMMAND 80A80000 0C 830A 000000012500 0826 0826 00",
    "ANSWER",
    "COMMAND 00B2010C00",
    "ANSWER",
    "COMMAND 00B2020C00",
    "ANSWER",
    "RESULTS 3",
    "COMMAND 80AE8000 1D 000000012500 000000000000 0826 8000048000 0826 260630 00 1A2B3C4D 00",
    "ANSWER",
    "HOST",
    "COMMAND 80AE4000 0B 3030 8000048000 1A2B3C4D 00",
    "ANSWER",
    "DECISION 01 00 8000048000 6800",
    "NOTHING",
    "PASS 16 0 0",
];

#[test]
fn an_online_pin() {
    assert_eq!(said(&sample("online-pin")), numbered(&ONLINE_PIN));
    // What is ignored makes no difference (02, R-13).
    assert_eq!(said(&sample("dressed")), numbered(&ONLINE_PIN));
}

#[test]
fn cut_anywhere() {
    let bytes = sample("online-pin");
    for entries in 0..16 {
        let end = format!("INCONCLUSIVE {entries} 0 0");
        let lines = [&ONLINE_PIN[..=entries], &[&end[..]]].concat();
        assert_eq!(said(&bytes[..entries * BLOCK]), numbered(&lines));
    }
}

/// No 8E, so no RESULTS. 9F38 asks for 9F40 and 82, 8C for 9F35 too, 8D for
/// DF01, of no bytes: zeros, four of them.
#[test]
fn asked_for_more() {
    let lines = [
        "START",
        SELECT,
        "ANSWER",
        "COMMAND 80A80000 11 830F 000000012500 0826 0000000000 0000 00",
        "ANSWER",
        "COMMAND 00B2010C00",
        "ANSWER",
        "COMMAND 00B2020C00",
        "ANSWER",
        "COMMAND 80AE8000 1E 000000012500 000000000000 0826 8000008000 0826 260630 00 1A2B3C4D 00 00",
        "ANSWER",
        "HOST",
        "COMMAND 80AE4000 0B 3030 8000008000 1A2B3C4D 00",
        "ANSWER",
        "DECISION 01 00 8000008000 2800",
        "NOTHING",
        "PASS 15 0 4",
    ];
    assert_eq!(said(&sample("asked-for-more")), numbered(&lines));
}

/// The AFL names record 0: reason 6.
#[test]
fn terminated() {
    let lines = [
        "START",
        SELECT,
        "ANSWER",
        "COMMAND 80A80000 0C 830A 000000001000 0826 0826 00",
        "ANSWER",
        "DECISION 03 06 0000000000 0000",
        "NOTHING",
        "PASS 6 0 0",
    ];
    assert_eq!(said(&sample("terminated")), numbered(&lines));
    // With the decision doubled, nothing is due where the second one stands.
    let mut bytes = sample("terminated");
    let mut again = bytes[5 * BLOCK..].to_vec();
    again[3] = 6;
    tape::seal(&mut again);
    bytes.extend(again);
    let mut failed = lines;
    failed[7] = "FAIL 6 0 0";
    assert_eq!(said(&bytes), numbered(&failed));
}

/// Nothing follows a silence that closes.
#[test]
fn a_silent_card() {
    let lines = [
        "START",
        SELECT,
        "ANSWER",
        "COMMAND 80A80000 0C 830A 000000001000 0826 0826 00",
        "ANSWER",
        "COMMAND 00B2010C00",
        "ANSWER",
        "COMMAND 00B2020C00",
        "ANSWER",
        "NOTHING",
        "INCONCLUSIVE 9 0 0",
    ];
    assert_eq!(said(&sample("silent-card")), numbered(&lines));
}

#[test]
fn where_nothing_can_be_followed() {
    assert_eq!(said(&sample("damaged")), "UNREADABLE 4 3 0");
    assert_eq!(said(&sample("no-such-day")), "DUE 0 START\nFAIL 0 0 0");
    assert_eq!(said(&[]), "DUE 0 START\nINCONCLUSIVE 0 0 0");
    assert_eq!(said(&[0]), "UNREADABLE 0 2 0");
}

/// The place of FAIL has the last line, and what stands there is not it.
#[test]
fn a_wrong_command() {
    let bytes = sample("online-pin");
    for at in [1, 3, 5, 7, 10, 13, 15] {
        let mut writer = Writer::new(7, bytes.len());
        for (index, entry) in tape::read(&bytes).unwrap().into_iter().enumerate() {
            let mut payload = entry.payload.to_vec();
            payload[1] ^= u8::from(index == at);
            writer.add(Entry { payload: &payload, ..entry }).unwrap();
        }
        let end = format!("FAIL {at} 0 0");
        let lines = [&ONLINE_PIN[..=at], &[&end[..]]].concat();
        assert_eq!(said(&writer.into_bytes()), numbered(&lines), "{at}");
    }
}

#[test]
fn the_judgement_is_the_judges() {
    for name in ["online-pin", "transit", "without-capabilities", "damaged", "no-such-day"] {
        let bytes = sample(name);
        assert_eq!(Account::of(&bytes).judgement, judge(&bytes), "{name}");
    }
}
