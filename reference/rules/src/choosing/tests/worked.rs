//! A session worked out by hand: a directory of two, the one that the shopper
//! takes is blocked, and he takes the other; then a verification, the issuer
//! out of reach, an approval.

use super::*;
use crate::due::Account;
use crate::edition::Edition;
use crate::judge::judge_by;
use crate::tape::{self, Entry, Writer};

const WORKED: [(&str, &str); 24] = [
    (
        "START",
        concat!(
            "02000000007500000000000000084008402306150011223344000000010000290A00000000500046008C",
            "0000000000000000000000000000000207A00000000310100000000000000000000005A0000000040000",
            "000000000000000000010000000000000000000000000000000000000000000000000000000000000000",
            "000000000000000000000000000000000000000000000000000000000000000000000000000000000000",
            "00000000000000000000000000000000000000000000000000000000000000000000E0E0C80101",
        ),
    ),
    ("COMMAND", "00A404000E315041592E5359532E444446303100"),
    ("ANSWER", "6F15840E315041592E5359532E4444463031A5038801029000"),
    ("COMMAND", "00B2011400"),
    ("ANSWER", "7023610F4F07A000000003101050014387010261104F08A0000000041010015001448701819000"),
    ("COMMAND", "00B2021400"),
    ("ANSWER", "6A83"),
    ("CHOICE", "00"),
    ("COMMAND", "00A4040008A00000000410100100"),
    ("ANSWER", "6F0C8408A000000004101001A5006283"),
    ("CHOICE", "00"),
    ("COMMAND", "00A4040007A000000003101000"),
    ("ANSWER", "6F198407A0000000031010A50E9F380B9F33038A029F06049F37049000"),
    ("COMMAND", "80A800000F830DE0E0C80000000000001122334400"),
    ("ANSWER", "80061800080101009000"),
    ("COMMAND", "00B2010C00"),
    (
        "ANSWER",
        concat!(
            "70495A0841111111111111115F24032312318C099F020695055A0A9B028D078A0295059F37029F0D0500",
            "000000009F0F0500000000008E0E00001D4C00001D4D410642081E039F420208409000",
        ),
    ),
    ("RESULTS", "000301"),
    ("COMMAND", "80AE40001700000000750080000800004111111111111111FFFF480000"),
    ("ANSWER", "77149F2701809F360200019F260801020304050607089000"),
    ("HOST", "030000"),
    ("COMMAND", "80AE40000959338000080000112200"),
    ("ANSWER", "800B40000211111111111111119000"),
    ("DECISION", "010080000800006800"),
];

fn kind(word: &str) -> u8 {
    let words = ["START", "COMMAND", "ANSWER", "SILENCE", "HOST", "DECISION", "RESULTS", "CHOICE"];
    1 + words.iter().position(|&other| other == word).unwrap() as u8
}

fn entries() -> Vec<(u8, Vec<u8>)> {
    WORKED.iter().map(|(word, bytes)| (kind(word), h(bytes))).collect()
}

fn tape_of(entries: &[(u8, Vec<u8>)]) -> Vec<u8> {
    let mut writer = Writer::by(Edition::Choosing, 7, 1 << 20);
    for (kind, payload) in entries {
        writer.add(Entry { kind: *kind, payload }).unwrap();
    }
    writer.into_bytes()
}

fn line(entries: &[(u8, Vec<u8>)]) -> String {
    judge_by(Edition::Choosing, &tape_of(entries)).to_string()
}

#[test]
fn whole_and_cut() {
    let all = entries();
    assert_eq!(line(&all), "PASS 24 0 2");
    for count in 0..all.len() {
        // 8A and 9F06 are counted where 9F38 is filled.
        let zeros = if count >= 13 { 2 } else { 0 };
        assert_eq!(line(&all[..count]), format!("INCONCLUSIVE {count} 0 {zeros}"));
    }
}

/// Any bit of what the terminal says.
#[test]
fn changed() {
    let all = entries();
    for at in 0..all.len() {
        if ![tape::COMMAND, tape::DECISION].contains(&all[at].0) {
            continue;
        }
        for bit in 0..8 * all[at].1.len() {
            let mut other = all.clone();
            other[at].1[bit / 8] ^= 0x80 >> (bit % 8);
            assert!(line(&other).starts_with(&format!("FAIL {at} 0 ")), "{at} {bit}");
        }
    }
}

/// What is due before each entry is what stands there.
#[test]
fn due() {
    let account = Account::by(Edition::Choosing, &tape_of(&entries()));
    let lines: Vec<String> = account.dues.iter().map(ToString::to_string).collect();
    for ((word, bytes), line) in WORKED.iter().zip(&lines) {
        let wanted = match *word {
            "COMMAND" | "DECISION" => format!("{word} {bytes}"),
            "RESULTS" => "RESULTS 3".to_string(),
            word => word.to_string(),
        };
        assert!(line.starts_with(&wanted), "{line}");
    }
    assert_eq!([&lines[7][..], &lines[10], &lines[24]], ["CHOICE 2", "CHOICE 1", "NOTHING"]);
    assert_eq!(account.judgement.to_string(), "PASS 24 0 2");
}

/// Before R-12 nothing of it is readable or valid.
#[test]
fn before_the_request() {
    let bytes = tape_of(&entries());
    let landed = |bytes: &[u8]| judge_by(Edition::Landed, bytes).to_string();
    assert_eq!(landed(&bytes), "UNREADABLE 7 6 0");
    assert_eq!(landed(&bytes[..7 * 512]), "FAIL 0 0 0");
}
