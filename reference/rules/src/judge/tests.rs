use super::*;
use crate::bench::{former, sample};
use crate::kernel::tests::h;
use crate::tape::Writer;

fn verdict(entries: &[(u8, Vec<u8>)]) -> String {
    let mut writer = Writer::new(5, 1 << 20);
    for (kind, payload) in entries {
        writer.add(Entry { kind: *kind, payload }).unwrap();
    }
    judge(&writer.into_bytes()).to_string()
}

/// START, SELECT, a refusal by the card, and the end.
fn short_session() -> Vec<(u8, Vec<u8>)> {
    vec![
        (tape::START, sample().to_vec()),
        (tape::COMMAND, h("00A4040005A00000000300")),
        (tape::ANSWER, h("6A82")),
        (tape::DECISION, h("030200000000000000")),
    ]
}

fn first(count: usize, more: &[(u8, Vec<u8>)]) -> String {
    let mut entries = short_session();
    entries.truncate(count);
    entries.extend_from_slice(more);
    verdict(&entries)
}

#[test]
fn run_cases_empty_and_one_byte() {
    assert_eq!(judge(&[]).to_string(), "INCONCLUSIVE 0 0 0");
    assert_eq!(judge(&[0]).to_string(), "UNREADABLE 0 2 0");
}

#[test]
fn whole_and_cut() {
    assert_eq!(first(4, &[]), "PASS 4 0 0");
    for count in 0..4 {
        assert_eq!(first(count, &[]), format!("INCONCLUSIVE {count} 0 0"));
    }
}

#[test]
fn silences() {
    let silence = || (tape::SILENCE, vec![]);
    assert_eq!(first(2, &[silence()]), "INCONCLUSIVE 3 0 0");
    assert_eq!(first(1, &[silence()]), "FAIL 1 0 0");
    assert_eq!(first(3, &[silence()]), "FAIL 3 0 0");
    assert_eq!(first(4, &[silence()]), "FAIL 4 0 0");
    assert_eq!(first(2, &[(tape::SILENCE, vec![0])]), "FAIL 2 0 0");
    assert_eq!(first(2, &[silence(), silence()]), "FAIL 3 0 0");
    assert_eq!(first(2, &[silence(), (tape::ANSWER, vec![])]), "FAIL 3 0 0");
}

#[test]
fn wrong_entries() {
    assert_eq!(first(0, &[(tape::START, vec![])]), "FAIL 0 0 0");
    assert_eq!(first(1, &[(tape::COMMAND, vec![])]), "FAIL 1 0 0");
    assert_eq!(first(3, &[(tape::DECISION, h("030300000000000000"))]), "FAIL 3 0 0");
    assert_eq!(first(4, &[(tape::START, sample().to_vec())]), "FAIL 4 0 0");
    for count in 0..=4 {
        for payload in [vec![], vec![0; 3]] {
            let fail = format!("FAIL {count} 0 0");
            assert_eq!(first(count, &[(tape::RESULTS, payload)]), fail);
        }
    }
}

#[test]
fn sizes_of_start() {
    for size in 70..=80 {
        let mut start = sample().to_vec();
        start.resize(size, 0);
        let mut entries = short_session();
        entries[0].1 = start;
        let want = if [74, 77].contains(&size) { "PASS 4 0 0" } else { "FAIL 0 0 0" };
        assert_eq!(verdict(&entries), want, "{size}");
        entries[0].1[0] = 3;
        assert_eq!(verdict(&entries), "FAIL 0 0 0", "{size}");
    }
}

/// A session whose card has a list of two rules, up to the first request.
/// 8C asks for 95 and 9F33.
fn verified(start: &[u8], results: &str, request: &str) -> Vec<(u8, Vec<u8>)> {
    let record = "7020 5A0112 5F2403261231 8C0595059F3303 8D00 8E0C 0000000000000000 4100 1E00";
    let mut entries = vec![
        (tape::START, start.to_vec()),
        (tape::COMMAND, h("00A4040005A00000000300")),
        (tape::ANSWER, h("6F098405A000000003A5009000")),
        (tape::COMMAND, h("80A8000002830000")),
        (tape::ANSWER, h("8006 1000 08010100 9000")),
        (tape::COMMAND, h("00B2010C00")),
        (tape::ANSWER, h(&format!("{record} 9000"))),
        (tape::RESULTS, h(results)),
        (tape::COMMAND, h(request)),
    ];
    if results == "-" {
        entries.remove(7);
    }
    entries
}

#[test]
fn results_on_the_tape() {
    let now = sample();
    let good = verified(&now, "0300", "80AE800008 8000880000 60E000 00");
    assert_eq!(verdict(&good), "INCONCLUSIVE 9 0 0");
    assert_eq!(verdict(&good[..8]), "INCONCLUSIVE 8 0 0");
    assert_eq!(verdict(&good[..7]), "INCONCLUSIVE 7 0 0");
    let other_bits = verified(&now, "0301", "80AE800008 8000880000 60E000 00");
    assert_eq!(verdict(&other_bits), "FAIL 8 0 0");
    for bad in ["", "03", "030000", "0500", "0305"] {
        assert_eq!(verdict(&verified(&now, bad, "")), "FAIL 7 0 0", "{bad}");
    }
    let left_out = verified(&now, "-", "80AE800008 8000000000 60E000 00");
    assert_eq!(verdict(&left_out), "FAIL 7 0 0");
    for kind in [tape::SILENCE, tape::ANSWER, tape::HOST, tape::DECISION] {
        let mut entries = good[..7].to_vec();
        entries.push((kind, vec![]));
        assert_eq!(verdict(&entries), "FAIL 7 0 0");
    }
    let mut twice = good[..8].to_vec();
    twice.push(good[7].clone());
    assert_eq!(verdict(&twice), "FAIL 8 0 0");
}

/// Under the former size the list means nothing and 9F33 is not known.
#[test]
fn results_on_a_former_tape() {
    let good = verified(&former(), "-", "80AE800008 8000000000 000000 00");
    assert_eq!(verdict(&good), "INCONCLUSIVE 8 0 1");
    assert_eq!(verdict(&good[..7]), "INCONCLUSIVE 7 0 1");
    let results = verified(&former(), "0300", "80AE800008 8000880000 000000 00");
    assert_eq!(verdict(&results), "FAIL 7 0 1");
}

/// SELECT's answer asks for 9F06 and for 82, before it can be there.
#[test]
fn the_fourth_number() {
    let asking = || (tape::ANSWER, h("6F11 8405A000000003 A508 9F3805 9F0601 8202 9000"));
    let options = || (tape::COMMAND, h("80A80000058303 000000 00"));
    assert_eq!(first(2, &[asking()]), "INCONCLUSIVE 3 0 2");
    assert_eq!(first(2, &[asking(), options()]), "INCONCLUSIVE 4 0 2");
    assert_eq!(first(2, &[asking(), (tape::COMMAND, vec![])]), "FAIL 3 0 2");
    assert_eq!(first(1, &[asking()]), "FAIL 1 0 0");
    let silence = || (tape::SILENCE, vec![]);
    assert_eq!(first(2, &[asking(), options(), silence()]), "INCONCLUSIVE 5 0 2");
    assert_eq!(first(2, &[asking(), options(), silence(), silence()]), "FAIL 5 0 2");
    let refused = || (tape::ANSWER, h("6985"));
    let end = || (tape::DECISION, h("030200000000000000"));
    assert_eq!(first(2, &[asking(), options(), refused(), end()]), "PASS 6 0 2");
    assert_eq!(first(2, &[asking(), options(), refused(), end(), end()]), "FAIL 6 0 2");
}
