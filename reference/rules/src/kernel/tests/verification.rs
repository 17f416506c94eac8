//! Sessions with cardholder verification (02, R-7).

use super::*;
use crate::bench::former;

/// AIP with '10', one record.
const VERIFYING: &str = "ANSWER 80061000 08010100 9000";

/// 8E with two rules: offline PIN, else go on; then signature.
const LIST: &str = "8E0C 0000000000000000 4100 1E00";

/// CDOL1 asks for TVR and TSI; 8E and whatever else is given stand behind.
fn record_with(more: &str) -> String {
    record_asking("95059B02", "8A029B02", &more.replace(' ', ""))
}

#[test]
fn results_are_due_after_the_last_record() {
    let record = record_with(LIST);
    let out = |start: &[u8], results: &str| {
        replies(start, &[SELECT, VERIFYING, &record, results, &cryptogram("00")])
    };
    assert_eq!(out(&sample(), "RESULTS 0100")[3], "RESULTS 2");
    assert_eq!(out(&sample(), "RESULTS 0100")[4], "80AE80000780000000004000 00".replace(' ', ""));
    assert_eq!(out(&sample(), "RESULTS 0100")[5], "DECISION 020080000000006000");
    assert_eq!(out(&sample(), "RESULTS 0304")[4], "80AE80000780008800004000 00".replace(' ', ""));
    assert_eq!(out(&sample(), "RESULTS 0304")[5], "DECISION 020080008800006000");
}

/// AIP without the bit, or a card without the list: no entry, TSI b7 clear.
#[test]
fn results_are_not_due() {
    let list = record_with(LIST);
    let currency = record_with("9F42020978");
    let others = "ANSWER 8006E7FF 08010100 9000";
    for (options, record) in [(others, &list), (OPTIONS, &list), (VERIFYING, &currency)] {
        let out = replies(&sample(), &[SELECT, options, record, "RESULTS 0100"]);
        assert!(out[3].starts_with("80AE80000780000000") && out[3].ends_with("0000"), "{}", out[3]);
        assert_eq!(out[4], "REFUSED 4");
    }
}

#[test]
fn a_list_of_eight_bytes_wants_an_empty_entry() {
    let record = record_with("8E08 0000000000000000");
    let out = replies(&sample(), &[SELECT, VERIFYING, &record, "RESULTS 00", "RESULTS"]);
    assert_eq!(out[3..5], ["RESULTS 0", "REFUSED 12"]);
    assert_eq!(out[5], "80AE80000780008000004000 00".replace(' ', ""));
}

#[test]
fn the_request_is_chosen_with_the_results_in_place() {
    // 9F0E matches 'not successful', the other codes nothing.
    let codes = "9F0E050000800000 9F0F050000000000 9F0D050000000000";
    let record = record_with(&format!("{LIST}{codes}"));
    for (results, asked) in [("0100", "40"), ("0001", "40"), ("0000", "00"), ("0200", "00")] {
        let results = format!("RESULTS {results}");
        let out = replies(&sample(), &[SELECT, VERIFYING, &record, &results]);
        assert!(out[4].starts_with(&format!("80AE{asked}")), "{results}");
    }
}

#[test]
fn refusals_while_results_are_due() {
    let start = sample();
    let mut session = Session::default();
    session.step(261, Event::Start(&start));
    assert_eq!(session.step(261, Event::Results(&[9])), Reply::Refused(4));
    for event in [SELECT, VERIFYING, &record_with(LIST)] {
        step(&mut session, event);
    }
    let refused = |room, event| session.clone().step(room, event);
    assert_eq!(refused(260, Event::Results(&[])), Reply::Refused(1));
    assert_eq!(refused(261, Event::Start(&[])), Reply::Refused(3));
    assert_eq!(refused(261, Event::Start(&start[..74])), Reply::Refused(3));
    assert_eq!(refused(261, Event::Start(&start)), Reply::Refused(4));
    assert_eq!(refused(261, Event::Answer(&[0; 497])), Reply::Refused(4));
    assert_eq!(refused(261, Event::Silence), Reply::Refused(4));
    assert_eq!(refused(261, Event::Host(&[1, 0, 0])), Reply::Refused(4));
    assert_eq!(refused(261, Event::Host(&[])), Reply::Refused(4));
    for bad in [&[][..], &[0], &[0; 3], &[5, 0], &[0, 5], &[255, 255], &[0; 600]] {
        assert_eq!(refused(261, Event::Results(bad)), Reply::Refused(12));
    }
    for good in [&[0, 0], &[4, 4], &[1, 3]] {
        assert!(matches!(refused(261, Event::Results(good)), Reply::Command(_)));
    }
    session.step(261, Event::Results(&[1, 1]));
    assert_eq!(session.step(261, Event::Results(&[1, 1])), Reply::Refused(4));
    session.step(261, Event::Silence);
    assert_eq!(session.step(261, Event::Results(&[9])), Reply::Refused(2));
}

/// Reason 8 does not wait for the results, reason 9 does.
#[test]
fn reasons_around_the_results() {
    let incomplete = format!("ANSWER {}9000", object("70", &LIST.replace(' ', "")));
    let out = replies(&sample(), &[SELECT, VERIFYING, &incomplete]);
    assert_eq!(out[3], "DECISION 030800000000000000");
    let bad = record_asking("9F0601FF", "", &LIST.replace(' ', ""));
    let out = replies(&sample(), &[SELECT, VERIFYING, &bad, "RESULTS 0404"]);
    assert_eq!(out[3..], ["RESULTS 2", "DECISION 03098000A000004000"]);
    for (objects, reason) in [
        ("8E0A 00000000000000001F", 3),
        ("8E09 000000000000000000", 5),
        ("8E06 000000000000", 5),
        ("9F420109", 5),
        ("8E08 0000000000000000 8E00", 4),
        ("9F420109 9F4200", 4),
    ] {
        let out = replies(&sample(), &[SELECT, VERIFYING, &record_with(objects)]);
        assert_eq!(out[3], format!("DECISION 030{reason}00000000000000"), "{objects}");
    }
}

/// 8C is filled and counted with the results; 9F33 is known, 8E and 9F42 are
/// not, though the card has them.
#[test]
fn zeros_with_verification() {
    let select = select_asking("9F33038E089F4202");
    let more = format!("{LIST}9F42020978").replace(' ', "");
    let record = record_asking("9F33038E009F4202", "9F3301", &more);
    let events = [&select[..], VERIFYING, &record, "RESULTS 05", "RESULTS 0000", &cryptogram("80")];
    let with_host = [&events[..], &["HOST 030000"]].concat();
    assert_eq!(sums(&sample(), &with_host), [0, 2, 2, 2, 2, 4, 4, 4]);
    let out = replies(&sample(), &events);
    assert_eq!(out[1], "80A800000F830D 60E000 00000000000000000000 00".replace(' ', ""));
    assert_eq!(out[5], "80AE800005 60E000 0000 00".replace(' ', ""));
}

/// A START of the former size: calls have refusal 3, tapes the former rules.
#[test]
fn the_former_size_of_start() {
    let mut session = Session::default();
    assert_eq!(session.step(261, Event::Start(&former())), Reply::Refused(3));
    assert!(matches!(session.retell(Event::Start(&former())), Reply::Command(_)));
    assert_eq!(session.retell(Event::Start(&former())), Reply::Refused(4));
    let record = record_asking("9F33038E009F4202", "", "8E01008E009F42009F4200");
    let replies: Vec<String> = [&select_asking("9F3303")[..], VERIFYING, &record]
        .into_iter()
        .map(|event| match event.strip_prefix("ANSWER ") {
            Some(answer) => show(session.retell(Event::Answer(&h(answer)))),
            None => String::new(),
        })
        .collect();
    assert_eq!(replies[0], "80A80000058303 000000 00".replace(' ', ""));
    assert_eq!(replies[2], "80AE800005 000000 0000 00".replace(' ', ""));
    assert_eq!(session.unsupplied(), 4);
    assert_eq!(session.retell(Event::Results(&[])), Reply::Refused(4));
}
