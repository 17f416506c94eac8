mod verification;

use super::*;
use crate::bench::sample;
use crate::hex;

pub fn h(text: &str) -> Vec<u8> {
    hex::bytes(&text.replace(' ', "")).unwrap()
}

/// Steps through with a buffer large enough; replies as text.
fn replies(start: &[u8], events: &[&str]) -> Vec<String> {
    let mut session = Session::default();
    let mut out = vec![show(session.step(261, Event::Start(start)))];
    for event in events {
        out.push(show(step(&mut session, event)));
    }
    out
}

fn step(session: &mut Session, event: &str) -> Reply {
    let (word, payload) = event.split_once(' ').unwrap_or((event, ""));
    let bytes = h(payload);
    let event = match word {
        "ANSWER" => Event::Answer(&bytes),
        "HOST" => Event::Host(&bytes),
        "RESULTS" => Event::Results(&bytes),
        _ => Event::Silence,
    };
    session.step(261, event)
}

fn show(reply: Reply) -> String {
    match reply {
        Reply::Command(bytes) => hex::text(&bytes),
        Reply::HostDue => "HOST".into(),
        Reply::ResultsDue(count) => format!("RESULTS {count}"),
        Reply::ChoiceDue(shown) => format!("CHOICE {shown}"),
        Reply::Decision(bytes) => format!("DECISION {}", hex::text(&bytes)),
        Reply::Closed => "CLOSED".into(),
        Reply::Refused(number) => format!("REFUSED {number}"),
    }
}

const SELECT: &str = "ANSWER 6F098405A000000003A500 9000";
const OPTIONS: &str = "ANSWER 80060000 08010100 9000";
/// CDOL1 asks for TVR and TSI, CDOL2 for 8A and TSI.
const RECORD: &str = "ANSWER 70 13 5A0112 5F2403261231 8C0495059B02 8D048A029B02 9000";
const RECORD_FIXED: &str = "ANSWER 70 15 5A0112 5F2403261231 8C0495059B02 8D048A029B02 9000";

fn cryptogram(top: &str) -> String {
    format!("ANSWER 80 0B {top} 0001 0000000000000000 9000")
}

#[test]
fn run_case_no_list_from_select() {
    let out = replies(&sample(), &[SELECT]);
    assert_eq!(out, ["00A4040005A00000000300", "80A800000283 0000".replace(' ', "").as_str()]);
    let out = replies(&sample(), &["ANSWER 6F0C8405A000000003A5039F3800 9000"]);
    assert_eq!(out[1], "80A8000002830000");
}

#[test]
fn case_g_first_record_command() {
    let out = replies(&sample(), &[SELECT, "ANSWER 80060000 08010301 9000"]);
    assert_eq!(out[2], "00B2010C00");
}

#[test]
fn online_session_to_approval() {
    let events =
        [SELECT, OPTIONS, RECORD_FIXED, &cryptogram("80"), "HOST 013030", &cryptogram("40")];
    let out = replies(&sample(), &events);
    assert_eq!(out[3], "80AE800007 8000000000 0000 00".replace(' ', ""));
    assert_eq!(out[4], "HOST");
    assert_eq!(out[5], "80AE400004 3030 2000 00".replace(' ', ""));
    assert_eq!(out[6], "DECISION 010080000000002000");
}

#[test]
fn a_wrong_length_inside_the_record() {
    let out = replies(&sample(), &[SELECT, OPTIONS, RECORD]);
    assert_eq!(out[3], "DECISION 030300000000000000");
}

#[test]
fn offline_terminal_goes_on_by_itself() {
    let mut start = sample();
    start[0] = 0;
    // 9F0D all zeros: no default match, so TC is asked both times.
    let record = "ANSWER 70 1D 5A0112 5F2403261231 8C0495059B02 8D048A029B02 9F0D050000000000 9000";
    let out = replies(&start, &[SELECT, OPTIONS, record, &cryptogram("80"), &cryptogram("00")]);
    assert_eq!(out[3], "80AE400007 8000000000 0000 00".replace(' ', ""));
    assert_eq!(out[4], "80AE400004 5933 2000 00".replace(' ', ""));
    assert_eq!(out[5], "DECISION 020080000000002000");
}

#[test]
fn list_reasons_at_their_places() {
    let pdol = "ANSWER 6F0D8405A000000003A5049F380100 9000";
    assert_eq!(replies(&sample(), &[pdol])[1], "DECISION 030900000000000000");
    let first = "ANSWER 70 11 5A0112 5F2403261231 8C0100 8D03000000 9000";
    let out = replies(&sample(), &[SELECT, OPTIONS, first]);
    assert_eq!(out[3], "DECISION 030980000000000000");
    let second = "ANSWER 70 10 5A0112 5F2403261231 8C00 8D03000000 9000";
    let out = replies(&sample(), &[SELECT, OPTIONS, second, &cryptogram("80"), "HOST 030000"]);
    assert_eq!(out[3], "80AE800000");
    assert_eq!(out[5], "DECISION 030980000000002000");
}

#[test]
fn refusals_in_order() {
    let start = sample();
    let mut session = Session::default();
    assert_eq!(session.step(260, Event::Start(&[])), Reply::Refused(1));
    assert_eq!(session.step(261, Event::Start(&[])), Reply::Refused(3));
    assert_eq!(session.step(261, Event::Silence), Reply::Refused(4));
    assert_eq!(session.step(261, Event::Answer(&[0; 497])), Reply::Refused(4));
    assert!(matches!(session.step(261, Event::Start(&start)), Reply::Command(_)));
    assert_eq!(session.step(261, Event::Start(&[])), Reply::Refused(3));
    assert_eq!(session.step(261, Event::Start(&start)), Reply::Refused(4));
    assert_eq!(session.step(261, Event::Host(&[])), Reply::Refused(4));
    assert_eq!(session.step(261, Event::Answer(&[0; 497])), Reply::Refused(5));
    assert_eq!(session.step(0, Event::Silence), Reply::Refused(1));
    assert_eq!(session.step(261, Event::Silence), Reply::Closed);
    assert_eq!(session.step(261, Event::Start(&[])), Reply::Refused(2));
    assert_eq!(session.step(260, Event::Silence), Reply::Refused(1));
}

#[test]
fn refusal_six_and_silence_while_host_is_due() {
    let events = [
        SELECT,
        OPTIONS,
        RECORD_FIXED,
        &cryptogram("80"),
        "SILENCE",
        "HOST 030001",
        "HOST",
        "HOST 020000",
        "HOST 020000",
    ];
    let out = replies(&sample(), &events);
    assert_eq!(out[5..8], ["REFUSED 4", "REFUSED 6", "REFUSED 6"]);
    assert_eq!(out[8], "80AE000004 0000 2000 00".replace(' ', ""));
    assert_eq!(out[9], "REFUSED 4");
}

#[test]
fn an_answer_of_496_bytes_is_an_answer() {
    let long = format!("ANSWER {}", "00".repeat(496));
    assert_eq!(replies(&sample(), &[&long])[1], "DECISION 030100000000000000");
    assert_eq!(replies(&sample(), &["ANSWER"])[1], "DECISION 030100000000000000");
}

/// The session's sum of what was filled with zeros after START and after each
/// event (02, R-6).
fn sums(start: &[u8], events: &[&str]) -> Vec<usize> {
    let mut session = Session::default();
    let mut out = Vec::new();
    session.step(261, Event::Start(start));
    out.push(session.unsupplied());
    for event in events {
        step(&mut session, event);
        out.push(session.unsupplied());
    }
    out
}

/// One object in hexadecimal, its length put in.
fn object(tag: &str, value: &str) -> String {
    format!("{tag}{:02X}{value}", value.len() / 2)
}

/// The answer to SELECT with a 9F38.
fn select_asking(list: &str) -> String {
    let inner = object("A5", &object("9F38", list));
    format!("ANSWER {}9000", object("6F", &format!("8405A000000003{inner}")))
}

/// A single record with the two lists, and whatever else is given.
fn record_asking(first: &str, second: &str, more: &str) -> String {
    let lists = object("8C", first) + &object("8D", second);
    format!("ANSWER {}9000", object("70", &format!("5A01125F2403261231{lists}{more}")))
}

/// 9F02 and 95 are there; 82, 5A (for no bytes) and 9F06 twice are not.
const ASKED_BY_SELECT: &str = "9F0206950582025A009F06019F0607";
/// 82 and 5A are there; 5F25, 8A, 9F0D and 70 are not.
const ASKED_FIRST: &str = "82025A015F25018A029F0D057002";
/// 8A is there; 9F08 and 9F1B are not.
const ASKED_SECOND: &str = "8A029F08029F1B00";

#[test]
fn what_was_filled_with_zeros() {
    let select = select_asking(ASKED_BY_SELECT);
    let record = record_asking(ASKED_FIRST, ASKED_SECOND, "");
    let events = [
        &select[..],
        OPTIONS,
        &record,
        &cryptogram("80"),
        "HOST 030001",
        "HOST 030000",
        &cryptogram("00"),
        "SILENCE",
    ];
    assert_eq!(sums(&sample(), &events), [0, 4, 4, 8, 8, 8, 10, 10, 10]);
    assert_eq!(sums(&sample(), &[&select, OPTIONS, "SILENCE", "ANSWER"]), [0, 4, 4, 4, 4]);
    assert_eq!(sums(&sample(), &["SILENCE"]), [0, 0]);
}

/// Without a HOST entry 8D is filled at the first cryptogram.
#[test]
fn zeros_of_an_offline_terminal() {
    let mut start = sample();
    start[0] = 0;
    let select = select_asking("9C01");
    let record = record_asking(ASKED_FIRST, ASKED_SECOND, "9F0D050000000000");
    let events = [&select[..], OPTIONS, &record, &cryptogram("80"), &cryptogram("00")];
    assert_eq!(sums(&start, &events), [0, 0, 0, 3, 5, 5]);
    let declined = [&select[..], OPTIONS, &record, &cryptogram("00")];
    assert_eq!(sums(&start, &declined), [0, 0, 0, 3, 3]);
}

/// A list that is not filled adds nothing: reason 9, or an earlier one.
#[test]
fn zeros_of_lists_that_are_not_filled() {
    assert_eq!(sums(&sample(), &[&select_asking("5A0100")]), [0, 0]);
    let nameless = format!("ANSWER {}9000", object("6F", "A5079F38045A015A01"));
    assert_eq!(sums(&sample(), &[&nameless]), [0, 0]);
    let select = select_asking("5A01");
    let record = record_asking("9F06019F80", "", "");
    assert_eq!(sums(&sample(), &[&select, OPTIONS, &record]), [0, 1, 1, 1]);
    let record = record_asking("7001", "9F0601FF", "");
    let events = [&select[..], OPTIONS, &record, &cryptogram("80"), "HOST 013030"];
    assert_eq!(sums(&sample(), &events), [0, 1, 1, 2, 2, 2]);
}
