//! Sessions with a list: START, refusals, reasons, tapes of other sizes.

use super::*;
use crate::bench::{former, listed, sample};
use crate::edition::Edition;
use crate::feed::judge_fed_by;
use crate::judge::judge_by;
use crate::kernel::{Event, Reply, Session};
use crate::recover::recover_by;
use crate::tape::{Entry, Writer, CHOICE, START};
use crate::terminal::Terminal;

fn is_valid(at: usize, value: u8) -> bool {
    let mut start = listed();
    start[at] = value;
    let read = Terminal::read_choosing(&start);
    assert_eq!(read.is_some(), Terminal::read_any(&start).is_some());
    read.is_some()
}

/// Two AIDs of five bytes, the second partial; the shopper can choose.
#[test]
fn fields_of_start() {
    assert!(is_valid(0, 2) && !is_valid(0, 3) && !is_valid(18, 0x13) && !is_valid(31, 0));
    for (at, good) in [(57, 2), (58, 5), (75, 0), (75, 1), (93, 0), (93, 1), (205, 0), (205, 1)] {
        assert!(is_valid(at, good), "{at} {good}");
    }
    // Another count: a field that is not used, or one that is used and empty.
    for count in [0, 1, 3, 8, 9, 255] {
        assert!(!is_valid(57, count), "{count}");
    }
    for (at, bad) in [(58, 4), (58, 17), (64, 1), (74, 1), (75, 2), (94, 1), (201, 1), (111, 1)] {
        assert!(!is_valid(at, bad), "{at} {bad}");
    }
    assert!(!is_valid(205, 2) && !is_valid(206, 0) && !is_valid(206, 2));
    assert!((202..205).all(|at| is_valid(at, 0) && is_valid(at, 0xFF)));
    assert!(is_valid(58, 16) && is_valid(59, 0));
}

#[test]
fn sizes_of_start() {
    let long = [&listed()[..], &[0; 9]].concat();
    for size in 0..long.len() {
        assert_eq!(Terminal::read_choosing(&long[..size]).is_some(), size == 207, "{size}");
    }
    for (start, called) in [(&former()[..], false), (&sample()[..], false), (&listed()[..], true)] {
        assert!(Terminal::read_any(start).is_some());
        let mut session = Session::by(Edition::Choosing);
        let reply = session.step(261, Event::Start(start));
        assert_eq!(matches!(reply, Reply::Command(_)), called);
        assert_eq!(reply == Reply::Refused(3), !called);
    }
    let mut before = Session::default();
    assert_eq!(before.step(261, Event::Start(&listed())), Reply::Refused(3));
}

/// The session up to a choice of two.
fn at_choice() -> Session {
    let mut session = Session::by(Edition::Choosing);
    session.step(261, Event::Start(&listed()));
    for answer in ["6A82", &fci(ONE, "", "9000"), &fci(TWO, "", "9000")] {
        session.step(261, Event::Answer(&h(answer)));
    }
    session
}

#[test]
fn refusals() {
    let mut session = at_choice();
    let start = listed();
    for (room, event, number) in [
        (260, Event::Choice(&[0]), 1),
        (261, Event::Start(&[]), 3),
        (261, Event::Start(&former()), 3),
        (261, Event::Start(&start), 4),
        (261, Event::Answer(&[0; 497]), 4),
        (261, Event::Silence, 4),
        (261, Event::Host(&[1, 0, 0]), 4),
        (261, Event::Results(&[0]), 4),
        (261, Event::Choice(&[]), 13),
        (261, Event::Choice(&[2]), 13),
        (261, Event::Choice(&[0, 0]), 13),
        (261, Event::Choice(&[0; 497]), 13),
    ] {
        assert_eq!(session.step(room, event), Reply::Refused(number), "{event:?}");
    }
    let select = Reply::Command(h(SECOND_AID));
    assert_eq!(session.step(261, Event::Choice(&[1])), select);
    assert_eq!(session.step(261, Event::Choice(&[0])), Reply::Refused(4));
    assert_eq!(session.step(261, Event::Choice(&[])), Reply::Refused(4));
    assert_eq!(session.step(261, Event::Answer(&[0; 497])), Reply::Refused(5));
    assert_eq!(session.step(261, Event::Silence), Reply::Closed);
    assert_eq!(session.step(261, Event::Choice(&[0])), Reply::Refused(2));
}

fn decision(reason: u8) -> Reply {
    Reply::Decision([3, reason, 0, 0, 0, 0, 0, 0, 0])
}

#[test]
fn ends_of_a_selection() {
    assert_eq!(at_choice().step(261, Event::Choice(&[0xFF])), decision(12));
    let after = |answer: &str| {
        let mut session = at_choice();
        session.step(261, Event::Choice(&[0]));
        (session.step(261, Event::Answer(&h(answer))), session.unsupplied())
    };
    let with = |list: &str| format!("6F{:02X} 8405{ONE} A5{list} 9000", 9 + h(list).len() - 1);
    assert_eq!(after(""), (decision(1), 0));
    assert_eq!(after(&with("049F380100")), (decision(9), 0));
    assert_eq!(after(&with("059F38029C")).0, Reply::ChoiceDue(1));
    // 9F06 and 84 are not known.
    let asking = with("089F3805 9F0601 8401");
    assert_eq!(after(&asking), (Reply::Command(h("80A80000 04 8302 0000 00")), 2));
    assert_eq!(after(&asking.replace("9000", "6283")), (Reply::ChoiceDue(1), 0));
}

fn lines(bytes: &[u8]) -> String {
    let whole = judge_by(Edition::Choosing, bytes);
    assert_eq!(whole, judge_fed_by(Edition::Choosing, bytes));
    whole.to_string()
}

#[test]
fn limits_of_a_tape() {
    for (size, line) in [
        (0, "INCONCLUSIVE 0 0 0"),
        (524_289, "UNREADABLE 1024 2 0"),
        (786_431, "UNREADABLE 1535 2 0"),
        (786_432, "UNREADABLE 0 3 0"),
        (786_433, "UNREADABLE 0 1 0"),
        (900_000, "UNREADABLE 0 1 0"),
    ] {
        assert_eq!(lines(&vec![0; size]), line, "{size}");
    }
    let mut writer = Writer::by(Edition::Choosing, 0, 1 << 20);
    let entry = |kind| Entry { kind, payload: &[] };
    assert_eq!(writer.add(entry(9)), Err(7));
    let added = (0..1600).filter(|_| writer.add(entry(CHOICE)).is_ok()).count();
    assert_eq!(added, 1536);
    let bytes = writer.into_bytes();
    assert_eq!(recover_by(Edition::Choosing, &bytes).blocks.len(), 1536);
    assert_eq!(recover_by(Edition::Landed, &bytes).blocks.len(), 0);
}

/// Kind 8 is readable with every START, and due with none of the former ones.
#[test]
fn choices_on_former_tapes() {
    for start in [former(), sample().to_vec()] {
        let mut writer = Writer::by(Edition::Choosing, 0, 1 << 20);
        writer.add(Entry { kind: START, payload: &start }).unwrap();
        assert_eq!(
            lines(&writer.add(Entry { kind: CHOICE, payload: &[0] }).unwrap()),
            "UNREADABLE 0 4 0"
        );
        assert_eq!(lines(&writer.into_bytes()), "FAIL 1 0 0");
    }
}
