mod session;
mod worked;

use super::*;
use crate::kernel::tests::h;

fn aid(name: &str, is_partial: bool) -> Aid {
    Aid { name: h(name), is_partial }
}

const ONE: &str = "A000000003";
const TWO: &str = "A000000004";

/// A selection with the first exact and the second partial.
fn begin(shopper_can_choose: bool) -> Selection {
    let aids = vec![aid(ONE, false), aid(TWO, true)];
    Selection::begin(Supported { aids, shopper_can_choose }).0
}

/// What an answer leads to, as text.
fn show(step: Step) -> String {
    match step {
        Ok(Next::Command(command)) => crate::hex::text(&command),
        Ok(Next::Choice(shown)) => format!("CHOICE {shown}"),
        Ok(Next::Selected(list)) => format!("SELECTED {}", crate::hex::text_or_dash(&list)),
        Err(reason) => format!("END {reason}"),
    }
}

fn answered(selection: &mut Selection, answer: &str) -> String {
    show(selection.answer(&h(answer)))
}

/// An FCI of an application, with 87 where it is given.
fn fci(name: &str, indicator: &str, status: &str) -> String {
    let inner = if indicator.is_empty() { String::new() } else { format!("8701{indicator}") };
    let (name_size, inner_size) = (name.len() / 2, inner.len() / 2);
    let size = 2 + name_size + 2 + inner_size;
    format!("6F{size:02X}84{name_size:02X}{name}A5{inner_size:02X}{inner}{status}")
}

const PSE_COMMAND: &str = "00A404000E315041592E5359532E444446303100";
const PSE_FCI: &str = "6F15840E315041592E5359532E4444463031A5038801029000";
const FIRST_AID: &str = "00A4040005A00000000300";
const SECOND_AID: &str = "00A4040005A00000000400";
const SECOND_NEXT: &str = "00A4040205A00000000400";

#[test]
fn the_directory_is_tried_first() {
    let supported = Supported { aids: vec![aid(ONE, true)], shopper_can_choose: true };
    assert_eq!(show(Ok(Next::Command(Selection::begin(supported).1))), PSE_COMMAND);
    assert_eq!(answered(&mut begin(true), PSE_FCI), "00B2011400");
    for other in ["9000", "6A82", "6283", "6A83", "6F009000", "6184"] {
        assert_eq!(answered(&mut begin(true), other), FIRST_AID, "{other}");
    }
    assert_eq!(answered(&mut begin(true), "6A81"), "END 12");
    for size in ["", "90"] {
        assert_eq!(answered(&mut begin(true), size), "END 1");
    }
    assert_eq!(show(begin(true).answer(&[0; 259])), "END 1");
}

#[test]
fn a_directory_that_ends() {
    let mut selection = begin(false);
    answered(&mut selection, PSE_FCI);
    let record = "7014 6107 4F05A000000003 6109 4F07A0000000040102 9000";
    assert_eq!(answered(&mut selection, record), "00B2021400");
    assert_eq!(answered(&mut selection, "70009000"), "00B2031400");
    assert_eq!(answered(&mut selection, "6A83"), FIRST_AID);
    assert_eq!(selection.stage(), Some(Stage::Final));
    assert_eq!(answered(&mut selection, &fci(ONE, "", "6283")), "00A4040007A000000004010200");
    assert_eq!(answered(&mut selection, "6A82"), "END 12");
}

/// Any fault clears the list, and so does the end without a match.
#[test]
fn a_directory_that_fails() {
    let good = "7009 6107 4F05A000000003 9000";
    let mut empty = begin(true);
    answered(&mut empty, PSE_FCI);
    assert_eq!(answered(&mut empty, "6A83"), FIRST_AID);
    assert_eq!(empty.stage(), Some(Stage::Aid));
    for bad in ["9000", "6A81", "6283", "7003610150 9000", "7002 6100 9000", "70007000 9000"] {
        let mut selection = begin(true);
        answered(&mut selection, PSE_FCI);
        answered(&mut selection, good);
        assert_eq!(answered(&mut selection, bad), FIRST_AID, "{bad}");
        assert!(selection.found.is_empty() && selection.stage() == Some(Stage::Aid));
    }
}

/// What each AID is answered with, up to the final selection.
fn by_aids(answers: &[&str]) -> Vec<String> {
    let mut selection = begin(true);
    answered(&mut selection, "6A82");
    answers.iter().map(|answer| answered(&mut selection, answer)).collect()
}

#[test]
fn the_list_of_aids() {
    let longer = "A00000000401";
    let next = &fci(longer, "", "9000");
    assert_eq!(by_aids(&["6A81"]), ["END 12"]);
    assert_eq!(by_aids(&["6A82", "6A81"]), [SECOND_AID, "END 12"]);
    // One that is longer than an exact AID does not join, and none follows it.
    assert_eq!(by_aids(&[&fci("A00000000301", "", "9000"), "6A82"]), [SECOND_AID, "END 12"]);
    // Occurrences until one is of another name, blocked without FCI, or gone.
    for last in ["6A82", "6283", "6A81", "6300", &fci(ONE, "", "9000")] {
        let got = by_aids(&["6A82", next, next, last]);
        assert_eq!(got[1..], [SECOND_NEXT, SECOND_NEXT, "CHOICE 2"], "{last}");
    }
    // A blocked one does not join; the very same name is the last.
    let got = by_aids(&["6A82", &fci(longer, "", "6283"), &fci(TWO, "", "9000")]);
    assert_eq!(got[1..], [SECOND_NEXT, SECOND_AID]);
}

/// Three that were found by these indicators; '-' is none.
fn found(shopper_can_choose: bool, indicators: [&str; 3]) -> (Selection, String) {
    let mut selection = begin(shopper_can_choose);
    answered(&mut selection, PSE_FCI);
    for (at, indicator) in indicators.iter().enumerate() {
        let name = format!("4F06{TWO}0{at}");
        let record = match *indicator {
            "-" => format!("700A6108{name}9000"),
            byte => format!("700D610B{name}8701{byte}9000"),
        };
        answered(&mut selection, &record);
    }
    let last = answered(&mut selection, "6A83");
    (selection, last)
}

/// The final SELECT of the one of this number.
fn select(number: usize) -> String {
    format!("00A4040006{TWO}0{number}00")
}

#[test]
fn priorities() {
    let order = |indicators| {
        let (mut selection, mut last) = found(false, indicators);
        let mut all = Vec::new();
        while let Some(at) = (0..3).find(|&at| last == select(at)) {
            all.push(at);
            last = answered(&mut selection, "6985");
        }
        assert_eq!(last, "END 12");
        all
    };
    assert_eq!(order(["02", "01", "0F"]), [1, 0, 2]);
    assert_eq!(order(["-", "70", "0F"]), [2, 0, 1]);
    assert_eq!(order(["01", "41", "31"]), [0, 1, 2]);
    assert_eq!(order(["81", "80", "03"]), [2]);
    assert_eq!(order(["81", "80", "8F"]), [0; 0]);
}

#[test]
fn choices() {
    let (mut selection, last) = found(true, ["02", "-", "81"]);
    assert_eq!(last, "CHOICE 3");
    for good in [&[0][..], &[2], &[0xFF]] {
        assert!(selection.takes_choice(good));
    }
    for bad in [&[][..], &[3], &[0xFE], &[0, 0], &[0; 497]] {
        assert!(!selection.takes_choice(bad));
    }
    assert_eq!(show(selection.clone().choose(0xFF)), "END 12");
    assert_eq!(show(selection.choose(0)), select(2));
    assert!(!selection.takes_choice(&[0]));
    assert_eq!(answered(&mut selection, "6A82"), "CHOICE 2");
    assert_eq!(show(selection.choose(1)), select(1));
    // He took one that fell out: the last without b8 is his choice too.
    assert_eq!(answered(&mut selection, &fci(TWO, "", "9000")), "CHOICE 1");
    assert_eq!(show(selection.choose(0)), select(0));
    let named = fci(&format!("{TWO}00"), "", "9000");
    assert_eq!(answered(&mut selection, &named), "SELECTED -");
}

/// One alone is confirmed where it wants that, else taken.
#[test]
fn one_alone() {
    let one = |can_choose, indicator: &str| {
        let mut selection = begin(can_choose);
        answered(&mut selection, "6A82");
        answered(&mut selection, &fci(ONE, indicator, "9000"));
        answered(&mut selection, "6A82")
    };
    assert_eq!(one(true, ""), FIRST_AID);
    assert_eq!(one(true, "80"), "CHOICE 1");
    assert_eq!(one(false, "80"), "END 12");
    assert_eq!(one(false, "01"), FIRST_AID);
}

/// At the hundredth answer the selection ends, if it does not anyway.
#[test]
fn a_hundred_exchanges() {
    let after = |records: usize, record: &str| {
        let mut selection = begin(true);
        answered(&mut selection, PSE_FCI);
        let last = (0..records).map(|_| answered(&mut selection, record)).last();
        (selection, last.unwrap_or_default())
    };
    let two = "7012 6107 4F05A000000003 6107 4F05A000000004 9000";
    let one = "7009 6107 4F05A000000003 9000";
    assert_eq!(after(98, "70009000").1, "00B2631400");
    assert_eq!(after(99, "70009000").1, "END 11");
    assert_eq!(after(99, one).1, "END 11");
    // The hundredth is the end of the directory: a choice would be due.
    assert_eq!(answered(&mut after(98, two).0, "6A83"), "END 11");
    assert_eq!(answered(&mut after(98, one).0, "6A83"), "END 11");
    let mut last = after(97, one).0;
    last.found.truncate(1);
    assert_eq!(answered(&mut last, "6A83"), FIRST_AID);
    assert_eq!(answered(&mut last.clone(), "6A82"), "END 12");
    assert_eq!(answered(&mut last.clone(), ""), "END 1");
    assert_eq!(answered(&mut last, &fci(ONE, "", "9000")), "SELECTED -");
}

#[test]
fn only_255_are_shown() {
    let mut selection = begin(true);
    answered(&mut selection, PSE_FCI);
    let entries = format!("6107 4F05{ONE}").repeat(26);
    let record = format!("7081EA {entries} 9000");
    for _ in 0..10 {
        answered(&mut selection, &record);
    }
    assert_eq!(answered(&mut selection, "6A83"), "CHOICE 255");
    assert!(selection.takes_choice(&[0xFE]) && selection.takes_choice(&[0xFF]));
    assert_eq!(show(selection.clone().choose(0xFF)), "END 12");
    for left in [255, 255, 255, 255, 255, 254] {
        assert_eq!(show(selection.choose(0xFD)), FIRST_AID);
        assert_eq!(answered(&mut selection, "6A82"), format!("CHOICE {left}"));
    }
}

#[test]
fn entries_of_a_record() {
    let read = |text: &str| {
        let entries = read_directory(&h(text))?;
        Some(entries.iter().map(|e| format!("{:02X?}", e.indicator)).collect::<Vec<_>>().join(" "))
    };
    let name = "4F05A000000003";
    assert_eq!(read(&format!("7009 6107 {name}")), Some("None".to_string()));
    assert_eq!(read(&format!("700C 610A 870107 {name}")), Some("Some(07)".to_string()));
    assert_eq!(read("7004 6102 9D00"), Some(String::new()));
    assert_eq!(read("7007 6105 9D00 870201"), None);
    assert_eq!(read("7008 6106 9D00 87020101"), Some(String::new()));
    assert_eq!(read("700B 7309 6107 4F05A000000003"), Some(String::new()));
    for bad in ["6102 8700", "6105 4F03A00000", "6109 4F05A000000003 8700"] {
        assert_eq!(read(&format!("70{:02X} {bad}", h(bad).len())), None, "{bad}");
    }
    assert_eq!(read(&format!("7010 610E {name} {name}")), None);
}
