use super::tapes;
use crate::random::Random;
use crate::scenarios::{scenario_for, systematic, Stock};
use crate::tapes::made_tape;
use rules::edition::Edition;
use rules::judge::{judge, judge_by};
use rules::tape;

fn dressed_tape(bytes: &[u8], r: &mut Random) -> Vec<u8> {
    tapes::dressed_tape(Edition::default(), bytes, r)
}

fn changed_tape(bytes: &[u8], r: &mut Random) -> Option<Vec<u8>> {
    tapes::changed_tape(Edition::default(), bytes, r)
}

/// Tapes of all kinds, damaged ones too, keep their line; of those with
/// something changed many do not.
#[test]
fn dressed_tapes_keep_their_line() {
    let all = systematic();
    let (mut compared, mut dressed_up, mut changed, mut differ) = (0, 0, 0, 0);
    for index in (0..all.len() + 500).step_by(3) {
        let mut r = Random::nth(21, index as u64);
        let scenario = scenario_for(index, &all, &mut r);
        let bytes = made_tape(&scenario, &mut r);
        let after = dressed_tape(&bytes, &mut r);
        assert_eq!(after.len(), bytes.len());
        assert_eq!(judge(&after), judge(&bytes), "{}", scenario.label);
        compared += 1;
        dressed_up += usize::from(after != bytes);
        if let Some(other) = changed_tape(&bytes, &mut r) {
            changed += 1;
            differ += usize::from(judge(&other) != judge(&bytes));
        }
    }
    assert!(dressed_up * 10 > compared * 8, "{dressed_up} of {compared}");
    assert!(differ * 10 > changed * 3 && differ < changed, "{differ} of {changed}");
}

/// The same where an application is chosen (02, R-12).
#[test]
fn dressed_tapes_with_a_list_keep_their_line() {
    let stock = Stock::of(Edition::Choosing);
    let judge = |bytes: &[u8]| judge_by(Edition::Choosing, bytes);
    let (mut dressed_up, mut changed, mut differ) = (0, 0, 0);
    for index in (0..7000).step_by(14) {
        let mut r = Random::nth(21, index as u64);
        let scenario = stock.scenario(index, &mut r);
        let bytes = made_tape(&scenario, &mut r);
        let after = tapes::dressed_tape(Edition::Choosing, &bytes, &mut r);
        assert_eq!(judge(&after), judge(&bytes), "{}", scenario.label);
        dressed_up += usize::from(after != bytes);
        if let Some(other) = tapes::changed_tape(Edition::Choosing, &bytes, &mut r) {
            changed += 1;
            differ += usize::from(judge(&other) != judge(&bytes));
        }
    }
    assert!(dressed_up > 350 && differ * 10 > changed * 3, "{dressed_up} {changed} {differ}");
}

/// Nothing but the payloads of answers changes.
#[test]
fn all_else_stays() {
    let all = systematic();
    for index in 0..100 {
        let mut r = Random::nth(22, index as u64);
        let bytes = made_tape(&scenario_for(index, &all, &mut r), &mut r);
        let after = dressed_tape(&bytes, &mut r);
        let (Ok(before), Ok(after)) = (tape::read(&bytes), tape::read(&after)) else { continue };
        for (one, other) in before.iter().zip(&after) {
            assert_eq!(one.kind, other.kind);
            assert!(one.payload == other.payload || one.kind == tape::ANSWER);
        }
    }
}

/// The two samples differ in their answers, and in nothing that follows from
/// them.
#[test]
fn the_dressed_sample() {
    let folder = concat!(env!("CARGO_MANIFEST_DIR"), "/../../samples");
    let [plain, worn] = ["online-pin", "dressed"]
        .map(|name| std::fs::read(format!("{folder}/{name}.tape")).unwrap());
    assert_eq!(judge(&worn).to_string(), "PASS 16 0 0");
    assert_eq!(judge(&plain), judge(&worn));
    let (before, after) = (tape::read(&plain).unwrap(), tape::read(&worn).unwrap());
    for (one, other) in before.iter().zip(&after) {
        assert_eq!(one.kind, other.kind);
        assert_eq!(one.payload != other.payload, one.kind == tape::ANSWER);
    }
}
