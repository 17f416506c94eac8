use super::*;
use rules::reset::read;
use std::collections::BTreeSet;

#[test]
fn good_captures_are_accepted() {
    for index in 0..3000 {
        let made = good(&mut Random::nth(1, index));
        let bytes = [&[DIRECT], &made.data()[..]].concat();
        let inverse: Vec<u8> =
            [INVERSE].into_iter().chain(made.data().iter().map(|&b| turned(b))).collect();
        let (one, two) = (read(&bytes, made.reset), read(&inverse, made.reset));
        let (one, two) = (one.unwrap(), two.unwrap());
        assert!(!one.inverse && two.inverse);
        assert_eq!((one.protocol, one.historical), (two.protocol, two.historical));
    }
}

#[test]
fn every_break_breaks_its_rule() {
    for (index, (rule, apply)) in BREAKS.iter().enumerate() {
        for round in 0..300 {
            let mut r = Random::nth(round, index as u64);
            let mut made = good(&mut r);
            apply(&mut made, &mut r);
            let bytes = [&[DIRECT], &made.data()[..]].concat();
            let refusals = read(&bytes, made.reset).unwrap_err();
            assert!(refusals.iter().any(|f| f.rule == *rule), "{rule} {bytes:02X?}");
        }
    }
}

#[test]
fn a_cut_is_the_last_refusal() {
    for index in 0..500 {
        let made = good(&mut Random::nth(2, index));
        let bytes = [&[DIRECT], &made.data()[..]].concat();
        for size in 0..bytes.len() {
            let refusals = read(&bytes[..size], made.reset).unwrap_err();
            let last = refusals.last().unwrap();
            assert_eq!(last.place, size);
            assert!(["CUT", "TCK-ABSENT"].contains(&last.rule));
        }
    }
}

#[test]
fn every_rule_occurs() {
    let mut seen = BTreeSet::new();
    let mut accepted = 0;
    for index in 0..4000 {
        let (reset, bytes) = any(index, &mut Random::nth(3, index as u64));
        match read(&bytes, reset) {
            Ok(_) => accepted += 1,
            Err(refusals) => seen.extend(refusals.iter().map(|f| f.rule)),
        }
    }
    assert!(accepted > 400, "{accepted}");
    assert_eq!(seen.len(), 20, "{seen:?}");
}

/// LONG stands before, beside and behind all that can be wrong at the end.
#[test]
fn long_captures_of_every_sort() {
    let mut seen = std::collections::BTreeMap::new();
    for index in 0..8000 {
        let (reset, bytes) = any(index, &mut Random::nth(4, index as u64));
        let Err(refusals) = read(&bytes, reset) else { continue };
        if !refusals.iter().any(|f| f.rule == "LONG") {
            continue;
        }
        // What stands at the end, and where it is as seen from place 33.
        let ends = ["CUT", "TCK-ABSENT", "TCK", "EXTRA"];
        for refusal in refusals.iter().filter(|f| ends.contains(&f.rule)) {
            *seen.entry((refusal.rule, refusal.place.cmp(&33))).or_insert(0) += 1;
        }
        let inner = refusals.iter().filter(|f| f.place < 16 && !ends.contains(&f.rule)).count();
        if inner > 0 {
            *seen.entry(("others", std::cmp::Ordering::Less)).or_insert(0) += 1;
        }
    }
    // CUT and TCK-ABSENT cannot stand before a character that is there.
    assert_eq!(seen.len(), 9, "{seen:?}");
    assert!(seen.values().all(|&count| count > 30), "{seen:?}");
}
