use super::*;
use crate::random::Random;
use crate::scenarios::by_chance;
use crate::sessions::plan::{play, Item};
use crate::tweaks::unverified;
use rules::tape::{DECISION, RESULTS, START};

/// The RESULTS of a session, and TVR byte 3 and TSI byte 1 of its DECISION.
fn outcome(items: &[Item]) -> (Option<Vec<u8>>, u8, u8) {
    let results = items.iter().find(|item| item.kind == RESULTS);
    let decision = items.last().filter(|item| item.kind == DECISION);
    let decision = &decision.expect("a decision").payload;
    (results.map(|item| item.payload.clone()), decision[4], decision[7])
}

fn played(change: Tweak, index: u64) -> Vec<Item> {
    let plan = Plan { tweaks: vec![change], ..long_plan((index % 3) as u8) };
    play(&plan, &mut Random::nth(12, index))
}

#[test]
fn verification_is_due_or_not() {
    for index in 0..300 {
        let (results, _, tsi) = outcome(&played(verified(), index));
        assert!(results.is_some() && tsi & 0x40 != 0, "{index}");
        for change in [formerly(), unverified()] {
            let (results, bits, tsi) = outcome(&played(change, index));
            assert_eq!((results, bits, tsi & 0x40), (None, 0, 0), "{index}");
        }
    }
}

/// Every bit of byte 3 comes up, and success with and without earlier bits.
#[test]
fn all_outcomes_occur() {
    let mut bits = [0; 8];
    let (mut success, mut late, mut longest) = (0, 0, 0);
    for (index, scenario) in verification().iter().enumerate() {
        let items = play(&scenario.plan, &mut Random::nth(13, index as u64));
        let (results, byte, _) = outcome(&items);
        let Some(results) = results else { continue };
        (0..8).for_each(|bit| bits[bit] += usize::from(byte >> bit & 1));
        success += usize::from(byte & 0x80 == 0);
        late += usize::from(byte & 0x80 == 0 && byte & 0x78 != 0);
        longest = longest.max(results.len());
    }
    assert!(bits[..2] == [0, 0] && bits[2..].iter().all(|&n| n > 10), "{bits:?}");
    assert!(success > 100 && late > 20, "{success} {late}");
    assert_eq!(longest, 121);
}

/// Some tapes of a free mix have a START of the former size, most have not.
#[test]
fn both_sizes_of_start_occur() {
    let (mut now, mut before, mut with_results) = (0, 0, 0);
    for index in 0..2000 {
        let mut r = Random::nth(14, index);
        let items = play(&by_chance(&mut r).plan, &mut r);
        assert_eq!(items[0].kind, START);
        match items[0].payload.len() {
            74 => before += 1,
            77 => now += 1,
            other => panic!("{other}"),
        }
        with_results += usize::from(items.iter().any(|item| item.kind == RESULTS));
    }
    assert!(before > 200 && now > 1500 && with_results > 600, "{before} {now} {with_results}");
}
