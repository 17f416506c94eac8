//! Made tapes.

use crate::random::Random;
use crate::scenarios::{Scenario, Stock};
use crate::sessions::plan::{play, Item};
use rules::edition::Edition;
use rules::judge::judge_by;
use rules::tape::{Entry, Writer};
use std::io::{self, Write};
use std::path::Path;

/// The tape of some entries, as many as a tape can hold.
#[cfg(test)]
pub fn tape_of(items: &[Item], session: u32) -> Vec<u8> {
    tape_by(Edition::default(), items, session)
}

pub fn tape_by(edition: Edition, items: &[Item], session: u32) -> Vec<u8> {
    let mut writer = Writer::by(edition, session, edition.longest_tape());
    for item in items.iter().take(edition.most_blocks()) {
        // Made entries have a good kind and size, so nothing is refused.
        let _ = writer.add(Entry { kind: item.kind, payload: &item.payload });
    }
    writer.into_bytes()
}

/// The bytes of one made tape.
pub fn made_tape(scenario: &Scenario, r: &mut Random) -> Vec<u8> {
    let mut items = play(&scenario.plan, r);
    for ending in &scenario.endings {
        if !items.is_empty() {
            (ending.apply)(&mut items, r);
        }
    }
    let session = *r.pick(&[0, 1, 7, 0x0102_0304, 0x8000_0000, u32::MAX]);
    let mut bytes = tape_by(scenario.plan.edition, &items, session);
    for damage in &scenario.damages {
        (damage.apply)(&mut bytes, r);
    }
    bytes
}

/// The tapes of a seed, as `make` writes them, without end.
pub fn tapes(edition: Edition, seed: u64) -> impl Iterator<Item = Vec<u8>> {
    let stock = Stock::of(edition);
    (0..).map(move |index| {
        let mut r = Random::nth(seed, index as u64);
        made_tape(&stock.scenario(index, &mut r), &mut r)
    })
}

/// Makes `count` tapes in a folder. Prints name and verdict of each; `list`
/// gets name and label.
pub fn make(
    edition: Edition,
    folder: &Path,
    count: usize,
    seed: u64,
    list: Option<&Path>,
) -> io::Result<()> {
    std::fs::create_dir_all(folder)?;
    let stock = Stock::of(edition);
    let mut out = io::BufWriter::new(io::stdout().lock());
    let mut labels = String::new();
    for index in 0..count {
        let mut r = Random::nth(seed, index as u64);
        let scenario = stock.scenario(index, &mut r);
        let bytes = made_tape(&scenario, &mut r);
        let name = format!("{:06}.tape", index + 1);
        std::fs::write(folder.join(&name), &bytes)?;
        writeln!(out, "{name} {}", judge_by(edition, &bytes))?;
        let reason = scenario.reason.map(|n| format!(" (reason {n})")).unwrap_or_default();
        labels.push_str(&format!("{name} {}{reason}\n", scenario.label));
    }
    out.flush()?;
    match list {
        Some(path) => std::fs::write(path, labels),
        None => Ok(()),
    }
}

#[cfg(test)]
mod tests {
    use super::*;
    use crate::scenarios::{
        by_chance, choosing_by_chance, longest_with_list, scenario_for, systematic,
    };
    use rules::due::Account;
    use rules::feed::{judge_fed, judge_fed_by};
    use rules::judge::judge;
    use rules::tape::CHOICE;

    /// The reason byte a played session ends with.
    fn reason(items: &[Item]) -> u8 {
        items.last().map_or(0, |item| item.payload[1])
    }

    #[test]
    fn every_fault_gives_its_reason() {
        for (index, scenario) in systematic().iter().enumerate() {
            let Some(want) = scenario.reason else { continue };
            for round in 0..20 {
                let mut r = Random::nth(round, index as u64);
                let items = play(&scenario.plan, &mut r);
                assert_eq!(reason(&items), want, "{} {round}", scenario.label);
            }
        }
    }

    #[test]
    fn every_session_played_passes_and_its_beginnings_do_not() {
        for index in 0..600 {
            let mut r = Random::nth(3, index);
            let items = play(&by_chance(&mut r).plan, &mut r);
            assert!(items.len() <= 1012);
            // Of the long ones some beginnings will do.
            let step = 1 + items.len() / 100;
            for count in (0..items.len()).step_by(step).chain([items.len()]) {
                let verdict = judge(&tape_of(&items[..count], 1)).to_string();
                let word = if count == items.len() { "PASS" } else { "INCONCLUSIVE" };
                assert!(verdict.starts_with(&format!("{word} {count} 0 ")), "{verdict}");
            }
        }
    }

    /// 02, R-7 adds an entry.
    #[test]
    fn the_longest_session_has_1012_entries() {
        let all = systematic();
        for (last, entries) in [("unverified", 1011), ("verified", 1012)] {
            let label = format!("500 records, {last}, whole");
            let longest: Vec<&Scenario> = all.iter().filter(|s| s.label == label).collect();
            assert!(!longest.is_empty());
            for scenario in longest {
                assert_eq!(play(&scenario.plan, &mut Random::nth(1, 1)).len(), entries);
            }
        }
    }

    #[test]
    fn fed_or_whole_made_tapes_are_judged_alike() {
        let all = systematic();
        for index in 0..(all.len() + 2000) {
            let mut r = Random::nth(11, index as u64);
            let scenario = scenario_for(index, &all, &mut r);
            let bytes = made_tape(&scenario, &mut r);
            assert_eq!(judge(&bytes), judge_fed(&bytes), "{}", scenario.label);
            assert_eq!(judge(&bytes), Account::of(&bytes).judgement, "{}", scenario.label);
        }
    }

    fn has_list(bytes: &[u8]) -> bool {
        bytes.get(10..12) == Some(&[0, 207])
    }

    fn has_choice(bytes: &[u8]) -> bool {
        bytes.chunks(512).any(|block| block.get(8) == Some(&CHOICE))
    }

    /// 02, R-12: half of the tapes have a list, a quarter of these a choice.
    #[test]
    fn lists_and_choices_occur() {
        let stock = Stock::of(Edition::Choosing);
        let (mut lists, mut choices) = (0, 0);
        for index in (0..8000).step_by(3) {
            let mut r = Random::nth(12, index as u64);
            let scenario = stock.scenario(index, &mut r);
            let bytes = made_tape(&scenario, &mut r);
            let judged = judge_by(Edition::Choosing, &bytes);
            assert_eq!(judged, judge_fed_by(Edition::Choosing, &bytes), "{}", scenario.label);
            let account = Account::by(Edition::Choosing, &bytes);
            assert_eq!(judged, account.judgement, "{}", scenario.label);
            lists += usize::from(has_list(&bytes));
            choices += usize::from(has_list(&bytes) && has_choice(&bytes));
        }
        assert!(lists > 1200 && choices * 4 > lists, "{lists} {choices}");
    }

    /// 02, R-12: every way to choose is a session, with its beginnings.
    #[test]
    fn sessions_with_a_list_pass() {
        let mut ends = [0; 13];
        for index in 0..500 {
            let mut r = Random::nth(4, index);
            let items = play(&choosing_by_chance(&mut r).plan, &mut r);
            ends[usize::from(reason(&items))] += 1;
            let step = 1 + items.len() / 30;
            for count in (0..items.len()).step_by(step).chain([items.len()]) {
                let tape = tape_by(Edition::Choosing, &items[..count], 1);
                let verdict = judge_by(Edition::Choosing, &tape).to_string();
                let word = if count == items.len() { "PASS" } else { "INCONCLUSIVE" };
                assert!(verdict.starts_with(&format!("{word} {count} 0 ")), "{verdict}");
            }
        }
        assert!([0, 1, 2, 9, 11, 12].iter().all(|&end| ends[end] > 0), "{ends:?}");
    }

    /// 02, R-12: 1 + 200 + 94 choices + 2 + 1,000 + RESULTS + 2 + HOST + 2 + 1.
    #[test]
    fn the_longest_session_with_a_list_has_1304_entries() {
        let items = play(&longest_with_list().plan, &mut Random::nth(1, 1));
        assert_eq!((items.len(), reason(&items)), (1304, 0));
    }
}
