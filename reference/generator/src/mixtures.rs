//! Tapes to time judges on (02, R-14): a night's mixture, and fat ones.

use crate::random::Random;
use crate::scenarios::by_chance;
use crate::sessions::plan::{play, Item, Plan};
use crate::tapes::{made_tape, tape_by};
use rules::edition::Edition;
use rules::judge::judge;
use rules::objects::{length_bytes, read_object};
use rules::tape::{ANSWER, COMMAND};
use std::io::{self, Write};
use std::path::Path;

/// What kind of tapes.
#[derive(Clone, Copy, Debug, PartialEq, Eq)]
pub enum Mixture {
    /// Nine in ten are finished sessions of 11 to 18 blocks, the others any.
    Night,
    /// These sessions, each record filled up with an object that nobody names.
    Fat,
}

impl Mixture {
    pub fn named(name: &str) -> Option<Mixture> {
        match name {
            "night" => Some(Mixture::Night),
            "fat" => Some(Mixture::Fat),
            _ => None,
        }
    }
}

/// A session of 11 to 18 entries that is decided without a reason.
fn usual(r: &mut Random) -> Vec<Item> {
    loop {
        let plan = Plan { tweaks: by_chance(r).plan.tweaks, ..Plan::default() };
        let items = play(&plan, r);
        let decided = items.last().is_some_and(|last| last.payload.get(1) == Some(&0));
        if decided && (11..=18).contains(&items.len()) {
            return items;
        }
    }
}

/// The size of a data field that is filled up, and of what is in its 70.
const FAT_DATA: usize = 253;
const FAT_RECORD: usize = FAT_DATA - 3;

/// A good record filled up; nothing where it is no such record or has no room.
fn fattened(answer: &[u8], r: &mut Random) -> Option<Vec<u8>> {
    let (data, status) = answer.split_last_chunk::<2>()?;
    let (record, behind) = read_object(data)?;
    let room = FAT_RECORD.checked_sub(record.value.len())?;
    if record.tag != 0x70 || !behind.is_empty() || room < 2 {
        return None;
    }
    let head =
        if room < 2 + 0x80 { vec![0xC1, room as u8 - 2] } else { vec![0xC1, 0x81, room as u8 - 3] };
    let filler = r.bytes(room - head.len());
    let size = length_bytes(FAT_RECORD);
    Some([&[0x70], &size[..], record.value, &head, &filler, status].concat())
}

/// All records of a session filled up.
fn fatten(items: &mut [Item], r: &mut Random) {
    for at in 1..items.len() {
        let is_record =
            items[at - 1].kind == COMMAND && items[at - 1].payload.get(1) == Some(&0xB2);
        if is_record && items[at].kind == ANSWER {
            if let Some(fat) = fattened(&items[at].payload, r) {
                items[at].payload = fat;
            }
        }
    }
}

/// The tapes of a seed, without end.
pub fn mixed_tapes(mixture: Mixture, seed: u64) -> impl Iterator<Item = Vec<u8>> {
    (0..).map(move |index| {
        let mut r = Random::nth(seed, index);
        if mixture == Mixture::Night && r.chance(10) {
            return made_tape(&by_chance(&mut r), &mut r);
        }
        let mut items = usual(&mut r);
        if mixture == Mixture::Fat {
            fatten(&mut items, &mut r);
        }
        tape_by(Edition::default(), &items, r.next() as u32)
    })
}

/// Makes `count` tapes in a folder and prints name and verdict of each.
pub fn make_mixture(mixture: Mixture, folder: &Path, count: usize, seed: u64) -> io::Result<()> {
    std::fs::create_dir_all(folder)?;
    let mut out = io::BufWriter::new(io::stdout().lock());
    for (index, bytes) in mixed_tapes(mixture, seed).take(count).enumerate() {
        let name = format!("{:06}.tape", index + 1);
        std::fs::write(folder.join(&name), &bytes)?;
        writeln!(out, "{name} {}", judge(&bytes))?;
    }
    out.flush()
}

#[cfg(test)]
mod tests {
    use super::*;
    use rules::judge::Verdict;

    #[test]
    fn fat_sessions_pass() {
        let mut filled = 0;
        for bytes in mixed_tapes(Mixture::Fat, 3).take(200) {
            let blocks = bytes.len() / 512;
            assert_eq!(judge(&bytes).verdict, Verdict::Pass(blocks));
            assert!((11..=18).contains(&blocks));
            filled += bytes.chunks(512).filter(|block| block[10..12] == [0, 255]).count();
        }
        assert!(filled > 300, "{filled}");
    }

    #[test]
    fn a_night_is_mostly_finished_sessions() {
        let verdicts = mixed_tapes(Mixture::Night, 3).take(500).map(|t| judge(&t).verdict);
        let passed = verdicts.filter(|verdict| matches!(verdict, Verdict::Pass(_))).count();
        assert!((450..500).contains(&passed), "{passed}");
    }
}
