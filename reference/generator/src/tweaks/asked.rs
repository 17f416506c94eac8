//! Object lists that show what is filled with zeros (02, R-6).

use super::verified::{unverified, verified};
use crate::random::Random;
use crate::sessions::card::Card;
use crate::sessions::lists::{wish, LIST_TAGS};
use crate::sessions::tweak::{tweak, Tweak};

/// The three lists there are in a session.
const LISTS: [u16; 3] = [0x9F38, 0x8C, 0x8D];

/// Objects that a card may leave out.
const OPTIONAL: [u16; 5] = [0x5F25, 0x9F08, 0x9F0D, 0x9F0E, 0x9F0F];

/// As many entries as there can be about, whatever stands around the list.
const VERY_MANY: usize = 105;

fn set_list(card: &mut Card, which: u16, list: Vec<u8>, r: &mut Random) {
    if which == 0x9F38 {
        card.list = Some(list);
    } else {
        card.set(which, list, r);
    }
}

/// One tag a few times, each time with another length, none among them.
fn one_tag(tag: u16, natural: usize, r: &mut Random) -> Vec<u8> {
    let lengths = [natural, 0, natural - 1, natural + 1, 0, 40];
    let from = r.below(lengths.len());
    let count = *r.pick(&[1, 1, 2, 3]);
    (0..count).flat_map(|at| wish(tag, lengths[(from + at) % lengths.len()])).collect()
}

fn single_tags() -> Vec<Tweak> {
    let mut all = Vec::new();
    for which in LISTS {
        for (tag, natural) in LIST_TAGS {
            all.push(tweak(0, &format!("{which:X} names {tag:X}"), move |_, card, r| {
                set_list(card, which, one_tag(tag, natural, r), r);
            }));
        }
    }
    all
}

/// Every tag there is, each for `length` bytes at most.
fn every_tag(length: usize) -> Vec<u8> {
    LIST_TAGS.iter().flat_map(|&(tag, natural)| wish(tag, natural.min(length))).collect()
}

/// Removes some of the objects that a list can name and a card can lack.
fn lack_some(card: &mut Card, r: &mut Random) {
    card.objects.retain(|tag, _| !OPTIONAL.contains(tag) || r.chance(50));
}

/// A card whose lists have so many entries that each needs its own record.
fn very_many(card: &mut Card, tag: u16, r: &mut Random) {
    card.noisy = false;
    card.relocate(vec![[8, 1, 3, 0]], r);
    card.objects.values_mut().for_each(|object| object.0 = 0);
    for which in LISTS {
        set_list(card, which, wish(tag, 0).repeat(VERY_MANY), r);
    }
    for (which, record) in [(0x8C, 1), (0x8D, 2)] {
        card.objects.entry(which).and_modify(|object| object.0 = record);
    }
}

fn many_tags() -> Vec<Tweak> {
    let mut all = Vec::new();
    for which in LISTS {
        for length in [0, 2] {
            let label = format!("{which:X} names every tag for {length} bytes");
            all.push(tweak(0, &label, move |_, card, r| {
                set_list(card, which, every_tag(length), r);
            }));
            let label = format!("{which:X} names every tag for {length} bytes, some not there");
            // The issuer's codes decide what is asked for, so no reason is certain.
            let change = tweak(0, &label, move |_, card, r| {
                lack_some(card, r);
                set_list(card, which, every_tag(length), r);
            });
            all.push(Tweak { reason: None, ..change });
        }
    }
    for tag in [0x82, 0x9C, 0x8A, 0x70] {
        all.push(tweak(0, &format!("all lists name {tag:X} very often"), move |_, card, r| {
            very_many(card, tag, r);
        }));
    }
    all
}

/// Lists that name tags of all sorts.
pub fn asked() -> Vec<Tweak> {
    [single_tags(), many_tags()].concat()
}

/// A single record; every list has something that is filled with zeros, a
/// different number of times in each.
fn count_all(card: &mut Card, r: &mut Random) {
    card.relocate(vec![[8, 1, 1, 0]], r);
    for (which, times) in [(0x9F38, 1), (0x8C, 2), (0x8D, 4)] {
        let unknown = [wish(0x9F06, 3), wish(0xBF0C, 0), wish(0x9F42, 1), wish(0x8E, 1)];
        let mut list = unknown.into_iter().cycle().take(times).collect::<Vec<_>>().concat();
        list.extend(wish(0x95, r.below(6)));
        set_list(card, which, list, r);
    }
}

/// A session with such lists and no verification.
pub fn counted() -> Tweak {
    tweak(0, "all lists counted", |start, card, r| {
        (unverified().apply)(start, card, r);
        count_all(card, r);
    })
}

/// The same with verification (02, R-7), and with 9F33, which is known.
pub fn counted_verified() -> Tweak {
    tweak(0, "all lists counted, verified", |start, card, r| {
        (verified().apply)(start, card, r);
        count_all(card, r);
        let list = [wish(0x9F33, 3), wish(0x9F42, 2), wish(0x8E, 0)].concat();
        set_list(card, 0x8C, list, r);
    })
}

#[cfg(test)]
mod tests {
    use super::*;
    use crate::endings::entries::ENTRIES;
    use crate::scenarios::scenario::long_plan;
    use crate::sessions::plan::{play, Plan};
    use crate::tapes::tape_of;
    use rules::judge::{judge, Verdict};

    /// Whether the tag is known when the list is filled, in a session with all
    /// objects: 01's enumeration, gone through by hand, and 9F33 where START
    /// has it (02, R-7).
    fn is_known(tag: u16, which: u16, former: bool) -> bool {
        match tag {
            0x9F33 => !former,
            0x9F02 | 0x9F03 | 0x9F1A | 0x5F2A | 0x9A | 0x9C | 0x9F37 | 0x9F09 => true,
            0x95 | 0x9B => true,
            0x8A => which == 0x8D,
            0x82 | 0x5A | 0x5F24 | 0x5F25 | 0x9F08 | 0x9F0D | 0x9F0E | 0x9F0F => which != 0x9F38,
            _ => false,
        }
    }

    /// The fourth number of a session that was set up last by `change`, with
    /// a START of the former size or not.
    fn sum(index: u64, former: bool, change: Tweak) -> usize {
        let all_there = tweak(0, "", move |start, card, r| {
            start.capabilities = (!former).then_some([1, 2, 3]);
            card.relocate(vec![[8, 1, 2, 0]], r);
            card.list = None;
            card.set(0x8C, vec![], r);
            card.set(0x8D, vec![], r);
            card.set(0x5F25, start.date.to_vec(), r);
            card.set(0x9F08, start.version.to_vec(), r);
            for tag in [0x9F0D, 0x9F0E, 0x9F0F] {
                card.set(tag, vec![0; 5], r);
            }
        });
        let plan = Plan { tweaks: vec![all_there, change], ..long_plan(1) };
        let items = play(&plan, &mut Random::nth(4, index));
        let judgement = judge(&tape_of(&items, 1));
        assert_eq!(judgement.verdict, Verdict::Pass(items.len()));
        judgement.unsupplied
    }

    #[test]
    fn every_tag_in_every_list() {
        for which in LISTS {
            for (index, (tag, natural)) in LIST_TAGS.into_iter().enumerate() {
                let index = index as u64;
                for (length, times) in [(natural, 1), (0, 1), (natural + 1, 2)] {
                    let named = tweak(0, "", move |_, card, r| {
                        set_list(card, which, wish(tag, length).repeat(times), r);
                    });
                    for former in [false, true] {
                        let expected = if is_known(tag, which, former) { 0 } else { times };
                        let got = sum(index, former, named.clone());
                        assert_eq!(got, expected, "{which:X} {tag:X} {former}");
                    }
                }
            }
        }
    }

    #[test]
    fn the_largest_sums() {
        let many = |tag| tweak(0, "", move |_, card, r| very_many(card, tag, r));
        assert_eq!(sum(1, false, many(0x70)), 3 * VERY_MANY);
        assert_eq!(sum(1, false, many(0x8A)), 2 * VERY_MANY);
        assert_eq!(sum(1, false, many(0x82)), VERY_MANY);
        assert_eq!(sum(1, false, many(0x9C)), 0);
        assert_eq!(sum(1, false, counted()), 7);
        assert_eq!(sum(1, true, counted()), 7);
        assert_eq!(sum(1, true, counted_verified()), 7);
    }

    #[test]
    fn every_entry_of_a_counted_session() {
        let sums = |change: Tweak| -> Vec<usize> {
            let plan = Plan { tweaks: vec![change], ..long_plan(1) };
            let items = play(&plan, &mut Random::nth(4, 1));
            (0..=items.len()).map(|n| judge(&tape_of(&items[..n], 1)).unsupplied).collect()
        };
        assert_eq!(sums(counted()), [0, 0, 0, 1, 1, 1, 1, 3, 3, 3, 7, 7, 7, 7]);
        // RESULTS stand between the last record and the first request.
        let verified = sums(counted_verified());
        assert_eq!(verified, [0, 0, 0, 1, 1, 1, 1, 1, 3, 3, 3, 7, 7, 7, 7]);
        assert_eq!(verified.len(), ENTRIES + 1);
    }
}
