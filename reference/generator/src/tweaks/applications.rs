//! Ways to set up the applications of terminal and card (02, R-12).

use crate::random::Random;
use crate::sessions::applications::{any_indicator, dealt_out, Adf, Aid, Applications};
use crate::sessions::plan::Setup;
use rules::choosing::PSE;
use std::rc::Rc;

/// A way to set them up, with a name.
#[derive(Clone)]
pub struct Named {
    pub label: String,
    pub setup: Setup,
}

fn named(label: &str, setup: impl Fn(&mut Applications, &mut Random) + 'static) -> Named {
    Named { label: label.to_string(), setup: Rc::new(setup) }
}

const PROVIDER: [u8; 5] = [0xA0, 0, 0, 0, 3];

fn aid(name: &[u8], is_partial: bool) -> Aid {
    Aid { name: name.to_vec(), is_partial }
}

/// So many names that begin with the provider, each different.
fn names(count: usize) -> Vec<Vec<u8>> {
    let rest =
        |at: usize| if count > 256 { vec![(at >> 8) as u8, at as u8] } else { vec![at as u8] };
    (0..count).map(|at| [&PROVIDER[..], &rest(at)].concat()).collect()
}

/// Applications of these names, 87 by chance.
fn adfs(names: &[Vec<u8>], r: &mut Random) -> Vec<Adf> {
    names.iter().map(|name| Adf::new(name, any_indicator(r))).collect()
}

/// The entries in full records, as many as fit in one answer.
fn packed(entries: &[Adf]) -> Vec<Vec<Adf>> {
    entries.chunks(19).map(<[Adf]>::to_vec).collect()
}

/// A directory of these alone; all are on the card too.
pub fn in_directory(count: usize) -> Named {
    named(&format!("{count} in a directory"), move |a, r| {
        a.aids = vec![aid(&PROVIDER, true)];
        a.files = adfs(&names(count), r);
        a.labelled &= count < 10;
        a.directory = if count < 10 { dealt_out(&a.files, r) } else { packed(&a.files) };
        a.file = Some(r.between(1, 10) as u8);
    })
}

/// No directory; one partial AID, and so many that begin with it.
pub fn occurring(count: usize) -> Named {
    named(&format!("{count} occurrences"), move |a, r| {
        a.aids = vec![aid(&PROVIDER, true)];
        a.files = adfs(&names(count), r);
        a.file = None;
    })
}

/// No directory; so many exact AIDs, each on the card.
pub fn exact(count: usize) -> Named {
    named(&format!("{count} exact"), move |a, r| {
        a.files = adfs(&names(count), r);
        a.aids = a.files.iter().map(|file| aid(&file.name, false)).collect();
        a.file = None;
    })
}

/// So many in a directory that are not on the card; the last one is.
pub fn falling_out(count: usize) -> Named {
    named(&format!("{count} of which the last is there"), move |a, _| {
        a.aids = vec![aid(&PROVIDER, true)];
        let entries: Vec<Adf> = names(count).iter().map(|name| Adf::new(name, None)).collect();
        a.files = entries.last().cloned().into_iter().collect();
        a.directory = entries.chunks(25).map(<[Adf]>::to_vec).collect();
        (a.file, a.labelled) = (Some(1), false);
    })
}

/// Who chooses.
pub fn shopper(can_choose: bool) -> Named {
    let label = if can_choose { "the shopper chooses" } else { "the terminal chooses" };
    named(label, move |a, _| a.shopper_can_choose = can_choose)
}

/// All applications, on the card and in the directory, changed alike.
fn each(a: &mut Applications, change: impl Fn(usize, &mut Adf)) {
    a.files.iter_mut().enumerate().for_each(|(at, file)| change(at, file));
    let entries = a.directory.iter_mut().flatten();
    entries.enumerate().for_each(|(at, entry)| change(at, entry));
}

/// 87 of all applications.
pub fn indicators() -> Vec<Named> {
    vec![
        named("no priorities", |a, _| each(a, |_, adf| adf.indicator = None)),
        named("all of one priority", |a, _| each(a, |_, adf| adf.indicator = Some(7))),
        named("priority 0", |a, _| each(a, |_, adf| adf.indicator = Some(0x70))),
        named("all want a confirmation", |a, _| {
            each(a, |at, adf| adf.indicator = Some(0x80 | at as u8 & 0x0F))
        }),
        named("all but one want a confirmation", |a, r| {
            let free = r.below(a.files.len());
            each(a, |at, adf| adf.indicator = Some(if at == free { 0x0F } else { 0x81 }))
        }),
        named("priorities upside down", |a, _| {
            each(a, |at, adf| adf.indicator = Some(15 - (at % 16) as u8))
        }),
    ]
}

/// Blocked and missing applications.
pub fn blocked() -> Vec<Named> {
    vec![
        named("all blocked", |a, _| each(a, |_, adf| adf.status = [0x62, 0x83])),
        named("every second blocked", |a, _| {
            each(a, |at, adf| adf.status = [[0x62, 0x83], [0x90, 0x00]][at % 2])
        }),
        named("nothing on the card", |a, _| a.files.clear()),
        named("only the last on the card", |a, _| {
            let gone = a.files.len().saturating_sub(1);
            a.files.drain(..gone);
        }),
    ]
}

/// Lists and directories of odd shapes.
pub fn odd() -> Vec<Named> {
    [odd_directories(), odd_names()].concat()
}

fn odd_directories() -> Vec<Named> {
    vec![
        named("as it comes", |_, _| ()),
        named("directory without records", |a, _| {
            (a.file, a.directory) = (Some(10), Vec::new());
        }),
        named("records without entries", |a, r| {
            a.file = Some(1);
            a.directory = vec![Vec::new(); r.between(1, 4)];
        }),
        named("entries that do not match", |a, _| {
            a.file = Some(1);
            each(a, |_, adf| adf.name[0] ^= 1);
        }),
        named("the same entry twice", |a, r| {
            a.files.truncate(1);
            a.directory = dealt_out(&[a.files.clone(), a.files.clone()].concat(), r);
            a.file = Some(1);
        }),
        named("longer names on the card than in the directory", |a, r| {
            a.aids = vec![aid(&PROVIDER, true)];
            let entries = adfs(&names(3), r);
            a.files = adfs(&names(3), r);
            let longer = r.between(1, 3);
            a.files.iter_mut().take(longer).for_each(|file| file.name.push(7));
            (a.file, a.directory) = (Some(1), dealt_out(&entries, r));
        }),
        named("a directory of other names", |a, _| {
            a.file = Some(3);
            a.directory.iter_mut().flatten().for_each(|entry| {
                entry.name.resize(16, 0x77);
            });
        }),
    ]
}

fn odd_names() -> Vec<Named> {
    vec![
        named("equal AIDs", |a, _| {
            let first = a.aids[0].clone();
            a.aids = vec![first; 3];
        }),
        named("one AID the beginning of another", |a, _| {
            a.aids = vec![aid(&PROVIDER, true), aid(&[&PROVIDER[..], &[0x10]].concat(), true)];
        }),
        named("the name of the directory as AID", |a, r| {
            a.aids.insert(0, aid(PSE, r.chance(50)));
            a.aids.truncate(8);
            a.file = r.chance(50).then_some(1);
        }),
        named("names of 16 bytes", |a, r| {
            let long = [&PROVIDER[..], &r.bytes(11)].concat();
            a.aids = vec![aid(&long, r.chance(50))];
            a.files = vec![Adf::new(&long, any_indicator(r))];
            a.directory = vec![a.files.clone()];
        }),
        named("a name that is the AID and longer ones", |a, r| {
            let mut files = adfs(&names(3), r);
            files.insert(r.below(4), Adf::new(&PROVIDER, any_indicator(r)));
            a.aids = vec![aid(&PROVIDER, true), aid(&PROVIDER, false)];
            (a.file, a.files) = (None, files);
        }),
    ]
}

/// Directories with so many records, one entry in each but the empty ones.
fn long_directory(records: usize, entries: usize) -> Named {
    named(&format!("{records} records, {entries} entries"), move |a, r| {
        a.aids = vec![aid(&PROVIDER, true)];
        a.files = adfs(&names(entries), r);
        a.directory = vec![Vec::new(); records];
        for entry in a.files.clone() {
            let at = r.below(records);
            a.directory[at].push(entry);
        }
        a.file = Some(1);
    })
}

/// Selections about as long as may be.
pub fn long() -> Vec<Named> {
    let mut all = vec![in_directory(254), in_directory(255), in_directory(256), in_directory(300)];
    all.extend([97, 98, 99, 100, 200].map(|records| long_directory(records, 2)));
    all.extend([97, 98].map(|records| long_directory(records, 1)));
    all.extend([96, 97, 98, 99, 150].map(occurring));
    all.extend([92, 93, 94, 95, 96, 100].map(falling_out));
    all.push(named("eight AIDs with 12 occurrences each", |a, r| {
        a.aids = (0..8).map(|at| aid(&[0xA0, 0, 0, 0, at], true)).collect();
        let all = a.aids.iter().flat_map(|aid| (0..12).map(|at| [&aid.name[..], &[at]].concat()));
        a.files = adfs(&all.collect::<Vec<_>>(), r);
        a.file = None;
    }));
    all
}
