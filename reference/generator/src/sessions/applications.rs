//! The applications of a made session (02, R-12): the list that the terminal
//! has in START, the card's own and its directory, and what the card answers
//! while one of them is chosen.

use super::nodes::{Answer, Node};
use crate::random::Random;
use rules::choosing::PSE;

/// An AID of the terminal, exact or partial.
#[derive(Clone, Debug)]
pub struct Aid {
    pub name: Vec<u8>,
    pub is_partial: bool,
}

/// An application of the card, or an entry of its directory.
#[derive(Clone, Debug)]
pub struct Adf {
    pub name: Vec<u8>,
    /// 87.
    pub indicator: Option<u8>,
    /// What its SELECT is answered with: '9000', '6283' for a blocked one.
    pub status: [u8; 2],
}

impl Adf {
    pub fn new(name: &[u8], indicator: Option<u8>) -> Adf {
        Adf { name: name.to_vec(), indicator, status: [0x90, 0x00] }
    }
}

/// All that a selection depends on, apart from the shopper.
#[derive(Clone)]
pub struct Applications {
    pub aids: Vec<Aid>,
    pub shopper_can_choose: bool,
    /// The file of the directory, if there is one.
    pub file: Option<u8>,
    /// The directory, record by record.
    pub directory: Vec<Vec<Adf>>,
    pub files: Vec<Adf>,
    /// Whether entries and FCIs have labels.
    pub labelled: bool,
    /// The application that the last SELECT led to.
    occurrence: usize,
}

/// Providers that names begin with.
const PROVIDERS: [[u8; 5]; 3] = [[0xA0, 0, 0, 0, 3], [0xA0, 0, 0, 0, 4], [0xA0, 0, 0, 1, 0x52]];

/// A name, often one that begins with another.
pub fn any_name(r: &mut Random) -> Vec<u8> {
    let size = *r.pick(&[0, 0, 1, 2, 2, 2, 3, 11]);
    let mut name = r.pick(&PROVIDERS).to_vec();
    name.extend((0..size).map(|_| *r.pick(&[0x10, 0x10, 0x20])));
    name
}

/// 87: often absent, without a priority, or one that others have too.
pub fn any_indicator(r: &mut Random) -> Option<u8> {
    let priority = *r.pick(&[0, 1, 1, 2, 2, 3, 15, 0x20, 0x71]);
    r.chance(75).then(|| priority | if r.chance(20) { 0x80 } else { 0 })
}

fn any_aid(r: &mut Random) -> Aid {
    Aid { name: any_name(r), is_partial: r.chance(50) }
}

/// A name that an AID matches, or one of the others.
fn name_near(aids: &[Aid], r: &mut Random) -> Vec<u8> {
    if r.chance(20) {
        return any_name(r);
    }
    let aid = r.pick(aids);
    let mut name = aid.name.clone();
    let room = 16 - name.len();
    if aid.is_partial || r.chance(15) {
        let more = r.below(room.min(3) + 1);
        name.extend(r.bytes(more));
    }
    name
}

/// The entries dealt out over some records, empty ones among them.
pub fn dealt_out(entries: &[Adf], r: &mut Random) -> Vec<Vec<Adf>> {
    let records = r.between(1, 3);
    let mut directory = vec![Vec::new(); records];
    for entry in entries {
        let at = r.below(records);
        directory[at].push(entry.clone());
    }
    directory
}

impl Applications {
    pub fn any(r: &mut Random) -> Applications {
        let count = *r.pick(&[1, 1, 2, 2, 3, 8]);
        let aids: Vec<Aid> = (0..count).map(|_| any_aid(r)).collect();
        let number = *r.pick(&[1, 2, 2, 3, 3, 4, 6]);
        let mut files = Vec::new();
        for _ in 0..number {
            let mut file = Adf::new(&name_near(&aids, r), any_indicator(r));
            if r.chance(10) {
                file.status = [0x62, 0x83];
            }
            files.push(file);
        }
        // The directory may leave some out and have others.
        let mut entries: Vec<Adf> = files.iter().filter(|_| r.chance(85)).cloned().collect();
        if r.chance(15) {
            entries.push(Adf::new(&name_near(&aids, r), any_indicator(r)));
        }
        let directory = dealt_out(&entries, r);
        let file = r.chance(60).then(|| r.between(1, 10) as u8);
        let (shopper_can_choose, labelled) = (r.chance(65), r.chance(60));
        Applications { aids, shopper_can_choose, file, directory, files, labelled, occurrence: 0 }
    }

    /// Bytes 57 to 206 of START, with the capabilities among them.
    pub fn bytes(&self, capabilities: [u8; 3]) -> Vec<u8> {
        let mut out = vec![self.aids.len() as u8];
        for aid in &self.aids {
            out.push(aid.name.len() as u8);
            let mut name = aid.name.clone();
            name.resize(16, 0);
            out.extend(name);
            out.push(u8::from(aid.is_partial));
        }
        out.resize(1 + 8 * 18, 0);
        out.extend(capabilities);
        out.extend([u8::from(self.shopper_can_choose), 1]);
        out
    }

    /// What the card answers to a command before GPO. `list` is the 9F38 of
    /// its applications.
    pub fn answer(&mut self, command: &[u8], list: Option<&[u8]>) -> Answer {
        match *command {
            [_, 0xB2, number, ..] => self.record(usize::from(number)),
            [_, _, _, 0, _, ref name @ .., _] if name == PSE => self.pse(),
            [_, _, _, occurrence, _, ref name @ .., _] => {
                let name = name.to_vec();
                self.select(&name, occurrence != 0, list)
            }
            _ => refused([0x6D, 0x00]),
        }
    }

    fn pse(&self) -> Answer {
        let Some(file) = self.file else { return refused([0x6A, 0x82]) };
        let inner = vec![Node::Leaf(0x88, vec![file])];
        Answer::new(0x6F, vec![Node::Leaf(0x84, PSE.to_vec()), Node::Tree(0xA5, inner)])
    }

    fn record(&self, number: usize) -> Answer {
        match number.checked_sub(1).and_then(|at| self.directory.get(at)) {
            Some(entries) => {
                let entry = |adf: &Adf| Node::Tree(0x61, self.described(0x4F, adf));
                Answer::new(0x70, entries.iter().map(entry).collect())
            }
            None => refused([0x6A, 0x83]),
        }
    }

    /// The first application that begins with the name, or the next one behind
    /// the last that was given.
    fn select(&mut self, name: &[u8], is_next: bool, list: Option<&[u8]>) -> Answer {
        let from = if is_next { self.occurrence + 1 } else { 0 };
        let exact = |file: &Adf| !is_next && file.name == name;
        let begins = |file: &Adf| file.name.starts_with(name);
        let at = self.files.iter().position(exact).or_else(|| {
            let rest = self.files.get(from..).unwrap_or_default();
            rest.iter().position(begins).map(|at| from + at)
        });
        let Some(at) = at else { return refused([0x6A, 0x82]) };
        self.occurrence = at;
        let file = &self.files[at];
        let mut described = self.described(0x84, file);
        let name = described.remove(0);
        described.extend(list.map(|list| Node::Leaf(0x9F38, list.to_vec())));
        let mut answer = Answer::new(0x6F, vec![name, Node::Tree(0xA5, described)]);
        answer.status = file.status;
        answer
    }

    /// Name, label and 87.
    fn described(&self, tag: u16, adf: &Adf) -> Vec<Node> {
        let mut all = vec![Node::Leaf(tag, adf.name.clone())];
        if self.labelled {
            all.push(Node::Leaf(0x50, b"CARD".to_vec()));
        }
        all.extend(adf.indicator.map(|byte| Node::Leaf(0x87, vec![byte])));
        all
    }
}

/// An answer that is a status alone.
pub fn refused(status: [u8; 2]) -> Answer {
    Answer { raw: Some(status.to_vec()), ..Answer::new(0x6F, Vec::new()) }
}
