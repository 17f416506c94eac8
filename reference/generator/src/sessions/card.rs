//! A card for made sessions: what it holds and how it answers.

use super::lists::any_list;
use super::locators::any_locator;
use super::nodes::{Answer, Node};
use super::start::{any_date, shifted, Start};
use super::verification::{any_currency, RuleList};
use crate::random::Random;
use std::collections::BTreeMap;

/// Which way the action codes are to push the first request.
#[derive(Clone, Copy, PartialEq, Eq)]
pub enum Steer {
    Denial,
    Default,
    Online,
    OnlineAndDefault,
    Clear,
    Free,
}

pub const STEERS: [Steer; 6] = [
    Steer::Denial,
    Steer::Default,
    Steer::Online,
    Steer::OnlineAndDefault,
    Steer::Clear,
    Steer::Free,
];

/// A card's contents.
#[derive(Clone)]
pub struct Card {
    /// 84 is the AID and this.
    pub name_rest: Vec<u8>,
    pub list: Option<Vec<u8>>,
    pub aip: [u8; 2],
    pub locator: Vec<[u8; 4]>,
    /// The named objects of the records and the index of the record each is in.
    pub objects: BTreeMap<u16, (usize, Vec<u8>)>,
    /// Whether the short form is used: options, first and second cryptogram.
    pub short: [bool; 3],
    pub issuer_data: [Option<Vec<u8>>; 2],
    /// Adds objects that mean nothing, zeros and long length forms.
    pub noisy: bool,
}

/// TVR bits that a session can reach.
const REACH: [u8; 5] = [0x80, 0xE0, 0xFC, 0x90, 0x00];

/// A code without any bit that could match.
fn quiet(r: &mut Random) -> [u8; 5] {
    let wild = r.chance(50);
    REACH.map(|reach| if wild { r.byte() & !reach } else { 0 })
}

/// A code that matches every session after its records.
fn loud(r: &mut Random) -> [u8; 5] {
    let mut code = quiet(r);
    code[0] |= 0x80;
    code
}

fn free(r: &mut Random) -> [u8; 5] {
    match r.below(4) {
        0 => [0; 5],
        1 => [r.byte(), r.byte(), r.byte(), r.byte(), r.byte()],
        _ => {
            let at = match r.below(2) {
                0 => (2, 0x80 >> r.below(6)),
                _ => *r.pick(&[(0, 0x80), (1, 0x80), (1, 0x40), (1, 0x20), (3, 0x80), (3, 0x10)]),
            };
            let mut code = [0; 5];
            code[at.0] = at.1;
            code
        }
    }
}

/// A terminal's and an issuer's code that match together, or do not.
fn pair(matching: bool, may_be_absent: bool, r: &mut Random) -> ([u8; 5], Option<[u8; 5]>) {
    if !matching {
        return (quiet(r), Some(quiet(r)));
    }
    match r.below(if may_be_absent { 3 } else { 2 }) {
        0 => (loud(r), Some(quiet(r))),
        1 => (quiet(r), Some(loud(r))),
        _ => (quiet(r), None),
    }
}

fn set_codes(steer: Steer, start: &mut Start, card: &mut Card, r: &mut Random) {
    let (denial, online, default);
    if steer == Steer::Free {
        denial = (free(r), r.chance(60).then(|| free(r)));
        online = (free(r), r.chance(60).then(|| free(r)));
        default = (free(r), r.chance(60).then(|| free(r)));
    } else {
        denial = pair(steer == Steer::Denial, false, r);
        online = pair(matches!(steer, Steer::Online | Steer::OnlineAndDefault), true, r);
        default = pair(matches!(steer, Steer::Default | Steer::OnlineAndDefault), true, r);
    }
    (start.denial, start.online, start.default) = (denial.0, online.0, default.0);
    for (tag, code) in [(0x9F0E, denial.1), (0x9F0F, online.1), (0x9F0D, default.1)] {
        if let Some(code) = code {
            card.put(tag, code.to_vec(), r);
        }
    }
}

/// 5A in every shape 01 accepts.
pub fn any_account(r: &mut Random) -> Vec<u8> {
    let size = *r.pick(&[1, 2, 5, 8, 8, 8, 9, 10, 10]);
    let digits = match r.below(3) {
        0 => 2 * size,
        1 => 2 * size - 1,
        _ => r.between(1, 2 * size),
    };
    let half = |at: usize, r: &mut Random| if at < digits { r.below(10) as u8 } else { 0x0F };
    (0..size).map(|i| half(2 * i, r) * 16 + half(2 * i + 1, r)).collect()
}

/// The terminal's date, a neighbour of it, or any other.
fn near_date(date: [u8; 3], r: &mut Random) -> Vec<u8> {
    match r.below(5) {
        0 | 1 => date.to_vec(),
        2 => shifted(date, true).to_vec(),
        3 => shifted(date, false).to_vec(),
        _ => any_date(r).to_vec(),
    }
}

impl Card {
    /// A card that gives no reason to terminate, for the terminal given.
    pub fn any(steer: Steer, start: &mut Start, r: &mut Random) -> Card {
        let room = 16 - start.aid.len();
        let rest = *r.pick(&[0, 0, room, room / 2]);
        let mut card = Card {
            name_rest: r.bytes(rest),
            list: r.chance(60).then(|| any_list(None, r)),
            aip: [*r.pick(&[0x08, 0x18, 0x18, 0x10, 0x00, 0xFF, 0xF7, 0xE7, 0x5C]), r.byte()],
            locator: any_locator(r),
            objects: BTreeMap::new(),
            short: [r.chance(50), r.chance(50), r.chance(50)],
            issuer_data: [any_issuer_data(r), any_issuer_data(r)],
            noisy: r.chance(40),
        };
        card.put(0x5A, any_account(r), r);
        card.put(0x5F24, near_date(start.date, r), r);
        card.put(0x8C, any_list(None, r), r);
        card.put(0x8D, any_list(None, r), r);
        if r.chance(60) {
            card.put(0x5F25, near_date(start.date, r), r);
        }
        if r.chance(60) {
            let version = if r.chance(50) { start.version } else { [r.byte() & 1, r.byte() & 3] };
            card.put(0x9F08, version.to_vec(), r);
        }
        if r.chance(75) {
            card.put(0x8E, RuleList::any(start.amount, r).bytes(), r);
        }
        if r.chance(75) {
            card.put(0x9F42, any_currency(start, r), r);
        }
        set_codes(steer, start, &mut card, r);
        card
    }

    pub fn record_count(&self) -> usize {
        self.locator.iter().map(|e| usize::from(e[2]) + 1 - usize::from(e[1])).sum()
    }

    /// Places an object in one of the records.
    pub fn put(&mut self, tag: u16, value: Vec<u8>, r: &mut Random) {
        let at = r.below(self.record_count());
        self.objects.insert(tag, (at, value));
    }

    /// Gives an object another value where it is, or places it.
    pub fn set(&mut self, tag: u16, value: Vec<u8>, r: &mut Random) {
        match self.objects.get_mut(&tag) {
            Some(object) => object.1 = value,
            None => self.put(tag, value, r),
        }
    }

    /// Another AFL; the objects are dealt out over its records anew.
    pub fn relocate(&mut self, locator: Vec<[u8; 4]>, r: &mut Random) {
        self.locator = locator;
        let records = self.record_count();
        for object in self.objects.values_mut() {
            object.0 = r.below(records);
        }
    }

    /// With what a noisy card puts in.
    pub fn finish(&self, mut answer: Answer, r: &mut Random) -> Answer {
        if self.noisy {
            for _ in 0..r.below(3) {
                let members = &mut answer.members;
                let at = r.below(members.len() + 1);
                members.insert(at, meaningless(2, r));
            }
            answer.loose = true;
        }
        answer
    }

    pub fn select(&self, aid: &[u8], r: &mut Random) -> Answer {
        let mut inner = vec![Node::Leaf(0x50, b"CARD".to_vec())];
        if let Some(list) = &self.list {
            inner.push(Node::Leaf(0x9F38, list.clone()));
        }
        if self.noisy && r.chance(50) {
            inner.push(meaningless(1, r));
        }
        let name = [aid, &self.name_rest].concat();
        let members = vec![Node::Leaf(0x84, name), Node::Tree(0xA5, inner)];
        self.finish(Answer::new(0x6F, members), r)
    }

    pub fn options(&self, r: &mut Random) -> Answer {
        let locator = self.locator.concat();
        let mut answer = Answer::new(
            0x77,
            vec![Node::Leaf(0x82, self.aip.to_vec()), Node::Leaf(0x94, locator.clone())],
        );
        if self.short[0] {
            answer.joined = Some([&self.aip[..], &locator].concat());
        }
        self.finish(answer, r)
    }

    pub fn record(&self, index: usize, r: &mut Random) -> Answer {
        let here = self.objects.iter().filter(|(_, object)| object.0 == index);
        let members = here.map(|(tag, object)| Node::Leaf(*tag, object.1.clone())).collect();
        self.finish(Answer::new(0x70, members), r)
    }

    /// The answer to the first (0) or second (1) GENERATE AC.
    pub fn cryptogram(&self, which: usize, information: u8, r: &mut Random) -> Answer {
        let counter = r.bytes(2);
        let cryptogram = r.bytes(8);
        let mut members = vec![
            Node::Leaf(0x9F27, vec![information]),
            Node::Leaf(0x9F36, counter.clone()),
            Node::Leaf(0x9F26, cryptogram.clone()),
        ];
        let data = self.issuer_data[which].clone();
        let joined =
            [&[information][..], &counter, &cryptogram, &data.clone().unwrap_or_default()].concat();
        members.extend(data.map(|data| Node::Leaf(0x9F10, data)));
        let turn = r.below(members.len());
        members.rotate_left(turn);
        let mut answer = Answer::new(0x77, members);
        if self.short[1 + which] {
            answer.joined = Some(joined);
        }
        self.finish(answer, r)
    }
}

fn any_issuer_data(r: &mut Random) -> Option<Vec<u8>> {
    let size = *r.pick(&[0, 1, 7, 31, 32]);
    r.chance(60).then(|| r.bytes(size))
}

/// A well-formed object that no place names, though it may hold named ones.
pub fn meaningless(depth: usize, r: &mut Random) -> Node {
    const LEAVES: [u16; 8] = [0x5F20, 0x9F1F, 0x57, 0xC1, 0x9F00, 0x1F00, 0xDF7F, 0x01];
    const TREES: [u16; 6] = [0x73, 0xBF0C, 0xE1, 0x61, 0x3F00, 0x20];
    const NAMED: [u16; 10] = [0x5A, 0x84, 0x9F38, 0x82, 0x94, 0x8C, 0x9F27, 0x5F24, 0x8E, 0x9F42];
    if depth > 0 && r.chance(40) {
        let inner = (0..r.below(3)).map(|_| meaningless(depth - 1, r)).collect();
        return Node::Tree(*r.pick(&TREES), inner);
    }
    let size = *r.pick(&[0, 1, 2, 5]);
    if depth == 0 && r.chance(50) {
        return Node::Leaf(*r.pick(&NAMED), r.bytes(size));
    }
    Node::Leaf(*r.pick(&LEAVES), r.bytes(size))
}
