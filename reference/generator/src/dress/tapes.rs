//! Tapes dressed and changed, block by block.

use super::answer::Asked;
use super::change::changed;
use super::clothes::{dressed, Zeal};
use crate::random::Random;
use rules::edition::Edition;
use rules::judge::{Due, Follower};
use rules::tape::{self, read_block, read_shape, set_payload, Entry, BLOCK};
use rules::terminal::Terminal;

/// Follows the entries of a session and tells the answers that R-13 is about.
pub struct Walk {
    edition: Edition,
    pub follower: Follower,
    terminal: Option<Terminal>,
    command: Vec<u8>,
}

/// What an entry was.
pub enum Walked {
    /// An answer that was due and led to no reason.
    Answer(Asked),
    /// Anything else that may stand there.
    Other,
    /// One that breaks the rules: nothing behind it is followed.
    Broken,
}

impl Walk {
    pub fn by(edition: Edition) -> Walk {
        let follower = Follower::by(edition);
        Walk { edition, follower, terminal: None, command: Vec::new() }
    }

    pub fn step(&mut self, entry: Entry) -> Walked {
        let stage = self.follower.stage();
        if !self.follower.follow(entry) {
            return Walked::Broken;
        }
        match entry.kind {
            tape::START => self.terminal = self.edition.taped_start()(entry.payload),
            tape::COMMAND => self.command = entry.payload.to_vec(),
            tape::ANSWER if !self.is_terminated() => {
                let asked = Asked::of(stage, &self.command, self.has_verification());
                return asked.map_or(Walked::Other, Walked::Answer);
            }
            _ => (),
        }
        Walked::Other
    }

    fn is_terminated(&self) -> bool {
        matches!(self.follower.due(), Due::Decision([_, reason, ..]) if *reason != 0)
    }

    fn has_verification(&self) -> bool {
        self.terminal.as_ref().is_some_and(|terminal| terminal.capabilities().is_some())
    }

    fn aid(&self) -> Vec<u8> {
        self.terminal.as_ref().map(|terminal| terminal.aid().to_vec()).unwrap_or_default()
    }
}

/// An answer on a tape: its block and its command.
#[derive(Clone, Copy)]
pub struct Spot {
    block: usize,
    asked: Asked,
}

/// A tape's answers that R-13 is about, as far as its blocks are good and break
/// no rule, and the AID of its START.
pub struct Answers {
    pub spots: Vec<Spot>,
    aid: Vec<u8>,
}

pub fn answers_of(edition: Edition, tape: &[u8]) -> Answers {
    let session = tape.get(4..8).unwrap_or_default();
    let mut walk = Walk::by(edition);
    let mut spots = Vec::new();
    for (block, bytes) in tape.chunks_exact(BLOCK).enumerate() {
        let Ok(entry) = read_block(edition, bytes, block, session) else { break };
        match walk.step(entry) {
            Walked::Answer(asked) => spots.push(Spot { block, asked }),
            Walked::Other => (),
            Walked::Broken => break,
        }
    }
    Answers { spots, aid: walk.aid() }
}

/// Puts what `change` makes of an answer in its place.
fn replace(tape: &mut [u8], spot: Spot, change: impl FnOnce(&[u8]) -> Vec<u8>) {
    let block = &mut tape[spot.block * BLOCK..(spot.block + 1) * BLOCK];
    // The blocks that answers are in have a shape by every edition.
    let payload = read_shape(Edition::default(), block).map(|entry| change(entry.payload));
    if let Ok(payload) = payload {
        set_payload(block, &payload);
    }
}

/// The tape with all those answers dressed.
pub fn dressed_tape(edition: Edition, tape: &[u8], r: &mut Random) -> Vec<u8> {
    let mut out = tape.to_vec();
    for spot in answers_of(edition, tape).spots {
        replace(&mut out, spot, |payload| dressed(spot.asked, payload, Zeal::Chance, r));
    }
    out
}

/// The tape with one named object of one of those answers changed, or nothing
/// if there is none.
pub fn changed_tape(edition: Edition, tape: &[u8], r: &mut Random) -> Option<Vec<u8>> {
    let Answers { mut spots, aid } = answers_of(edition, tape);
    let mut out = tape.to_vec();
    while !spots.is_empty() {
        let spot = spots.swap_remove(r.below(spots.len()));
        replace(&mut out, spot, |payload| {
            changed(spot.asked, payload, &aid, r).unwrap_or_else(|| payload.to_vec())
        });
        if out != tape {
            return Some(out);
        }
    }
    None
}
