//! The judge that is given a tape one block at a time (02, R-8): a judgement
//! under way is handed in by value and comes back one block further.

use crate::edition::Edition;
use crate::judge::{Follower, Judgement, Verdict};
use crate::tape::{read_block, Unreadable, BLOCK};

/// A judgement under way.
pub struct UnderWay {
    edition: Edition,
    /// Blocks fed so far.
    blocks: usize,
    /// The session number of block 0.
    session: [u8; 4],
    /// The first damage of a block.
    damage: Option<Unreadable>,
    follower: Follower,
    /// The first entry that broke the rules.
    broken: Option<usize>,
}

impl UnderWay {
    pub fn begin(edition: Edition) -> UnderWay {
        let follower = Follower::by(edition);
        UnderWay { edition, blocks: 0, session: [0; 4], damage: None, follower, broken: None }
    }

    /// Whether the tape is too long whatever follows.
    pub fn is_too_long(&self) -> bool {
        self.blocks > self.edition.most_blocks()
    }

    pub fn feed(mut self, block: &[u8; BLOCK]) -> UnderWay {
        let place = self.blocks;
        self.blocks += 1;
        if place == 0 {
            self.session.copy_from_slice(&block[4..8]);
        }
        if self.damage.is_some() || self.is_too_long() {
            return self;
        }
        match read_block(self.edition, block, place, &self.session) {
            Err(code) => self.damage = Some(Unreadable { place, code }),
            Ok(entry) if self.broken.is_none() && !self.follower.follow(entry) => {
                self.broken = Some(place);
            }
            Ok(_) => (),
        }
        self
    }

    /// The end of the tape, with `tail` bytes behind the last whole block.
    /// Only here are codes 1 and 2 known, and they go before all others.
    pub fn end(self, tail: usize) -> Judgement {
        let is_full = self.blocks == self.edition.most_blocks();
        let too_long = self.is_too_long() || (is_full && tail > 0);
        let damage = if too_long {
            Some(Unreadable { place: 0, code: 1 })
        } else if tail > 0 {
            Some(Unreadable { place: self.blocks, code: 2 })
        } else {
            self.damage
        };
        match (damage, self.broken) {
            (Some(damage), _) => Judgement { verdict: Verdict::Unreadable(damage), unsupplied: 0 },
            (None, Some(place)) => self.follower.judgement(Verdict::Fail(place)),
            (None, None) => {
                let verdict = self.follower.verdict_at_end(self.blocks);
                self.follower.judgement(verdict)
            }
        }
    }
}

/// The judgement on a whole tape, fed block by block.
pub fn judge_fed(tape: &[u8]) -> Judgement {
    judge_fed_by(Edition::default(), tape)
}

pub fn judge_fed_by(edition: Edition, tape: &[u8]) -> Judgement {
    let mut blocks = tape.chunks_exact(BLOCK);
    let fed = blocks.by_ref().fold(UnderWay::begin(edition), |under_way, block| {
        under_way.feed(block.try_into().expect("whole blocks"))
    });
    fed.end(blocks.remainder().len())
}

#[cfg(test)]
mod tests {
    use super::*;

    #[test]
    fn what_is_known_only_at_the_end() {
        let line = |size: usize| judge_fed(&vec![0; size]).to_string();
        assert_eq!(line(0), "INCONCLUSIVE 0 0 0");
        assert_eq!(line(1), "UNREADABLE 0 2 0");
        assert_eq!(line(512), "UNREADABLE 0 3 0");
        assert_eq!(line(524_287), "UNREADABLE 1023 2 0");
        assert_eq!(line(524_288), "UNREADABLE 0 3 0");
        assert_eq!(line(524_289), "UNREADABLE 0 1 0");
        assert_eq!(line(524_800), "UNREADABLE 0 1 0");
        assert_eq!(line(600_000), "UNREADABLE 0 1 0");
    }
}
