//! Made tapes with some bytes of an entry changed and the check mended, so that
//! the rules are asked and not the check. Where the change leads to the end of
//! the session, the decision that is due there follows: its reason shows.

use rules::due::Account;
use rules::judge::Due;
use rules::tape::{self, seal, set_payload, Entry, BLOCK, DECISION};

/// Numbers that look like chance (xorshift).
struct Chance(u64);

impl Chance {
    fn below(&mut self, limit: usize) -> usize {
        self.0 ^= self.0 << 13;
        self.0 ^= self.0 >> 7;
        self.0 ^= self.0 << 17;
        (self.0 >> 11) as usize % limit.max(1)
    }
}

/// One change of a payload.
fn change(payload: &mut Vec<u8>, chance: &mut Chance) {
    let at = chance.below(payload.len());
    let byte = [0x00, 0x01, 0x7F, 0x81, 0x82, 0xFF, chance.below(256) as u8][chance.below(7)];
    match (payload.get(at).copied(), chance.below(6)) {
        (None, _) | (_, 0) => payload.insert(at, byte),
        (Some(_), 1) => drop(payload.remove(at)),
        (Some(_), 2) => payload[at] ^= 1 << chance.below(8),
        (Some(_), 3) => payload[at] = byte,
        // A length that takes one byte more or less.
        (Some(old), 4) => payload[at] = old.wrapping_add(1),
        (Some(old), _) => payload[at] = old.wrapping_sub(1),
    }
    payload.truncate(tape::LONGEST_PAYLOAD);
}

/// The blocks up to the one changed, and the decision where one is due then.
fn ended(bytes: &[u8], at: usize) -> Vec<u8> {
    let mut out = bytes[..(at + 1) * BLOCK].to_vec();
    if let Some(Due::Decision(decision)) = Account::of(&out).dues.last() {
        let mut block = bytes[at * BLOCK..(at + 1) * BLOCK].to_vec();
        block[..4].copy_from_slice(&(at as u32 + 1).to_be_bytes());
        block[8] = DECISION;
        set_payload(&mut block, decision);
        out.extend(block);
    }
    out
}

/// The tape with one entry changed, whole or ended there; nothing of one that
/// cannot be read.
fn changed(mut bytes: Vec<u8>, chance: &mut Chance) -> Option<Vec<u8>> {
    let entries = tape::read(&bytes).ok()?;
    let at = chance.below(entries.len().min(40));
    let Entry { payload, .. } = *entries.get(at)?;
    let mut payload = payload.to_vec();
    for _ in 0..1 + chance.below(2) {
        change(&mut payload, chance);
    }
    let block = &mut bytes[at * BLOCK..(at + 1) * BLOCK];
    set_payload(block, &payload);
    if chance.below(50) == 0 {
        block[8] = chance.below(10) as u8;
        seal(block);
    }
    Some(if chance.below(3) > 0 { ended(&bytes, at) } else { bytes })
}

/// Changed tapes, a few of each that is made.
pub fn of(seed: u64) -> impl Iterator<Item = Vec<u8>> {
    let mut chance = Chance(seed | 1);
    crate::tapes::of(seed).filter(|bytes| bytes.len() <= 64 * BLOCK).flat_map(move |bytes| {
        let one = |_| changed(bytes.clone(), &mut chance);
        (0..10).filter_map(one).collect::<Vec<_>>()
    })
}
