//! The judges that are timed.

use peer::{Finding, Verdict};
use rules::judge;

#[cfg(feature = "proved")]
mod proved;

pub type Judge = fn(&[u8]) -> Finding;

/// The reference's judge, in the terms of the peers.
fn reference(tape: &[u8]) -> Finding {
    let said = judge::judge(tape);
    let (verdict, place, code) = match said.verdict {
        judge::Verdict::Pass(place) => (Verdict::Pass, place, 0),
        judge::Verdict::Fail(place) => (Verdict::Fail, place, 0),
        judge::Verdict::Inconclusive(place) => (Verdict::Inconclusive, place, 0),
        judge::Verdict::Unreadable(damage) => (Verdict::Unreadable, damage.place, damage.code),
    };
    Finding { verdict, place, code, zeros: said.unsupplied }
}

/// The reference first. The last is there where the processor has the means.
pub fn judges() -> Vec<(&'static str, Judge)> {
    let mut all: Vec<(&str, Judge)> = vec![
        ("reference", reference),
        ("ordinary", peer::ordinary::judge),
        ("alike", peer::alike::judge),
    ];
    all.extend(peer::hardware::judge().map(|judge| ("hardware", judge)));
    #[cfg(feature = "proved")]
    all.extend(proved::judges());
    all
}
