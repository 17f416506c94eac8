//! Nanoseconds a block, by verdict and by length.

use crate::judges::{judges, Judge};
use peer::{Finding, Verdict};
use std::hint::black_box;
use std::time::{Duration, Instant};

/// A tape, with what is said of it.
pub struct Tape {
    bytes: Vec<u8>,
    said: Finding,
}

impl Tape {
    pub fn new(bytes: Vec<u8>) -> Tape {
        let said = peer::ordinary::judge(&bytes);
        Tape { bytes, said }
    }

    fn blocks(&self) -> usize {
        self.bytes.len() / 512
    }

    fn is(&self, verdict: Verdict) -> bool {
        self.said.verdict == verdict
    }

    /// Whether it can be read and has so many blocks.
    fn has(&self, fewest: usize, most: usize) -> bool {
        !self.is(Verdict::Unreadable) && (fewest..=most).contains(&self.blocks())
    }
}

/// A row: which tapes it is about.
struct Row {
    name: String,
    is_of: Box<dyn Fn(&Tape) -> bool>,
}

impl Row {
    fn new(name: impl Into<String>, is_of: impl Fn(&Tape) -> bool + 'static) -> Row {
        Row { name: name.into(), is_of: Box::new(is_of) }
    }

    fn tapes<'a>(&self, all: &'a [Tape]) -> Vec<&'a Tape> {
        all.iter().filter(|tape| (self.is_of)(tape)).collect()
    }
}

/// Verdicts, then codes of unreadable tapes, then lengths of readable ones.
fn rows(tapes: &[Tape]) -> Vec<Row> {
    let readable = tapes.iter().filter(|tape| !tape.is(Verdict::Unreadable));
    let longest = readable.map(Tape::blocks).max().unwrap_or(0);
    let mut rows = vec![
        Row::new("all", |_| true),
        Row::new("PASS", |t| t.is(Verdict::Pass)),
        Row::new("FAIL", |t| t.is(Verdict::Fail)),
        Row::new("INCONCLUSIVE", |t| t.is(Verdict::Inconclusive)),
        Row::new("UNREADABLE", |t| t.is(Verdict::Unreadable)),
    ];
    for code in 1..=9 {
        let is_of = move |t: &Tape| t.is(Verdict::Unreadable) && t.said.code == code;
        rows.push(Row::new(format!("UNREADABLE, {code}"), is_of));
    }
    rows.extend([
        Row::new("one block", |t| t.has(1, 1)),
        Row::new("2 to 40 blocks", |t| t.has(2, 40)),
        Row::new("41 to 999 blocks", |t| t.has(41, 999)),
        Row::new("1,000 and more", |t| t.has(1000, usize::MAX)),
        Row::new("the longest", move |t| longest > 0 && t.has(longest, longest)),
        Row::new("PASS, at most 40", |t| t.is(Verdict::Pass) && t.blocks() <= 40),
    ]);
    rows
}

/// The tapes of the row that has a name.
pub fn chosen<'a>(name: &str, tapes: &'a [Tape]) -> Option<Vec<&'a Tape>> {
    let row = rows(tapes).into_iter().find(|row| row.name == name)?;
    Some(row.tapes(tapes))
}

/// The names of the rows that have tapes with blocks.
pub fn names(tapes: &[Tape]) -> Vec<String> {
    let timed = rows(tapes).into_iter().filter(|row| blocks(&row.tapes(tapes)) > 0);
    timed.map(|row| row.name).collect()
}

pub fn blocks(tapes: &[&Tape]) -> usize {
    tapes.iter().map(|tape| tape.blocks()).sum()
}

/// Tapes are timed in batches of so many blocks, so that whatever else the
/// machine does spoils one of them and not the round.
const BATCH: usize = 256;

/// The tapes in batches, in their order.
fn batches<'a>(tapes: &[&'a Tape]) -> Vec<Vec<&'a Tape>> {
    let mut all = vec![Vec::new()];
    let mut blocks = 0;
    for &tape in tapes {
        if blocks >= BATCH {
            all.push(Vec::new());
            blocks = 0;
        }
        blocks += tape.blocks();
        all.last_mut().expect("there is one").push(tape);
    }
    all
}

/// Some tapes, one after the other.
#[no_mangle]
#[inline(never)]
pub fn judged_once(judge: Judge, tapes: &[&Tape]) {
    for tape in tapes {
        black_box(judge(black_box(&tape.bytes)));
    }
}

/// How long a judge takes for some tapes.
fn once(judge: Judge, tapes: &[&Tape]) -> Duration {
    let begun = Instant::now();
    judged_once(judge, tapes);
    begun.elapsed()
}

/// For each judge the sum of its best times for each batch over so many rounds,
/// in which the judges take turns.
fn best(tapes: &[&Tape], rounds: usize) -> Vec<Duration> {
    let (judges, batches) = (judges(), batches(tapes));
    let mut best = vec![vec![Duration::MAX; batches.len()]; judges.len()];
    for _ in 0..rounds {
        for ((_, judge), best) in judges.iter().zip(&mut best) {
            for (batch, best) in batches.iter().zip(best) {
                *best = once(*judge, batch).min(*best);
            }
        }
    }
    best.iter().map(|times| times.iter().sum()).collect()
}

/// A row's nanoseconds a block, and what the last judge takes of each other one.
fn line(row: &Row, tapes: &[Tape], rounds: usize) -> [String; 2] {
    let chosen = row.tapes(tapes);
    let blocks = blocks(&chosen);
    let name = &row.name;
    let mut times = format!("{name:18} {:6} {blocks:8}", chosen.len());
    let mut ratios = format!("{name:18} {:6} {blocks:8}", "");
    if blocks > 0 {
        let best: Vec<f64> = best(&chosen, rounds).iter().map(Duration::as_secs_f64).collect();
        for time in &best {
            times += &format!(" {:10.1}", time * 1e9 / blocks as f64);
            ratios += &format!(" {:10.2}", best[best.len() - 1] / time);
        }
    }
    [times + "\n", ratios + "\n"]
}

/// All rows, a column for each judge, and below them all ratios; nothing where
/// no block was there to be timed.
pub fn table(tapes: &[Tape], rounds: usize) -> Option<String> {
    let all: Vec<&Tape> = tapes.iter().collect();
    if blocks(&all) == 0 {
        return None;
    }
    let names: String = judges().iter().map(|(name, _)| format!(" {name:>10}")).collect();
    let last = judges().last()?.0;
    let mut times = format!("{:18} {:>6} {:>8}{names}\n", "ns a block", "tapes", "blocks");
    let mut ratios = format!("{:18} {:>6} {:>8}{names}\n", format!("{last} to"), "", "blocks");
    for row in rows(tapes) {
        let [time, ratio] = line(&row, tapes, rounds);
        times += &time;
        ratios += &ratio;
    }
    Some(times + "\n" + &ratios)
}
