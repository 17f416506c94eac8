//! The proved judges, in the terms of the peers.

use super::Judge;
use peer::{Finding, Verdict};

#[allow(dead_code)]
#[path = "../../../../../library/lab.rs"]
mod lab;

/// The numbers that the library lays down.
fn finding(numbers: [u64; 4]) -> Finding {
    let [verdict, place, code, zeros] = numbers;
    let verdict = match verdict {
        1 => Verdict::Pass,
        2 => Verdict::Fail,
        3 => Verdict::Inconclusive,
        _ => Verdict::Unreadable,
    };
    Finding { verdict, place: place as usize, code: code as u8, zeros: zeros as usize }
}

fn plain(tape: &[u8]) -> Finding {
    let mut numbers = [0; 4];
    lab::lab_judge(tape, &mut numbers);
    finding(numbers)
}

fn quick(tape: &[u8]) -> Finding {
    let mut numbers = [0; 4];
    lab::lab_judge_quick(tape, &mut numbers);
    finding(numbers)
}

pub fn judges() -> [(&'static str, Judge); 2] {
    [("plain", plain), ("quick", quick)]
}
