//! Made exchanges by T=0: commands of every case, and what a card might say
//! to them, good and bad (02, R-4).

mod chance;
mod fixed;
mod made;

use crate::random::Random;
use chance::by_chance;
use fixed::fixed;
use made::Made;
use rules::hex;

/// Cuts the card's bytes into pieces, some of them empty.
fn pieces(card: &[u8], r: &mut Random) -> Vec<Vec<u8>> {
    let way = r.below(4);
    let mut rest = card;
    let mut out = Vec::new();
    while !rest.is_empty() {
        let size = match way {
            0 => rest.len(),
            1 => 1,
            _ => r.below(rest.len().min(40) + 1),
        };
        out.push(rest[..size].to_vec());
        rest = &rest[size..];
    }
    out
}

fn any(index: usize, all: &[Made], r: &mut Random) -> Made {
    if index.is_multiple_of(2) {
        all[index / 2 % all.len()].clone()
    } else {
        by_chance(r)
    }
}

/// Prints `count` exchanges as lines that `t0` reads.
pub fn make_exchanges(count: usize, seed: u64) {
    let all = fixed();
    for index in 0..count {
        let mut r = Random::nth(seed, index as u64);
        let made = any(index, &all, &mut r);
        println!("COMMAND {}", hex::text_or_dash(&made.command));
        for piece in pieces(&made.card, &mut r) {
            println!("CARD {}", hex::text_or_dash(&piece));
        }
    }
}

#[cfg(test)]
mod tests {
    use super::*;
    use lines::exchanges::Lines;
    use rules::t0::{Exchange, Step};
    use std::collections::BTreeMap;

    #[test]
    fn every_end_occurs() {
        let all = fixed();
        let mut seen: BTreeMap<&str, usize> = BTreeMap::new();
        for index in 0..6000 {
            let made = any(index, &all, &mut Random::nth(1, index as u64));
            let end = match Exchange::begin(&made.command) {
                Err(name) => name,
                Ok(mut exchange) => {
                    let mut end = "wait";
                    for byte in made.card {
                        end = match exchange.byte(byte) {
                            Step::Answer(_) => "answer",
                            Step::Refused(name) => name,
                            _ => "wait",
                        };
                        if end != "wait" {
                            break;
                        }
                    }
                    end
                }
            };
            *seen.entry(end).or_default() += 1;
        }
        assert_eq!(seen.len(), 9, "{seen:?}");
        assert!(seen.values().all(|&n| n > 30), "{seen:?}");
    }

    #[test]
    fn pieces_make_no_difference() {
        let all = fixed();
        for index in 0..2000 {
            let mut r = Random::nth(2, index as u64);
            let made = any(7 * index, &all, &mut r);
            let told = |pieces: &[Vec<u8>]| {
                let mut lines = Lines::new(false);
                let mut out = lines.command(&made.command);
                for piece in pieces {
                    out += &lines.card(piece).map(|l| format!("\n{l}")).unwrap_or_default();
                }
                let last = out.lines().last().unwrap_or_default().to_string();
                let rest = out.lines().filter(|l| !l.starts_with("WAIT")).map(str::to_string);
                (rest.collect::<Vec<_>>(), last)
            };
            let whole = told(std::slice::from_ref(&made.card));
            assert_eq!(told(&pieces(&made.card, &mut r)), whole);
        }
    }
}
