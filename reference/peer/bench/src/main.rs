//! Times the reference's judge and its peers on the same tapes in memory, in
//! turns, and holds what they say against each other.

mod changed;
mod judges;
mod rows;
mod tapes;

use judges::judges;
use rows::{blocks, chosen, judged_once, names, table, Tape};
use std::process::ExitCode;

const USAGE: &str = "usage:
  peer-bench FOLDER [ROUNDS]
  peer-bench --seed|--night|--fat SEED [COUNT [ROUNDS]]
  peer-bench --same|--changed SEED COUNT
  peer-bench --once JUDGE ROW FOLDER [TIMES]
  peer-bench --names FOLDER";

const COUNT: usize = 2000;
const ROUNDS: usize = 20;

fn number<T: std::str::FromStr>(text: &str) -> Result<T, String> {
    text.parse().map_err(|_| format!("no number: {text}"))
}

/// Those that differ from the reference, told one by one.
fn differing(number: usize, bytes: &[u8]) -> usize {
    let said: Vec<String> = judges().iter().map(|(_, judge)| judge(bytes).to_string()).collect();
    let others = judges().into_iter().zip(&said).filter(|(_, line)| **line != said[0]);
    others
        .map(|((name, _), line)| println!("tape {number}: reference {}, {name} {line}", said[0]))
        .count()
}

/// Whether all judges say the same of all tapes.
fn compare(tapes: impl Iterator<Item = Vec<u8>>) -> Result<(), String> {
    let (mut compared, mut differ) = (0, 0);
    for bytes in tapes {
        compared += 1;
        differ += differing(compared, &bytes);
    }
    println!("{compared} compared, {differ} differ");
    if differ == 0 {
        Ok(())
    } else {
        Err("judges differ".to_string())
    }
}

fn time(tapes: Vec<Vec<u8>>, rounds: usize) -> Result<(), String> {
    compare(tapes.iter().cloned())?;
    let tapes: Vec<Tape> = tapes.into_iter().map(Tape::new).collect();
    print!("{}", table(&tapes, rounds).ok_or("nothing was timed")?);
    Ok(())
}

/// The tapes of a row judged by one judge so many times, for a tool that counts
/// what is done inside `judged_once`. Prints how many tapes and blocks these are.
fn once(judge: &str, row: &str, tapes: Vec<Vec<u8>>, times: usize) -> Result<(), String> {
    let (_, judge) =
        judges().into_iter().find(|(name, _)| *name == judge).ok_or("no such judge")?;
    let tapes: Vec<Tape> = tapes.into_iter().map(Tape::new).collect();
    let chosen = chosen(row, &tapes).ok_or("no such row")?;
    for _ in 0..times {
        judged_once(judge, &chosen);
    }
    println!("{} tapes, {} blocks", chosen.len(), blocks(&chosen));
    Ok(())
}

/// The judges, and the rows that have something to judge.
fn named(tapes: Vec<Vec<u8>>) -> Result<(), String> {
    judges().iter().for_each(|(name, _)| println!("judge {name}"));
    let tapes: Vec<Tape> = tapes.into_iter().map(Tape::new).collect();
    names(&tapes).iter().for_each(|name| println!("row {name}"));
    Ok(())
}

fn run(words: &[&str]) -> Result<(), String> {
    let rounds = |text: Option<&&str>| text.map_or(Ok(ROUNDS), |text| number(text));
    match words {
        ["--same", seed, count] => compare(tapes::of(number(seed)?).take(number(count)?)),
        ["--names", folder] => named(tapes::in_folder(folder)?),
        ["--once", judge, row, folder, rest @ ..] if rest.len() <= 1 => {
            let times = rest.first().map_or(Ok(1), |text| number(text))?;
            once(judge, row, tapes::in_folder(folder)?, times)
        }
        ["--changed", seed, count] => compare(changed::of(number(seed)?).take(number(count)?)),
        [kind @ ("--seed" | "--night" | "--fat"), seed, rest @ ..] if rest.len() <= 2 => {
            let count = rest.first().map_or(Ok(COUNT), |text| number(text))?;
            time(tapes::some(kind, number(seed)?, count), rounds(rest.get(1))?)
        }
        [folder, rest @ ..] if !folder.starts_with('-') && rest.len() <= 1 => {
            time(tapes::in_folder(folder)?, rounds(rest.first())?)
        }
        _ => Err(USAGE.to_string()),
    }
}

fn main() -> ExitCode {
    let arguments: Vec<String> = std::env::args().skip(1).collect();
    let words: Vec<&str> = arguments.iter().map(String::as_str).collect();
    match run(&words) {
        Ok(()) => ExitCode::SUCCESS,
        Err(message) => {
            eprintln!("{message}");
            ExitCode::from(2)
        }
    }
}
