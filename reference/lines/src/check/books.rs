//! Vectors of the campaign book (02, R-11).

use super::compare::{check, number_at, numbers};
use crate::books::{found, run, Change};
use crate::console::Outcome;
use crate::json::Value;
use rules::book::{Book, Entry};
use rules::hex;
use rules::tape::crc32;

/// The change that a reopening begins with.
fn change(what: &Value) -> Option<Change> {
    let [name, operands @ ..] = what.array()? else { return None };
    let number = |at: usize| operands.get(at)?.number().map(|n| n as usize);
    let bytes = || hex::bytes(operands.first()?.text()?);
    Some(match name.text()? {
        "blocks" => Change::Blocks(number(0)?),
        "bytes" => Change::Bytes(number(0)?),
        "add" => Change::Add(bytes()?),
        "block" => Change::Block(bytes()?),
        "again" => Change::Again(number(0)?),
        "swap" => Change::Swap(number(0)?, number(1)?),
        "drop" => Change::Drop(number(0)?),
        "bit" => Change::Bit(number(0)?, number(1)?, number(2)? as u32),
        "set" => Change::Set(number(0)?, number(1)?, number(2)? as u8),
        _ => return None,
    })
}

/// Makes one step and says what comes of it.
fn step(book: &mut Book, step: &Value) -> Option<String> {
    let mut reply = Ok(());
    if let Some(entry) = step.get("enter") {
        let [tape, verdict, place, code] = numbers(entry)?[..] else { return None };
        let verdict = verdict as u8;
        reply = book.enter(Entry {
            tape: tape as u32,
            verdict,
            place: place as u32,
            code: code as u32,
        });
    } else {
        let [first, count] = numbers(step.get("run")?)?[..] else { return None };
        let verdicts = numbers(step.get("verdicts")?)?;
        let verdicts: Vec<u8> = verdicts.into_iter().map(|verdict| verdict as u8).collect();
        for entry in run(first as u32, count as usize, &verdicts) {
            reply = reply.and(book.enter(entry));
        }
    }
    let reply = reply.map_or_else(|refusal| refusal.name(), |()| "0");
    Some(format!("{reply} {:?}\n", book.counts()))
}

fn step_wanted(step: &Value) -> Option<String> {
    let reply = match step.get("reply")? {
        Value::Number(number) => number.to_string(),
        name => name.text()?.to_string(),
    };
    Some(format!("{reply} {:?}\n", numbers(step.get("counts")?)?))
}

fn found_wanted(reopening: &Value) -> Option<String> {
    Some(match reopening.get("counts")? {
        Value::Null => "\"counts\": null, \"entries\": null".to_string(),
        counts => {
            let entries = number_at(reopening, "entries")?;
            format!("\"counts\": {:?}, \"entries\": {entries}", numbers(counts)?)
        }
    })
}

/// Histories and reopenings. Every step and every reopening must be alike.
pub fn check_books(path: &str) -> Outcome {
    check(path, |value| {
        let mut book = Book::new(number_at(value, "room")? as usize);
        let (mut wanted, mut got) = (String::new(), String::new());
        for one in value.get("steps")?.array()? {
            wanted += &step_wanted(one)?;
            got += &step(&mut book, one)?;
        }
        match value.get("stored") {
            Some(stored) => {
                wanted += &stored.text()?.to_uppercase();
                got += &hex::text(book.bytes());
            }
            None => {
                wanted += &number_at(value, "stored_crc")?.to_string();
                got += &crc32(book.bytes()).to_string();
            }
        }
        for reopening in value.get("reopen")?.array()? {
            wanted += &format!("\n{}", found_wanted(reopening)?);
            let bytes = change(reopening.get("do")?)?.apply(book.bytes());
            got += &format!("\n{}", found(&bytes));
        }
        Some((wanted, got))
    })
}
