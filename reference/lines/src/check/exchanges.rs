//! Vectors of exchanges by T=0 (02, R-4).

use super::compare::{bytes_at, check, number_at};
use crate::console::Outcome;
use crate::json::Value;
use rules::hex;
use rules::t0::{Exchange, Step, Wait};

/// What a vector of R-4 expects: what is sent after how many bytes, how many
/// are taken, and the end.
fn exchange_wanted(expect: &Value) -> Option<String> {
    let mut said = String::new();
    for send in expect.get("sends")?.array()? {
        let [after, bytes] = send.array()? else { return None };
        said += &format!("{} {}, ", after.number()?, bytes.text()?.to_uppercase());
    }
    said += &format!("taken {}, ", number_at(expect, "taken")?);
    if let Some(answer) = expect.get("answer") {
        said += &format!("answer {}", answer.text()?.to_uppercase());
    } else if let Some(name) = expect.get("refusal") {
        said += &format!("refused {}", name.text()?);
    } else {
        said += &match expect.get("wait")? {
            Value::Text(word) if word == "procedure" => "wait procedure".to_string(),
            Value::Text(_) => "wait second".to_string(),
            data => format!("wait data {}", data.array()?.get(1)?.number()?),
        };
    }
    Some(said)
}

/// The same for what this program makes of it.
fn exchange_got(command: &[u8], capture: &[u8]) -> String {
    let mut exchange = match Exchange::begin(command) {
        Ok(exchange) => exchange,
        Err(name) => return format!("taken 0, refused {name}"),
    };
    let mut said = format!("0 {}, ", hex::text(&exchange.header()));
    for (index, &byte) in capture.iter().enumerate() {
        let taken = index + 1;
        match exchange.byte(byte) {
            Step::Wait => (),
            Step::Send(bytes) => said += &format!("{taken} {}, ", hex::text(&bytes)),
            Step::Answer(answer) => {
                return said + &format!("taken {taken}, answer {}", hex::text(&answer));
            }
            Step::Refused(name) => return said + &format!("taken {taken}, refused {name}"),
        }
    }
    said += &format!("taken {}, ", capture.len());
    said + &match exchange.wait() {
        Wait::Data(count) => format!("wait data {count}"),
        Wait::Second(_) => "wait second".to_string(),
        Wait::Procedure | Wait::Nothing => "wait procedure".to_string(),
    }
}

/// Vectors of exchanges by T=0 (02, R-4). How the card's bytes are cut has no
/// meaning for the outcome.
pub fn check_exchanges(path: &str) -> Outcome {
    check(path, |value| {
        let command = bytes_at(value, "command")?;
        let capture = bytes_at(value, "capture")?;
        let wanted = exchange_wanted(value.get("expect")?)?;
        Some((wanted, exchange_got(&command, &capture)))
    })
}
