//! Vectors of the T=1 layer (02, R-10).

use super::compare::{bytes_at, check, number_at, Pair};
use crate::console::Outcome;
use crate::json;
use crate::json::Value;
use crate::t1::{block_text, role_of, state_text};
use rules::hex;
use rules::t1::block::{cut, Topic};
use rules::t1::{End, Event};

fn event(value: &Value) -> Option<Event> {
    let [word, operands @ ..] = value.array()? else { return None };
    let bytes = || hex::bytes(operands.first()?.text()?);
    Some(match word.text()? {
        "hello" => Event::Hello,
        "silence" => Event::Silence,
        "send" => Event::Send(bytes()?),
        "block" => Event::Block(bytes()?),
        "ask" => {
            let topic = match operands.first()?.text()? {
                "IFS" => Topic::Ifs,
                "WTX" => Topic::Wtx,
                _ => return None,
            };
            Event::Ask(topic, operands.get(1)?.number()? as u8)
        }
        _ => return None,
    })
}

/// All that is expected after each event, and all that comes of it.
fn session(value: &Value) -> Pair {
    let size = |name: &str| number_at(value, name).map(|size| size as usize);
    let role = role_of(value.get("role")?.text()?)?;
    let mut end = End::new(role, size("ifs_out")?, size("ifs_in")?);
    let wanted = value.get("expect")?.array()?;
    let mut got = Vec::new();
    for one in value.get("events")?.array()? {
        let (next, outcome) = end.step(&event(one)?);
        got.push(json::parse(&state_text(&next, &outcome))?);
        end = next;
    }
    // In the same form, whatever the order of members.
    Some((sorted(wanted), sorted(&got)))
}

/// The members of each object by name, an object a line.
fn sorted(values: &[Value]) -> String {
    let one = |value: &Value| match value {
        Value::Object(members) => {
            let mut members: Vec<String> =
                members.iter().map(|(name, value)| format!("{name} {value:?}")).collect();
            members.sort();
            format!("\n    {}", members.join(", "))
        }
        other => format!("\n    {other:?}"),
    };
    values.iter().map(one).collect()
}

fn one(value: &Value) -> Pair {
    match value.get("kind")?.text()? {
        "t1.block" => {
            let bytes = bytes_at(value, "block")?;
            let got = json::parse(&block_text(&bytes, number_at(value, "ifs")? as usize))?;
            let wanted = value.get("expect")?;
            Some((sorted(std::slice::from_ref(wanted)), sorted(&[got])))
        }
        "t1.cut" => {
            let message = bytes_at(value, "message")?;
            let (ifs, number) = (number_at(value, "ifs")?, number_at(value, "number")?);
            let blocks = cut(&message, ifs as usize, number as u8);
            let got: Vec<String> = blocks.iter().map(|block| hex::text(block)).collect();
            let wanted: Option<Vec<String>> = value
                .get("expect")?
                .array()?
                .iter()
                .map(|block| block.text().map(str::to_uppercase))
                .collect();
            Some((wanted?.join(" "), got.join(" ")))
        }
        "t1.session" => session(value),
        _ => None,
    }
}

/// Blocks, messages cut, and sessions of one end.
pub fn check_blocks(path: &str) -> Outcome {
    check(path, one)
}
