//! The T=1 layer as text, in the form of vectors (02, R-10).

use rules::hex;
use rules::t1::block::{read, Control};
use rules::t1::{End, Event, Outcome, Role};

pub fn lower(bytes: &[u8]) -> String {
    hex::text(bytes).to_lowercase()
}

pub fn role_name(role: Role) -> &'static str {
    match role {
        Role::Terminal => "terminal",
        Role::Card => "card",
    }
}

pub fn role_of(name: &str) -> Option<Role> {
    [Role::Terminal, Role::Card].into_iter().find(|&role| role_name(role) == name)
}

/// Whether a block is valid and what it is, else the code and why.
pub fn block_text(bytes: &[u8], ifs: usize) -> String {
    let block = match read(bytes, ifs) {
        Ok(block) => block,
        Err(invalid) => {
            let (code, why) = (invalid.code, invalid.why);
            return format!("{{\"valid\": false, \"code\": {code}, \"why\": \"{why}\"}}");
        }
    };
    let own = match block.control {
        Control::I { number, more } => {
            format!("\"number\": {number}, \"more\": {}", u8::from(more))
        }
        Control::R { number, error } => format!("\"number\": {number}, \"err\": {error}"),
        Control::S { topic, response } => {
            format!("\"type\": \"{}\", \"response\": {}", topic.name(), u8::from(response))
        }
    };
    let kind = match block.control {
        Control::I { .. } => "I",
        Control::R { .. } => "R",
        Control::S { .. } => "S",
    };
    let place = block.inf_place();
    format!(
        "{{\"valid\": true, \"kind\": \"{kind}\", \"inf\": [{}, {}], {own}}}",
        place.start, place.end
    )
}

/// An event in words.
pub fn event_text(event: &Event) -> String {
    match event {
        Event::Hello => "[\"hello\"]".to_string(),
        Event::Silence => "[\"silence\"]".to_string(),
        Event::Send(message) => format!("[\"send\", \"{}\"]", lower(message)),
        Event::Block(bytes) => format!("[\"block\", \"{}\"]", lower(bytes)),
        Event::Ask(topic, value) => format!("[\"ask\", \"{}\", {value}]", topic.name()),
    }
}

/// The state after an event and what came of it.
pub fn state_text(end: &End, outcome: &Outcome) -> String {
    let mut text = format!(
        "{{\"phase\": \"{}\", \"ns\": {}, \"nr\": {}, \"ifs_out\": {}, \"ifs_in\": {}",
        end.phase.name(),
        end.ns,
        end.nr,
        end.ifs_out,
        end.ifs_in
    );
    let bytes = [("send", &outcome.send), ("message", &outcome.message)];
    for (name, bytes) in bytes {
        if let Some(bytes) = bytes {
            text += &format!(", \"{name}\": \"{}\"", lower(bytes));
        }
    }
    if let Some(place) = &outcome.inf {
        text += &format!(", \"inf\": [{}, {}]", place.start, place.end);
    }
    for (name, word) in [("end", outcome.end), ("refusal", outcome.refusal)] {
        if let Some(word) = word {
            text += &format!(", \"{name}\": \"{word}\"");
        }
    }
    text + "}"
}
