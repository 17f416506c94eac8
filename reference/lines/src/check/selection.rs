//! Vectors of single answers in a selection (02, R-12).

use super::compare::{bytes_at, check};
use crate::console::Outcome;
use crate::json::Value;
use crate::selection::{application_line, directory_file_line, directory_line};
use rules::answers::data_field;
use rules::hex;

/// 87 as it is written in a line: `-` where it is absent.
fn indicator(value: &Value) -> Option<String> {
    match value {
        Value::Null => Some("-".to_string()),
        value => Some(format!("{:02X}", value.number()?)),
    }
}

fn file_wanted(value: &Value) -> Option<String> {
    match value.get("file")? {
        Value::Null => Some("fault".to_string()),
        file => Some(file.number()?.to_string()),
    }
}

/// An entry as a pair of name and 87.
fn entry_wanted(entry: &Value) -> Option<String> {
    match entry.array()? {
        [name, priority] => Some(format!("{}:{}", upper(name)?, indicator(priority)?)),
        _ => None,
    }
}

fn entries_wanted(value: &Value) -> Option<String> {
    let entries = match value.get("entries")? {
        Value::Null => return Some("fault".to_string()),
        entries => entries.array()?.iter().map(entry_wanted).collect::<Option<Vec<_>>>()?,
    };
    Some(if entries.is_empty() { "-".to_string() } else { entries.join(" ") })
}

fn application_wanted(value: &Value) -> Option<String> {
    match value.get("name")? {
        Value::Null => Some("fault".to_string()),
        name => {
            let list = hex::text_or_dash(&bytes_at(value, "9F38")?);
            Some(format!("{}:{} {list}", upper(name)?, indicator(value.get("87")?)?))
        }
    }
}

fn upper(value: &Value) -> Option<String> {
    Some(value.text()?.to_uppercase())
}

/// What is read of the data of an answer, whatever its status.
pub fn check_selection(path: &str) -> Outcome {
    check(path, |value| {
        let answer = bytes_at(value, "answer")?;
        let data = data_field(&answer);
        match value.get("asked")?.text()? {
            "pse" => Some((file_wanted(value)?, directory_file_line(data))),
            "record" => Some((entries_wanted(value)?, directory_line(data))),
            "application" => Some((application_wanted(value)?, application_line(data))),
            _ => None,
        }
    })
}
