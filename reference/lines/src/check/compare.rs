//! Comparing line by line.

use crate::console::Outcome;
use crate::json::{self, Value};
use rules::hex;

/// What is expected and what this program says, if the line is understood.
pub type Pair = Option<(String, String)>;

/// Prints every line whose two texts differ, and at the end how many do.
pub fn check(path: &str, compare: impl Fn(&Value) -> Pair) -> Outcome {
    let text = std::fs::read_to_string(path).map_err(|error| format!("{path}: {error}"))?;
    let (mut compared, mut differ) = (0, 0);
    for (index, line) in text.lines().enumerate().filter(|(_, line)| !line.trim().is_empty()) {
        let number = index + 1;
        let (wanted, got) = json::parse(line)
            .and_then(|value| compare(&value))
            .ok_or_else(|| format!("{path}, line {number}: not understood"))?;
        compared += 1;
        if wanted != got {
            differ += 1;
            println!("line {number}\n  expected: {wanted}\n  got:      {got}");
        }
    }
    println!("{compared} compared, {differ} differ");
    if differ == 0 {
        Ok(())
    } else {
        Err("vectors differ".to_string())
    }
}

pub fn bytes_at(value: &Value, name: &str) -> Option<Vec<u8>> {
    hex::bytes(value.get(name)?.text()?)
}

pub fn number_at(value: &Value, name: &str) -> Option<u64> {
    value.get(name)?.number()
}

/// A list of numbers, as text.
pub fn numbers(value: &Value) -> Option<Vec<u64>> {
    value.array()?.iter().map(Value::number).collect()
}
