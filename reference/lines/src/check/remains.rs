//! Vectors of damaged tapes (02, R-9).

use super::compare::{bytes_at, check, number_at, numbers};
use crate::console::Outcome;
use crate::json::Value;
use rules::edition::Edition;
use rules::recover::{recover_by, said_by};

/// What a vector of R-9 says of its bytes.
fn remains_wanted(value: &Value) -> Option<String> {
    let blocks: Option<Vec<_>> = value.get("blocks")?.array()?.iter().map(numbers).collect();
    let (tail, line) = (number_at(value, "tail")?, value.get("judge")?.text()?);
    Some(format!("\"blocks\": {:?}, \"tail\": {tail}, \"judge\": \"{line}\"", blocks?))
}

/// Vectors of damaged tapes (02, R-9). Where blocks were overwritten, those
/// that were not must be exactly the ones listed.
pub fn check_remains(edition: Edition, path: &str) -> Outcome {
    check(path, |value| {
        let bytes = bytes_at(value, "bytes")?;
        let mut wanted = remains_wanted(value)?;
        let mut got = said_by(edition, &bytes);
        if value.get("premise")?.truth()? {
            let remains = recover_by(edition, &bytes);
            let steps: Vec<usize> = remains.blocks.iter().map(|b| b.step).collect();
            wanted += &format!(" {:?}", numbers(value.get("untouched")?)?);
            got += &format!(" {steps:?}");
        }
        Some((wanted, got))
    })
}
