//! Answers to reset, one to a line (02, R-1).

use crate::console::{bytes_of, each_line, Outcome};
use rules::reset::{self, Reset};

/// `COLD CAPTURE` or `WARM CAPTURE`: an answer to reset.
fn reset_line(line: &str) -> Result<Option<String>, String> {
    let (word, rest) = line.split_once(char::is_whitespace).unwrap_or((line, ""));
    let reset = match word {
        "" => return Ok(None),
        "COLD" => Reset::Cold,
        "WARM" => Reset::Warm,
        _ => return Err(format!("unknown word: {word}")),
    };
    Ok(Some(reset::line(&bytes_of(rest.trim())?, reset)))
}

pub fn read_resets() -> Outcome {
    each_line(reset_line)
}

#[cfg(test)]
mod tests {
    use super::*;

    #[test]
    fn reset_lines() {
        assert_eq!(reset_line("COLD").unwrap().unwrap(), "REFUSED CUT:0");
        assert_eq!(reset_line("COLD 3b00").unwrap().unwrap(), "REFUSED TB1-ABSENT:2");
        let line = "ACCEPTED direct T=0 N=0 INTERVAL=12 TA2=no WI=10 HISTORICAL=-";
        assert_eq!(reset_line("WARM 3B00").unwrap().unwrap(), line);
        assert_eq!(reset_line(""), Ok(None));
        assert!(reset_line("3B00").is_err());
    }
}
