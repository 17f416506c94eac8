//! Vectors of answers to reset (02, R-1).

use super::compare::{bytes_at, check, number_at};
use crate::console::Outcome;
use crate::json::Value;
use rules::hex;
use rules::reset::{self, Reset};

/// The line that a vector of R-1 asks for.
fn reset_wanted(capture: &[u8], expect: &Value) -> Option<String> {
    if !expect.get("ok")?.truth()? {
        let mut line = "REFUSED".to_string();
        for refusal in expect.get("refusals")?.array()? {
            let rule = refusal.get("rule")?.text()?;
            line += &format!(" {rule}:{}", number_at(refusal, "at")?);
        }
        return Some(line);
    }
    let protocol = number_at(expect, "protocol")?;
    let parameters = expect.get("params")?;
    let parameter = |name: &str| number_at(parameters, name);
    if (parameter("F")?, parameter("D")?) != (372, 1) {
        return Some("other F or D".to_string());
    }
    let own = if protocol == 0 {
        format!("WI={}", parameter("WI")?)
    } else {
        let (ifsc, bwi) = (parameter("IFSC")?, parameter("BWI")?);
        format!("IFSC={ifsc} BWI={bwi} CWI={}", parameter("CWI")?)
    };
    let place = |at: usize| expect.get("historical")?.array()?.get(at)?.number();
    let historical = capture.get(place(0)? as usize..place(1)? as usize)?;
    let convention = expect.get("convention")?.text()?;
    let specific = if expect.get("specific")?.truth()? { "yes" } else { "no" };
    let (n, interval) = (parameter("N")?, parameter("interval")?);
    Some(format!(
        "ACCEPTED {convention} T={protocol} N={n} INTERVAL={interval} TA2={specific} {own} \
         HISTORICAL={}",
        hex::text_or_dash(historical)
    ))
}

/// Vectors of answers to reset (02, R-1).
pub fn check_resets(path: &str) -> Outcome {
    check(path, |value| {
        let capture = bytes_at(value, "capture")?;
        let reset = if value.get("warm")?.truth()? { Reset::Warm } else { Reset::Cold };
        let wanted = reset_wanted(&capture, value.get("expect")?)?;
        Some((wanted, reset::line(&capture, reset)))
    })
}
