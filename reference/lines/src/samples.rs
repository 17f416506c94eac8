//! Sessions to look at, as lines for `play`: one card and one terminal with
//! all means of verification, and three ways in which it goes (02, R-7).

use crate::console::Outcome;

/// Type 0, amount 7500, floor limit 10000, currency 0978, 15 July 2026.
const START: &str = concat!(
    "00000000007500000000000000025009782607150011223344",
    "000000010000280A00000000500046008C",
    "000000000000000000000000000000",
    "05A0000000030000000000000000000000",
    "60E0C8",
);

/// SELECT asks for Terminal Capabilities; AIP '10', a single record.
const SELECT: &str = "6F0F8405A000000003A5069F38039F33039000";
const OPTIONS: &str = "80061000080101009000";

/// 8C asks for TVR and TSI. Rules: an offline PIN if that is supported, else
/// or after a failure a signature. A default match only without success.
const RECORD: &str = concat!(
    "7035",
    "5A0847612345678901235F2403281231",
    "8C0495059B028D028A02",
    "8E0C000000000000000041031E00",
    "9F420209789F0D050000800000",
    "9000",
);

/// The results, and the cryptogram that is asked for and given.
const WAYS: [(&str, &str, &str); 3] =
    [("offline-pin", "0100", "40"), ("signature", "0201", "40"), ("failed", "0400", "00")];

fn lines(results: &str, information: &str) -> String {
    let cryptogram = format!("800B{information}000111223344556677889000");
    let answers = [SELECT, OPTIONS, RECORD].map(|answer| format!("ANSWER {answer}")).join("\n");
    format!("START {START}\n{answers}\nRESULTS {results}\nANSWER {cryptogram}")
}

/// Prints the lines of one session.
pub fn print(name: &str) -> Outcome {
    match WAYS.iter().find(|way| way.0 == name) {
        Some((_, results, information)) => {
            println!("{}", lines(results, information));
            Ok(())
        }
        None => Err(format!("samples are {}", WAYS.map(|way| way.0).join(", "))),
    }
}

#[cfg(test)]
mod tests {
    use super::*;
    use rules::hex;
    use rules::kernel::{Event, Reply, Session, LONGEST_COMMAND};

    fn last_reply(text: &str) -> Reply {
        let mut session = Session::default();
        let mut reply = Reply::Closed;
        for line in text.lines() {
            let (word, payload) = line.split_once(' ').unwrap();
            let payload = hex::bytes(payload).unwrap();
            let event = match word {
                "START" => Event::Start(&payload),
                "RESULTS" => Event::Results(&payload),
                _ => Event::Answer(&payload),
            };
            reply = session.step(LONGEST_COMMAND, event);
            assert!(!matches!(reply, Reply::Refused(_)), "{line} {reply:?}");
        }
        reply
    }

    #[test]
    fn they_go_as_they_should() {
        let wanted = ["010080000000006000", "010080001000006000", "02008000A000006000"];
        for ((name, results, information), want) in WAYS.into_iter().zip(wanted) {
            let want: [u8; 9] = hex::bytes(want).unwrap().try_into().unwrap();
            assert_eq!(last_reply(&lines(results, information)), Reply::Decision(want), "{name}");
        }
        assert!(print("none").is_err());
    }
}
