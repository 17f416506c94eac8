//! The T=0 layer driven by lines (02, R-4).

use crate::console::{bytes_of, each_line, Outcome};
use rules::hex;
use rules::t0::{handed, Exchange, Step, Wait};

/// The layer driven by lines.
pub struct Lines {
    exchange: Option<Exchange>,
    /// Whether an answer is shown as it is handed to a session.
    short: bool,
}

impl Lines {
    pub fn new(short: bool) -> Lines {
        Lines { exchange: None, short }
    }

    /// A new command: its header, or why it is refused.
    pub fn command(&mut self, command: &[u8]) -> String {
        match Exchange::begin(command) {
            Ok(exchange) => {
                let header = hex::text(&exchange.header());
                self.exchange = Some(exchange);
                format!("SEND {header}\nWAIT procedure")
            }
            Err(name) => {
                self.exchange = None;
                format!("REFUSED {name}")
            }
        }
    }

    /// Some bytes of the card: what is sent on the way, then the end or what
    /// is waited for. Nothing if the exchange was over before.
    pub fn card(&mut self, bytes: &[u8]) -> Option<String> {
        let exchange = self.exchange.as_mut()?;
        let mut lines = Vec::new();
        for &byte in bytes {
            match exchange.byte(byte) {
                Step::Wait => (),
                Step::Send(bytes) => lines.push(format!("SEND {}", hex::text(&bytes))),
                Step::Answer(answer) => {
                    let shown = if self.short { handed(&answer) } else { &answer };
                    lines.push(format!("ANSWER {}", hex::text(shown)));
                }
                Step::Refused(name) => lines.push(format!("REFUSED {name}")),
            }
            if exchange.wait() == Wait::Nothing {
                self.exchange = None;
                return Some(lines.join("\n"));
            }
        }
        lines.push(match exchange.wait() {
            Wait::Data(count) => format!("WAIT data {count}"),
            Wait::Second(_) => "WAIT second".to_string(),
            Wait::Procedure | Wait::Nothing => "WAIT procedure".to_string(),
        });
        Some(lines.join("\n"))
    }
}

/// `COMMAND hex` begins an exchange by T=0, `CARD hex` goes on with it.
fn exchange_line(lines: &mut Lines, line: &str) -> Result<Option<String>, String> {
    let (word, rest) = line.split_once(char::is_whitespace).unwrap_or((line, ""));
    let bytes = bytes_of(rest.trim())?;
    match word {
        "" => Ok(None),
        "COMMAND" => Ok(Some(lines.command(&bytes))),
        "CARD" => Ok(lines.card(&bytes)),
        _ => Err(format!("unknown word: {word}")),
    }
}

pub fn run_exchanges(short: bool) -> Outcome {
    let mut lines = Lines::new(short);
    each_line(|line| exchange_line(&mut lines, line))
}

#[cfg(test)]
mod tests {
    use super::*;

    #[test]
    fn exchange_lines() {
        let mut lines = Lines::new(false);
        let mut say = |line: &str| exchange_line(&mut lines, line).unwrap().unwrap_or_default();
        assert_eq!(say("CARD 90"), "");
        assert_eq!(say("COMMAND 00b2010c01"), "SEND 00B2010C01\nWAIT procedure");
        assert_eq!(say("CARD"), "WAIT procedure");
        assert_eq!(say("CARD B2"), "WAIT data 1");
        assert_eq!(say("CARD 07900000"), "ANSWER 079000");
        assert_eq!(say("CARD 90"), "");
        assert_eq!(say("COMMAND 00"), "REFUSED COMMAND");
        assert_eq!(say("CARD 90"), "");
        let longer = |short| {
            let mut lines = Lines::new(short);
            let data = "00".repeat(256);
            exchange_line(&mut lines, "COMMAND 00B2010C00").unwrap();
            let card = format!("CARD B2{data}6100C0{data}9000");
            exchange_line(&mut lines, &card).unwrap().unwrap()
        };
        assert_eq!(longer(false).len(), "SEND 00C0000000 ANSWER ".len() + 2 * 514);
        assert_eq!(longer(true).len(), "SEND 00C0000000 ANSWER ".len() + 2 * 259);
    }

    /// However the card's bytes are cut into lines, all but what is waited for
    /// between them is the same.
    #[test]
    fn pieces_make_no_difference() {
        for (command, card) in [
            ("00B2010C00", "6C03B20102039000"),
            ("00A4040002616200", "A46102C001026101C0039000"),
            ("00A4040002616200", "A462836C01C0079000"),
            ("00B2010C05", "606060B201"),
            ("00B2010C05", "60606042"),
        ] {
            let run = |size: usize| {
                let mut lines = Lines::new(false);
                let mut out = vec![lines.command(&hex::bytes(command).unwrap())];
                let card = hex::bytes(card).unwrap();
                out.extend(card.chunks(size).filter_map(|piece| lines.card(piece)));
                let all: Vec<String> = out.join("\n").lines().map(str::to_string).collect();
                let last = all.len() - 1;
                let kept = all.into_iter().enumerate();
                kept.filter(|(i, l)| *i == last || !l.starts_with("WAIT")).map(|(_, l)| l).collect()
            };
            let whole: Vec<String> = run(usize::MAX);
            for size in 1..5 {
                assert_eq!(run(size), whole, "{command} {size}");
            }
        }
    }
}
