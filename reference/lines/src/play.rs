//! A kernel driven by lines, with a tape of what happens.

use crate::console::{bytes_of, each_line, failed, Outcome};
use rules::edition::Edition;
use rules::hex;
use rules::kernel::{Event, Reply, Session, LONGEST_COMMAND};
use rules::tape::{self, Entry, Writer};
use std::fs::File;
use std::io::Write;

/// The tape that `play` writes, block by block as entries come.
struct Recorder {
    file: File,
    writer: Writer,
}

impl Recorder {
    fn add(&mut self, kind: u8, payload: &[u8]) -> Outcome {
        let block = self
            .writer
            .add(Entry { kind, payload })
            .map_err(|number| format!("tape refused an entry: {number}"))?;
        self.file.write_all(&block).map_err(failed("tape"))
    }
}

/// A kernel driven by lines.
struct Player {
    session: Session,
    room: usize,
    recorder: Option<Recorder>,
}

impl Player {
    fn line(&mut self, line: &str) -> Result<Option<String>, String> {
        let (word, rest) = line.split_once(char::is_whitespace).unwrap_or((line, ""));
        let rest = rest.trim();
        if word.is_empty() {
            return Ok(None);
        }
        if word == "ROOM" {
            self.room = rest.parse().map_err(|_| format!("no number: {rest}"))?;
            return Ok(None);
        }
        let payload = bytes_of(rest)?;
        let (kind, event) = match word {
            "START" => (tape::START, Event::Start(&payload)),
            "ANSWER" => (tape::ANSWER, Event::Answer(&payload)),
            "SILENCE" => (tape::SILENCE, Event::Silence),
            "HOST" => (tape::HOST, Event::Host(&payload)),
            "RESULTS" => (tape::RESULTS, Event::Results(&payload)),
            "CHOICE" if self.session.edition() == Edition::Choosing => {
                (tape::CHOICE, Event::Choice(&payload))
            }
            _ => return Err(format!("unknown word: {word}")),
        };
        let reply = self.session.step(self.room, event);
        self.record(kind, &payload, &reply)?;
        Ok(Some(reply_line(&reply)))
    }

    /// Writes the accepted event, and the command or decision that follows.
    fn record(&mut self, kind: u8, payload: &[u8], reply: &Reply) -> Outcome {
        let Some(recorder) = &mut self.recorder else {
            return Ok(());
        };
        if matches!(reply, Reply::Refused(_)) {
            return Ok(());
        }
        let payload = if kind == tape::SILENCE { &[] } else { payload };
        recorder.add(kind, payload)?;
        match reply {
            Reply::Command(command) => recorder.add(tape::COMMAND, command),
            Reply::Decision(decision) => recorder.add(tape::DECISION, decision),
            _ => Ok(()),
        }
    }
}

pub fn reply_line(reply: &Reply) -> String {
    match reply {
        Reply::Command(bytes) => format!("COMMAND {}", hex::text(bytes)),
        Reply::HostDue => "HOST".to_string(),
        Reply::ResultsDue(count) => format!("RESULTS {count}"),
        Reply::ChoiceDue(shown) => format!("CHOICE {shown}"),
        Reply::Decision(bytes) => format!("DECISION {}", hex::text(bytes)),
        Reply::Closed => "CLOSED".to_string(),
        Reply::Refused(number) => format!("REFUSED {number}"),
    }
}

pub fn play(edition: Edition, tape: Option<&str>, session: u32) -> Outcome {
    let recorder = match tape {
        Some(path) => {
            let file = File::create(path).map_err(failed(path))?;
            Some(Recorder { file, writer: Writer::by(edition, session, edition.longest_tape()) })
        }
        None => None,
    };
    let mut player = Player { session: Session::by(edition), room: LONGEST_COMMAND, recorder };
    each_line(|line| player.line(line))
}

#[cfg(test)]
mod tests {
    use super::*;
    use rules::bench::{former, listed, sample};

    #[test]
    fn player_lines() {
        let mut player = Player { session: Session::default(), room: 261, recorder: None };
        let start = format!("START {}", hex::text(&sample()));
        let mut say = |line: &str| player.line(line).unwrap().unwrap_or_default();
        assert_eq!(say("START"), "REFUSED 3");
        assert_eq!(say("ROOM 260"), "");
        assert_eq!(say(&start), "REFUSED 1");
        assert_eq!(say("ROOM 261"), "");
        assert_eq!(say(&start), "COMMAND 00A4040005A00000000300");
        assert_eq!(say("ANSWER 6a82"), "DECISION 030200000000000000");
        assert_eq!(say("SILENCE"), "REFUSED 2");
        assert_eq!(say("RESULTS"), "REFUSED 2");
    }

    #[test]
    fn player_lines_with_results() {
        let mut player = Player { session: Session::default(), room: 261, recorder: None };
        let mut say = |line: &str| player.line(line).unwrap().unwrap_or_default();
        assert_eq!(say(&format!("START {}", hex::text(&former()))), "REFUSED 3");
        say(&format!("START {}", hex::text(&sample())));
        say("ANSWER 6F098405A000000003A5009000");
        assert_eq!(say("RESULTS 01"), "REFUSED 4");
        say("ANSWER 80061000080101009000");
        let list = "8E0A00000000000000001E00";
        let record = format!("ANSWER 70195A01125F24032612318C008D00{list}9000");
        assert_eq!(say(&record), "RESULTS 1");
        assert_eq!(say("RESULTS 05"), "REFUSED 12");
        assert_eq!(say("RESULTS"), "REFUSED 12");
        assert_eq!(say("SILENCE"), "REFUSED 4");
        assert_eq!(say("RESULTS 01"), "COMMAND 80AE800000");
    }

    /// 02, R-12: two of which the shopper takes the second.
    #[test]
    fn player_lines_with_a_choice() {
        let session = Session::by(Edition::Choosing);
        let mut player = Player { session, room: 261, recorder: None };
        let mut say = |line: &str| player.line(line).unwrap().unwrap_or_default();
        assert_eq!(say(&format!("START {}", hex::text(&sample()))), "REFUSED 3");
        let pse = say(&format!("START {}", hex::text(&listed())));
        assert_eq!(pse, "COMMAND 00A404000E315041592E5359532E444446303100");
        assert_eq!(say("CHOICE 00"), "REFUSED 4");
        say("ANSWER 6A82");
        say("ANSWER 6F098405A000000003A5009000");
        assert_eq!(say("ANSWER 6F098405A000000004A5009000"), "CHOICE 2");
        assert_eq!(say("CHOICE 02"), "REFUSED 13");
        assert_eq!(say("CHOICE 01"), "COMMAND 00A4040005A00000000400");
        assert_eq!(say("ANSWER 6A82"), "CHOICE 1");
        assert_eq!(say("CHOICE FF"), "DECISION 030C00000000000000");
        let mut before = Player { session: Session::default(), room: 261, recorder: None };
        assert!(before.line("CHOICE 00").is_err());
    }
}
