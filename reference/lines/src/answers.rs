//! Card answers, one question a line: the reason, or what the answer tells.
//! The rules are those of the modules named below; here they are only asked.

use crate::console::{bytes_of, each_line, Outcome};
use crate::play::reply_line;
use crate::selection::{application_line, directory_file_line, directory_line};
use rules::answers::{
    data_field, read_cryptogram, read_options, read_select, CardData, Reason, BAD_LIST, MISSING,
    NOT_ALLOWED, RECORD_TAGS,
};
use rules::decide::{first_allows, second_allows, Cryptogram};
use rules::edition::Edition;
use rules::hex;
use rules::kernel::{Event, Reply, Session};
use rules::lists::{fill, Known};
use rules::terminal::Terminal;

/// `SELECT START ANSWER`: 9F38, and the command that comes next. START may
/// have either size (02, R-7).
fn select_line(start: &[u8], answer: &[u8]) -> Result<String, String> {
    let terminal = Terminal::read_either(start).ok_or("no valid START")?;
    let mut session = Session::default();
    session.retell(Event::Start(start));
    match session.retell(Event::Answer(answer)) {
        Reply::Command(command) => {
            let list = read_select(answer, terminal.aid()).ok().flatten().unwrap_or_default();
            Ok(format!("0 {} {}", hex::text_or_dash(&list), hex::text(&command)))
        }
        Reply::Decision(decision) => Ok(decision[1].to_string()),
        other => Err(reply_line(&other)),
    }
}

/// `GPO ANSWER`: 82, and P1 and P2 of each record that is to be read.
fn options_line(answer: &[u8]) -> String {
    match read_options(answer) {
        Ok(options) => {
            let mut line = format!("0 {}", hex::text(&options.aip));
            for record in options.records {
                line += " ";
                line += &hex::text(&record);
            }
            line
        }
        Err(reason) => reason.to_string(),
    }
}

/// What is wrong once the last record is in.
fn after_records(card: &CardData) -> Reason {
    if !card.is_complete() {
        return MISSING;
    }
    match fill(card.get(0x8C).unwrap_or_default(), &Known::default()) {
        Some(_) => 0,
        None => BAD_LIST,
    }
}

/// `RECORDS ANSWER ..`: each record's reason and what it tells, up to the
/// first that is bad; then the reason found after the last. `RECORDS74` is the
/// same under a START of the former size (02, R-7).
fn records_line(with_verification: bool, answers: &[Vec<u8>]) -> String {
    let mut card = CardData::new(with_verification);
    let mut line = String::new();
    for answer in answers {
        let before = card.clone();
        if let Err(reason) = card.take_record(answer) {
            return line + &reason.to_string();
        }
        line += "0";
        for tag in RECORD_TAGS.into_iter().filter(|&tag| before.get(tag).is_none()) {
            if let Some(value) = card.get(tag) {
                line += &format!(" {tag:02X}:{}", hex::text_or_dash(value));
            }
        }
        line += " | ";
    }
    line + &after_records(&card).to_string()
}

type Allows = fn(Cryptogram, Cryptogram) -> bool;

fn request(word: &str) -> Result<Cryptogram, String> {
    match word {
        "AAC" => Ok(Cryptogram::Aac),
        "TC" => Ok(Cryptogram::Tc),
        "ARQC" => Ok(Cryptogram::Arqc),
        _ => Err(format!("no request: {word}")),
    }
}

/// `AC1 REQUEST ANSWER`, `AC2 REQUEST ANSWER`: the cryptogram, if the first or
/// the second request allows it.
fn cryptogram_line(allows: Allows, asked: Cryptogram, answer: &[u8]) -> String {
    let given = read_cryptogram(answer).and_then(|information| {
        Cryptogram::answered(information).filter(|&given| allows(asked, given)).ok_or(NOT_ALLOWED)
    });
    match given {
        Ok(Cryptogram::Aac) => "0 AAC".to_string(),
        Ok(Cryptogram::Tc) => "0 TC".to_string(),
        Ok(Cryptogram::Arqc) => "0 ARQC".to_string(),
        Err(reason) => reason.to_string(),
    }
}

fn answer_line(line: &str) -> Result<String, String> {
    let words: Vec<&str> = line.split_whitespace().collect();
    match words[..] {
        ["SELECT", start, answer] => select_line(&bytes_of(start)?, &bytes_of(answer)?),
        ["GPO", answer] => Ok(options_line(&bytes_of(answer)?)),
        [word @ ("RECORDS" | "RECORDS74"), ref answers @ ..] => {
            let answers: Result<Vec<_>, _> = answers.iter().map(|word| bytes_of(word)).collect();
            Ok(records_line(word == "RECORDS", &answers?))
        }
        ["AC1", asked, answer] => {
            Ok(cryptogram_line(first_allows, request(asked)?, &bytes_of(answer)?))
        }
        ["AC2", asked, answer] => {
            Ok(cryptogram_line(second_allows, request(asked)?, &bytes_of(answer)?))
        }
        _ => Err(format!("no question: {line}")),
    }
}

/// `PSE ANSWER`, `DIRECTORY ANSWER`, `APPLICATION ANSWER`: what is read of the
/// data, whatever the status (02, R-12). Nothing for other questions.
fn selection_line(line: &str) -> Result<Option<String>, String> {
    let words: Vec<&str> = line.split_whitespace().collect();
    let (read, answer): (fn(&[u8]) -> String, _) = match words[..] {
        ["PSE", answer] => (directory_file_line, answer),
        ["DIRECTORY", answer] => (directory_line, answer),
        ["APPLICATION", answer] => (application_line, answer),
        _ => return Ok(None),
    };
    Ok(Some(read(data_field(&bytes_of(answer)?))))
}

pub fn read_answers(edition: Edition) -> Outcome {
    each_line(|line| {
        let told = if edition == Edition::Choosing { selection_line(line)? } else { None };
        told.map_or_else(|| answer_line(line), Ok).map(Some)
    })
}

#[cfg(test)]
mod tests {
    use super::*;
    use rules::bench::{former, sample};

    fn asked(line: &str) -> String {
        answer_line(line).unwrap()
    }

    #[test]
    fn select_lines() {
        let start = hex::text(&sample());
        let line = |answer: &str| asked(&format!("SELECT {start} {answer}"));
        // 01: with no PDOL.
        assert_eq!(line("6F098405A000000003A5009000"), "0 - 80A8000002830000");
        assert_eq!(line("6A82"), "2");
        assert_eq!(line("-"), "1");
        // 9F33 is known to the larger START alone.
        let asking = "6F118405A000000003A5089F38059F33039C019000";
        assert_eq!(line(asking), "0 9F33039C01 80A8000006830460E0000000");
        let line = asked(&format!("SELECT {} {asking}", hex::text(&former())));
        assert_eq!(line, "0 9F33039C01 80A800000683040000000000");
        assert!(answer_line("SELECT 00 9000").is_err());
    }

    #[test]
    fn option_lines() {
        assert_eq!(asked("GPO 80060800080103019000"), "0 0800 010C 020C 030C");
        assert_eq!(asked("GPO 80060800080001009000"), "6");
        assert_eq!(asked("GPO 800A08000801FF001001F6009000"), "7");
    }

    #[test]
    fn record_lines() {
        assert_eq!(asked("RECORDS 70035A01129000 70009000"), "0 5A:12 | 0 | 8");
        assert_eq!(asked("RECORDS 70035A01129000 70035A01129000"), "0 5A:12 | 4");
        let rest = "5F24032612318C008D00";
        assert_eq!(
            asked(&format!("RECORDS 700D5A0112{rest}9000")),
            "0 5A:12 5F24:261231 8C:- 8D:- | 0"
        );
        assert_eq!(
            asked("RECORDS 700E5A01125F24032612318C01008D009000"),
            "0 5A:12 5F24:261231 8C:00 8D:- | 9"
        );
        let record = "700F8E0800000001000000029F420209789000";
        assert_eq!(
            asked(&format!("RECORDS {record} {record}")),
            "0 8E:0000000100000002 9F42:0978 | 4"
        );
        assert_eq!(asked(&format!("RECORDS74 {record} {record}")), "0 | 0 | 8");
    }

    #[test]
    fn cryptogram_lines() {
        let joined = |first: &str| format!("800B{first}000100000000000000009000");
        assert_eq!(asked(&format!("AC1 TC {}", joined("80"))), "0 ARQC");
        assert_eq!(asked(&format!("AC1 ARQC {}", joined("40"))), "10");
        assert_eq!(asked(&format!("AC2 TC {}", joined("80"))), "10");
        assert_eq!(asked(&format!("AC2 AAC {}", joined("00"))), "0 AAC");
        assert_eq!(asked(&format!("AC1 TC {}", joined("C0"))), "10");
    }
}
