//! Data objects and object lists, one to a line.

use crate::console::{bytes_of, each_line, Outcome};
use rules::lists::{fill, Known};
use rules::{hex, objects};

/// The direct members of the list on the line.
fn objects_line(line: &str) -> Result<String, String> {
    let bytes = bytes_of(line)?;
    Ok(match objects::read_list(&bytes) {
        Err(number) => format!("refused {number}"),
        Ok(members) if members.is_empty() => "-".to_string(),
        Ok(members) => {
            let member = |m: &objects::Object| format!("{:02X}:{}", m.tag, hex::text(m.value));
            members.iter().map(member).collect::<Vec<_>>().join(" ")
        }
    })
}

pub fn read_objects() -> Outcome {
    each_line(|line| objects_line(line).map(Some))
}

/// `TAG VALUE ROOM`; without a value, or with a dash, the value is empty.
fn write_line(line: &str) -> Result<String, String> {
    let words: Vec<&str> = line.split_whitespace().collect();
    let (tag, value, room) = match words[..] {
        [tag, value, room] => (tag, value, room),
        [tag, room] => (tag, "-", room),
        _ => return Err("three words expected".to_string()),
    };
    let tag = u32::from_str_radix(tag, 16).map_err(|_| format!("no tag number: {tag}"))?;
    let value = bytes_of(value)?;
    let room = room.parse().map_err(|_| format!("no number: {room}"))?;
    Ok(match objects::write(tag, &value, room) {
        Ok(bytes) => hex::text(&bytes),
        Err(number) => format!("refused {number}"),
    })
}

pub fn write_objects() -> Outcome {
    each_line(|line| write_line(line).map(Some))
}

/// `LIST TAG=VALUE ..`: the list filled from the values given; with `counted`
/// also how many entries had none (02, R-6).
fn fill_line(line: &str, counted: bool) -> Result<String, String> {
    let mut words = line.split_whitespace();
    let list = bytes_of(words.next().unwrap_or("-"))?;
    let mut values = Vec::new();
    for word in words {
        let (tag, value) = word.split_once('=').ok_or_else(|| format!("no pair: {word}"))?;
        let tag = u16::from_str_radix(tag, 16).map_err(|_| format!("no tag: {tag}"))?;
        values.push((tag, bytes_of(value)?));
    }
    let mut known = Known::default();
    for (tag, value) in &values {
        known.add(*tag, value);
    }
    Ok(match fill(&list, &known) {
        Some(filled) if counted => {
            format!("{} {}", hex::text_or_dash(&filled.data), filled.unsupplied)
        }
        Some(filled) => hex::text_or_dash(&filled.data),
        None => "reason 9".to_string(),
    })
}

pub fn fill_lists(counted: bool) -> Outcome {
    each_line(|line| fill_line(line, counted).map(Some))
}

#[cfg(test)]
mod tests {
    use super::*;

    #[test]
    fn object_lines() {
        assert_eq!(objects_line("5A81021234").unwrap(), "5A:1234");
        assert_eq!(objects_line("5A0212").unwrap(), "refused 9");
        assert!(objects_line("00 00").is_err());
        assert_eq!(objects_line("0000").unwrap(), "-");
        assert_eq!(objects_line("").unwrap(), "-");
        assert_eq!(objects_line("01009F0200").unwrap(), "01: 9F02:");
    }

    #[test]
    fn write_lines() {
        assert_eq!(write_line("5A 1234 4").unwrap(), "5A021234");
        assert_eq!(write_line("5A 1234 3").unwrap(), "refused 11");
        assert_eq!(write_line("5A - 2").unwrap(), "5A00");
        assert_eq!(write_line("9f02 3").unwrap(), "9F0200");
        assert_eq!(write_line("5F - 2").unwrap(), "refused 10");
        assert!(write_line("5A").is_err());
    }

    #[test]
    fn fill_lines() {
        let filled = |line: &str| fill_line(line, false);
        assert_eq!(filled("9F0204 9F02=000000007500").unwrap(), "00007500");
        assert_eq!(filled("9F3702 9F37=11223344").unwrap(), "1122");
        assert_eq!(filled("-").unwrap(), "-");
        assert_eq!(filled("00").unwrap(), "reason 9");
        assert_eq!(filled("5A03 5A=").unwrap(), "FFFFFF");
        let counted = |line: &str| fill_line(line, true).unwrap();
        assert_eq!(counted("9F02045A009C01 9F02=000000007500"), "0000750000 2");
        assert_eq!(counted("5A00"), "- 1");
        assert_eq!(counted("00"), "reason 9");
    }
}
