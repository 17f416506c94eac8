use super::*;
use crate::hex;

fn h(text: &str) -> Vec<u8> {
    hex::bytes(&text.replace(' ', "")).unwrap()
}

/// All that is said to a command and some card bytes, on one line: the header,
/// what else is sent, and the end or what is waited for.
fn say(command: &str, card: &str) -> String {
    let mut exchange = match Exchange::begin(&h(command)) {
        Ok(exchange) => exchange,
        Err(name) => return format!("REFUSED {name}"),
    };
    let mut said = vec![hex::text(&exchange.header())];
    for byte in h(card) {
        match exchange.byte(byte) {
            Step::Wait => (),
            Step::Send(bytes) => said.push(format!("SEND {}", hex::text(&bytes))),
            Step::Answer(answer) => said.push(format!("ANSWER {}", hex::text(&answer))),
            Step::Refused(name) => said.push(format!("REFUSED {name}")),
        }
        if exchange.wait() == Wait::Nothing {
            return said.join("; ");
        }
    }
    said.push(match exchange.wait() {
        Wait::Data(count) => format!("WAIT data {count}"),
        Wait::Second(_) => "WAIT second".to_string(),
        Wait::Procedure | Wait::Nothing => "WAIT procedure".to_string(),
    });
    said.join("; ")
}

#[test]
fn annex_a() {
    for (command, card, want) in [
        ("00B2010C", "9000", "00B2010C00; ANSWER 9000"),
        ("00B2010C00", "6C03 B2 010203 9000", "00B2010C00; SEND 00B2010C03; ANSWER 0102039000"),
        ("00A40400026162", "A4 9000", "00A4040002; SEND 6162; ANSWER 9000"),
        (
            "00A4040002616200",
            "A4 6102 C0 0102 9000",
            "00A4040002; SEND 6162; SEND 00C0000002; ANSWER 01029000",
        ),
        (
            "00B2010C00",
            "6C0A 6102 C0 0102 6101 C0 03 9000",
            "00B2010C00; SEND 00B2010C0A; SEND 00C0000002; SEND 00C0000001; ANSWER 0102039000",
        ),
        (
            "00A4040002616200",
            "A4 6102 C0 0102 6101 C0 03 9000",
            "00A4040002; SEND 6162; SEND 00C0000002; SEND 00C0000001; ANSWER 0102039000",
        ),
        (
            "00A4040002616200",
            "A4 6283 6C01 C0 07 9000",
            "00A4040002; SEND 6162; SEND 00C0000000; SEND 00C0000001; ANSWER 076283",
        ),
    ] {
        assert_eq!(say(command, card), want);
    }
}

#[test]
fn commands() {
    for bad in ["-", "00A404", "00A404000000", "00A40400026100626262"] {
        assert_eq!(say(bad, "9000"), "REFUSED COMMAND", "{bad}");
    }
    assert_eq!(say("00A4040002", "-"), "00A4040002; WAIT procedure");
    assert_eq!(say("00A40400026100", "-"), "00A4040002; WAIT procedure");
    assert_eq!(say("00A404000361000000", "-"), "00A4040003; WAIT procedure");
    assert_eq!(say("00A40400036100", "-"), "REFUSED COMMAND");
    assert_eq!(say("00A40400036100000000", "-"), "REFUSED COMMAND");
    for ins in 0..=255u8 {
        let want = [0x6, 0x9].contains(&(ins >> 4));
        assert_eq!(say(&format!("00{ins:02X}0000"), "-") == "REFUSED INS", want);
    }
    assert_eq!(say("FF010203", "01"), "FF01020300; REFUSED PLACE");
}

#[test]
fn places() {
    for (command, card) in [
        ("00A40400", "A4"),
        ("00A40400", "5B"),
        ("00A40400", "61"),
        ("00A40400", "6C"),
        ("00B2010C01", "B2 07 B2"),
        ("00B2010C01", "B2 07 4D"),
        ("00B2010C02", "4D 07 6C"),
        ("00A40400016100", "61"),
        ("00A40400026162", "A4 61"),
        ("00A40400026162", "6C"),
        ("00A4040002616200", "6C"),
        ("00A4040002616200", "A4 6C"),
        ("00A4040002616200", "5B 61"),
        ("00A4040002616200", "A4 A4"),
        ("00A4040002616200", "A4 6101 C0 07 6C"),
    ] {
        let said = say(command, card);
        assert!(said.ends_with("REFUSED PLACE"), "{command} {card}: {said}");
    }
}

#[test]
fn bytes_that_are_none() {
    for byte in 0..=255u8 {
        let known = matches!(byte >> 4, 6 | 9) || byte == 0xB2 || byte == 0x4D;
        let refused = say("00B2010C00", &format!("{byte:02X}")).ends_with("REFUSED BYTE");
        assert_eq!(refused, !known, "{byte:02X}");
    }
    // Under GET RESPONSE its own INS counts, no longer the command's.
    assert!(say("00B2010C00", "6102 B2").ends_with("REFUSED BYTE"));
    assert!(say("00B2010C00", "6102 3F 01 3F 02 9000").ends_with("ANSWER 01029000"));
}

#[test]
fn limits() {
    let times = |text: &str, count: usize| text.repeat(count);
    let sixties = |a: usize, b: usize| {
        let card = format!("{} 6101 {}", times("60", a), times("60", b));
        say("00B2010C00", &card)
    };
    assert!(sixties(255, 0).ends_with("WAIT procedure"));
    assert!(sixties(100, 155).ends_with("WAIT procedure"));
    assert!(sixties(100, 156).ends_with("REFUSED MANY-60"));
    assert_eq!(say("00B2010C00", &times("60", 256)), "00B2010C00; REFUSED MANY-60");
    assert!(say("00B2010C00", &times("6101", 16)).ends_with("WAIT procedure"));
    assert!(say("00B2010C00", &format!("{} 61", times("6101", 16))).ends_with("MANY-61"));
    assert!(say("00B2010C00", "6C05 6C").ends_with("MANY-6C"));
    assert!(say("00B2010C00", "6C05 6102 6C").ends_with("MANY-6C"));
    // Too many and out of place: too many goes first.
    assert!(say("00B2010C00", "6C05 4D 07 6C").ends_with("MANY-6C"));
    // As data and as second bytes they count for nothing.
    assert!(say("00B2010C00", "6C02 B2 6C6C 61 6C C0").ends_with("WAIT data 108"));
}

#[test]
fn statuses() {
    // Part of the data, then status, '61' or nothing.
    assert!(say("00B2010C03", "4D 01 9000").ends_with("ANSWER 019000"));
    assert!(say("00B2010C03", "4D 01 6101 C0 02 6283").ends_with("ANSWER 01026283"));
    // Case 4: a warning before all data went out ends it.
    assert!(say("00A4040002616200", "5B 6283").ends_with("SEND 61; ANSWER 6283"));
    assert!(say("00A4040002616200", "6283").ends_with("ANSWER 6283"));
    for (status, goes_on) in [
        ("6200", true),
        ("63FF", true),
        ("9001", true),
        ("9100", true),
        ("9F00", true),
        ("9000", false),
        ("6A82", false),
        ("6400", false),
    ] {
        let said = say("00A4040002616200", &format!("A4 {status}"));
        let want = if goes_on {
            "SEND 00C0000000; WAIT procedure".to_string()
        } else {
            format!("ANSWER {status}")
        };
        assert!(said.ends_with(&want), "{said}");
    }
    assert!(say("00A4040002616200", "A4 6283 6A82").ends_with("ANSWER 6283"));
    assert!(say("00A4040002616200", "A4 6101 6283").ends_with("ANSWER 6283"));
    assert!(say("00B2010C00", "6283").ends_with("ANSWER 6283"));
}

#[test]
fn lengths() {
    assert!(say("00B2010C00", "B2").ends_with("WAIT data 256"));
    assert!(say("00B2010C05", "6C00 B2").ends_with("WAIT data 256"));
    assert!(say("00B2010C05", "6100 C0").ends_with("WAIT data 256"));
    assert!(say("00B2010C05", "61").ends_with("WAIT second"));
    assert_eq!(handed(&[0; 496]).len(), 496);
    assert_eq!(handed(&[0; 497]).len(), 259);
}
