//! A table of exchanges: the limits, long answers, all forms of a command,
//! statuses, and all bytes at every moment at which a procedure byte is due.

use super::made::Made;
use rules::hex;

fn made(command: &str, card: &str) -> Made {
    let bytes = |text: &str| hex::bytes(&text.replace(' ', "")).unwrap_or_default();
    Made { command: bytes(command), card: bytes(card) }
}

const CASE_1: &str = "00A40400";
const CASE_2: &str = "00B2010C03";
const CASE_2_ALL: &str = "00B2010C00";
const CASE_3: &str = "00A40400026162";
const CASE_4: &str = "00A4040002616200";

/// Every moment at which a procedure byte is due: a command and what the card
/// has said before.
const MOMENTS: [(&str, &str); 20] = [
    (CASE_1, ""),
    (CASE_1, "60"),
    (CASE_2, ""),
    (CASE_2, "4D07"),
    (CASE_2, "B2070809"),
    (CASE_2, "6C02"),
    (CASE_2, "6C02 4D07"),
    (CASE_2_ALL, ""),
    (CASE_2_ALL, "6102"),
    (CASE_2_ALL, "6102 3F07"),
    (CASE_2_ALL, "6102 C00708"),
    (CASE_3, ""),
    (CASE_3, "5B"),
    (CASE_3, "A4"),
    (CASE_4, ""),
    (CASE_4, "5B"),
    (CASE_4, "A4"),
    (CASE_4, "A4 6102"),
    (CASE_4, "A4 6283"),
    (CASE_4, "A4 6283 6C02 3F07"),
];

/// What may follow the byte at such a moment.
const TAILS: [&str; 4] = ["", "00 9000", "02 C00102 9000", "01 B207 6A82"];

/// Each byte at each moment, with changing tails.
fn first_bytes() -> Vec<Made> {
    let mut all = Vec::new();
    for (index, (command, before)) in MOMENTS.into_iter().enumerate() {
        for byte in 0..=255 {
            let tail = TAILS[(index + byte) % TAILS.len()];
            all.push(made(command, &format!("{before} {byte:02X} {tail}")));
        }
    }
    all
}

/// Statuses of every first byte at each moment.
fn statuses() -> Vec<Made> {
    let mut all = Vec::new();
    for (command, before) in MOMENTS {
        for first in (0x61..=0x6F).chain(0x90..=0x9F) {
            for second in ["00", "01", "83"] {
                let card = format!("{before} {first:02X}{second} 9001 6A82");
                all.push(made(command, &card));
            }
        }
    }
    all
}

/// Commands of the four cases, and of none.
fn commands() -> Vec<Made> {
    let mut all = Vec::new();
    for ins in 0..=255u8 {
        let (all_bytes, one) = (ins, !ins);
        all.push(made(&format!("00{ins:02X}0102"), "9000"));
        all.push(made(&format!("80{ins:02X}010202"), &format!("{one:02X}07{all_bytes:02X}089000")));
        all.push(made(&format!("80{ins:02X}0102020708"), &format!("{one:02X}{one:02X}9000")));
        all.push(made(&format!("FF{ins:02X}010201077F"), &format!("{all_bytes:02X}6101C0019000")));
    }
    for lc in [0, 1, 2, 3, 4, 127, 128, 254, 255] {
        for size in [0, 1, lc.max(1) - 1, lc, lc + 1, lc + 2, 255, 256, 257] {
            let command = format!("00A40400{lc:02X}{}", "5A".repeat(size));
            all.push(made(&command, "A4 6283 9000"));
        }
    }
    for size in 0..4 {
        all.push(made(&"00".repeat(size), "9000"));
        all.push(made(&"60".repeat(size), "9000"));
    }
    all.push(made("009004000000", "9000"));
    all
}

/// The limits on procedure bytes, at once and over several headers.
fn limits() -> Vec<Made> {
    let times = |text: &str, count: usize| text.repeat(count);
    let mut all = Vec::new();
    for (command, before, between) in [
        (CASE_1, "", ""),
        (CASE_2, "", "4D07"),
        (CASE_2, "6C02", "6102"),
        (CASE_2_ALL, "", "6102"),
        (CASE_3, "", "5B"),
        (CASE_4, "A4", "6102"),
        (CASE_4, "A4", "6283"),
    ] {
        for (first, second) in [(254, 0), (255, 0), (256, 0), (1, 254), (100, 155), (100, 156)] {
            let (first, second) = (times("60", first), times("60", second));
            all.push(made(command, &format!("{before} {first} {between} {second} 9000")));
        }
    }
    for (command, before) in
        [(CASE_2, ""), (CASE_2_ALL, "6C02"), (CASE_4, "A4"), (CASE_4, "A46283")]
    {
        for count in [15, 16, 17] {
            for one in ["6101", "6101 C007", "61 61 3F61"] {
                all.push(made(command, &format!("{before} {} 9000", times(one, count))));
            }
        }
    }
    for card in [
        "6C02 6C02 9000",
        "6C02 4D07 6C02 9000",
        "6C02 6102 6C02 9000",
        "6102 6C01 C007 9000",
        "6102 6C01 6C01 9000",
        "6102 6C01 6102 6C01 9000",
        "6C6C B2",
        "6C60 B2",
        "6C00 B2",
        "6102 C06C6C 6C02 C06C6C 9000",
    ] {
        all.push(made(CASE_2, card));
        all.push(made(CASE_4, &format!("A4 {card}")));
        all.push(made(CASE_4, &format!("A4 6283 {card}")));
    }
    all
}

/// Answers of many lengths, up to the longest there can be.
fn long_answers() -> Vec<Made> {
    let data = |size: usize| "07".repeat(size);
    let mut all = Vec::new();
    for size in [1, 2, 127, 128, 237, 238, 239, 240, 254, 255, 256] {
        let length = size % 256;
        let first = data(256);
        all.push(made(CASE_2_ALL, &format!("6C{length:02X} B2{} 9000", data(size))));
        all.push(made(CASE_2_ALL, &format!("B2{first} 61{length:02X} C0{} 9000", data(size))));
        all.push(made(CASE_4, &format!("A4 6283 C0{first} 61{length:02X} C0{}9000", data(size))));
    }
    for count in [2, 3, 16] {
        let one = format!("6100C0{}", data(256));
        all.push(made(CASE_2_ALL, &format!("B2{}{}9000", data(256), one.repeat(count))));
        all.push(made(CASE_4, &format!("A4{}6200", one.repeat(count))));
    }
    all
}

pub fn fixed() -> Vec<Made> {
    [limits(), long_answers(), commands(), statuses(), first_bytes()].concat()
}

#[cfg(test)]
mod tests {
    use super::*;

    #[test]
    fn fixed_ones_read() {
        // A slip in the texts above would leave commands without bytes.
        assert!(fixed().iter().filter(|m| m.command.is_empty()).count() <= 2);
    }
}
