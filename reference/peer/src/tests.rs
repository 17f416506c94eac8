use super::*;
use crate::tape::BLOCK;

/// The check by hand, bit by bit.
fn by_bits(bytes: &[u8]) -> u32 {
    let step = |register: u32, byte: &u8| {
        (0..8).fold(register ^ u32::from(*byte), |register, _| check::shifted(register))
    };
    !bytes.iter().fold(u32::MAX, step)
}

/// Blocks of a tape that breaks no test of a block, of these payload lengths.
fn tape(lengths: &[usize]) -> Vec<u8> {
    let mut bytes = Vec::new();
    for (number, &length) in lengths.iter().enumerate() {
        let mut block = [0; BLOCK];
        block[3] = number as u8;
        block[7] = 9;
        block[8] = 1;
        block[10..12].copy_from_slice(&(length as u16).to_be_bytes());
        block[12..12 + length].fill(0xA5);
        seal(&mut block);
        bytes.extend(block);
    }
    bytes
}

fn seal(block: &mut [u8]) {
    let check = by_bits(&block[..508]).to_be_bytes();
    block[508..512].copy_from_slice(&check);
}

/// What all of them say.
fn line(tape: &[u8]) -> String {
    let said = ordinary::judge(tape);
    assert_eq!(said, alike::judge(tape));
    if let Some(judge) = hardware::judge() {
        assert_eq!(said, judge(tape));
    }
    said.to_string()
}

#[test]
fn published_check_value() {
    assert_eq!(by_bits(b"123456789"), 0xCBF4_3926);
}

#[test]
fn every_length_is_read() {
    for length in 0..=496 {
        assert_eq!(line(&tape(&[length])), "FAIL 0 0 0", "{length}");
        assert_eq!(line(&tape(&[length, 496 - length, length])), "FAIL 0 0 0", "{length}");
    }
}

#[test]
fn every_bit_is_seen() {
    for length in [0, 1, 16, 17, 48, 49, 495, 496] {
        let good = tape(&[77, length]);
        for bit in 0..8 * BLOCK {
            let mut bytes = good.clone();
            bytes[BLOCK + bit / 8] ^= 0x80 >> (bit % 8);
            assert_eq!(line(&bytes), "UNREADABLE 1 3 0", "{length} {bit}");
        }
    }
}

#[test]
fn every_byte_behind_the_payload_is_seen() {
    for length in [0, 1, 15, 16, 17, 100, 447, 470, 495] {
        for at in 12 + length..508 {
            let mut bytes = tape(&[77, 77, length]);
            bytes[2 * BLOCK + at] = 1;
            seal(&mut bytes[2 * BLOCK..]);
            assert_eq!(line(&bytes), "UNREADABLE 2 9 0", "{length} {at}");
        }
    }
}

#[test]
fn codes() {
    let code = |at: usize, value: u8| {
        let mut bytes = tape(&[77, 5]);
        bytes[BLOCK + at] = value;
        seal(&mut bytes[BLOCK..]);
        line(&bytes)
    };
    assert_eq!(code(0, 1), "UNREADABLE 1 4 0");
    assert_eq!(code(4, 1), "UNREADABLE 1 5 0");
    assert_eq!([code(8, 0), code(8, 8)], ["UNREADABLE 1 6 0"; 2]);
    assert_eq!(code(9, 1), "UNREADABLE 1 7 0");
    assert_eq!(code(10, 2), "UNREADABLE 1 8 0");
    for (size, said) in [
        (0, "INCONCLUSIVE 0 0 0"),
        (1, "UNREADABLE 0 2 0"),
        (513, "UNREADABLE 1 2 0"),
        (524_288, "UNREADABLE 0 3 0"),
        (524_289, "UNREADABLE 0 1 0"),
    ] {
        assert_eq!(line(&vec![0; size]), said, "{size}");
    }
}
