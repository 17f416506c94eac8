//! The commands that a terminal gives (01, "The commands"; 001, 11.3).

use crate::decide::Cryptogram;
use crate::objects::length_bytes;

/// P2 of SELECT: the first application of the name, or the next one (02, R-12).
pub const FIRST: u8 = 0x00;
pub const NEXT: u8 = 0x02;

pub fn select_command(name: &[u8], occurrence: u8) -> Vec<u8> {
    let mut command = vec![0x00, 0xA4, 0x04, occurrence, name.len() as u8];
    command.extend_from_slice(name);
    command.push(0x00);
    command
}

/// READ RECORD; the reference names the file.
pub fn record_command(record: u8, reference: u8) -> Vec<u8> {
    vec![0x00, 0xB2, record, reference, 0x00]
}

/// GET PROCESSING OPTIONS: the data goes in an object of its own, tag 83.
pub fn options_command(data: &[u8]) -> Vec<u8> {
    let length = length_bytes(data.len());
    let mut command = vec![0x80, 0xA8, 0x00, 0x00, (1 + length.len() + data.len()) as u8, 0x83];
    command.extend(length);
    command.extend_from_slice(data);
    command.push(0x00);
    command
}

/// GENERATE AC: without data there is no length byte before it either.
pub fn generate_command(asked: Cryptogram, data: &[u8]) -> Vec<u8> {
    let mut command = vec![0x80, 0xAE, asked.parameter(), 0x00];
    if !data.is_empty() {
        command.push(data.len() as u8);
        command.extend_from_slice(data);
    }
    command.push(0x00);
    command
}
