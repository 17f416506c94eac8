//! Terminal data to try things with, here and in the crates above.

use crate::terminal::{CHOOSING_SIZE, FORMER_SIZE, START_SIZE};

/// A small valid START: type 2, amount 7500, floor 10000, all means of
/// verification.
pub fn sample() -> [u8; START_SIZE] {
    let mut b = [0; START_SIZE];
    b[74..].copy_from_slice(&[0x60, 0xE0, 0x00]);
    b[0] = 2;
    b[5] = 0x75;
    b[17..20].copy_from_slice(&[0x26, 0x07, 0x15]);
    b[21..25].copy_from_slice(&[0x11, 0x22, 0x33, 0x44]);
    b[28] = 0x01;
    b[31] = 40;
    b[32] = 10;
    b[37] = 0x50;
    b[39] = 70;
    b[57] = 5;
    b[58..63].copy_from_slice(&[0xA0, 0, 0, 0, 3]);
    b
}

/// The same without capabilities.
pub fn former() -> Vec<u8> {
    sample()[..FORMER_SIZE].to_vec()
}

/// The same with a list of two, of which the second is partial; the shopper
/// can choose (02, R-12).
pub fn listed() -> [u8; CHOOSING_SIZE] {
    let mut b = [0; CHOOSING_SIZE];
    b[..57].copy_from_slice(&sample()[..57]);
    b[57] = 2;
    for (at, provider) in [(58, 3), (76, 4)] {
        b[at] = 5;
        b[at + 1..at + 6].copy_from_slice(&[0xA0, 0, 0, 0, provider]);
    }
    b[93] = 1;
    b[202..205].copy_from_slice(&sample()[74..]);
    (b[205], b[206]) = (1, 1);
    b
}
