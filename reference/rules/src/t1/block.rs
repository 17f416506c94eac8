//! Blocks of T=1: prologue, information field, epilogue (02, R-10; 000,
//! I-5.2.4.1).

use std::ops::Range;

/// Bytes before and behind the information field.
const PROLOGUE: usize = 3;
const AROUND: usize = PROLOGUE + 1;

/// Error codes that an R-block carries (000, Table I-24).
pub const NO_ERROR: u8 = 0;
pub const CHECK_ERROR: u8 = 1;
pub const OTHER_ERROR: u8 = 2;

/// What S-blocks are about (000, Table I-25).
#[derive(Clone, Copy, Debug, PartialEq, Eq)]
pub enum Topic {
    Resynch,
    Ifs,
    Abort,
    Wtx,
}

impl Topic {
    fn of(bits: u8) -> Option<Topic> {
        match bits {
            0 => Some(Topic::Resynch),
            1 => Some(Topic::Ifs),
            2 => Some(Topic::Abort),
            3 => Some(Topic::Wtx),
            _ => None,
        }
    }

    fn bits(self) -> u8 {
        match self {
            Topic::Resynch => 0,
            Topic::Ifs => 1,
            Topic::Abort => 2,
            Topic::Wtx => 3,
        }
    }

    pub fn name(self) -> &'static str {
        match self {
            Topic::Resynch => "RESYNCH",
            Topic::Ifs => "IFS",
            Topic::Abort => "ABORT",
            Topic::Wtx => "WTX",
        }
    }

    /// How long the information field of such a block is.
    fn inf_size(self) -> usize {
        match self {
            Topic::Ifs | Topic::Wtx => 1,
            Topic::Resynch | Topic::Abort => 0,
        }
    }
}

/// What the protocol control byte says.
#[derive(Clone, Copy, Debug, PartialEq, Eq)]
pub enum Control {
    /// Conveys a part of a message; `more` follow or not.
    I {
        number: u8,
        more: bool,
    },
    /// Acknowledges, or asks for the I-block with this number.
    R {
        number: u8,
        error: u8,
    },
    S {
        topic: Topic,
        response: bool,
    },
}

impl Control {
    fn read(byte: u8) -> Option<Control> {
        match byte >> 6 {
            0 | 1 => {
                let more = byte & 0x20 != 0;
                (byte & 0x1F == 0).then_some(Control::I { number: byte >> 6, more })
            }
            2 => {
                let number = byte >> 4 & 1;
                (byte & 0x20 == 0).then_some(Control::R { number, error: byte & 0x0F })
            }
            _ => {
                let response = byte & 0x20 != 0;
                Topic::of(byte & 0x1F).map(|topic| Control::S { topic, response })
            }
        }
    }

    fn byte(self) -> u8 {
        match self {
            Control::I { number, more } => number << 6 | u8::from(more) << 5,
            Control::R { number, error } => 0x80 | number << 4 | error,
            Control::S { topic, response } => 0xC0 | u8::from(response) << 5 | topic.bits(),
        }
    }

    /// What is wrong with an information field of this size, if anything is;
    /// `ifs` is the most that an I-block may have.
    fn fault_of_inf(self, size: usize, ifs: usize) -> Option<&'static str> {
        match self {
            Control::I { .. } if size == 0 => Some("empty"),
            Control::I { .. } if size > ifs => Some("ifs"),
            Control::R { .. } if size > 0 => Some("inf"),
            Control::S { topic, .. } if size != topic.inf_size() => Some("inf"),
            _ => None,
        }
    }
}

/// A valid block; the information field is a part of it.
#[derive(Clone, Copy, Debug, PartialEq, Eq)]
pub struct Block<'a> {
    pub control: Control,
    pub inf: &'a [u8],
}

impl Block<'_> {
    /// Where the information field stands in the block.
    pub fn inf_place(&self) -> Range<usize> {
        PROLOGUE..PROLOGUE + self.inf.len()
    }
}

/// Why a block is invalid, and the code that an R-block gives for it.
#[derive(Clone, Copy, Debug, PartialEq, Eq)]
pub struct Invalid {
    pub code: u8,
    pub why: &'static str,
}

/// All bytes joined by exclusive or: nothing, where the last one is the LRC.
fn lrc(bytes: &[u8]) -> u8 {
    bytes.iter().fold(0, |sum, byte| sum ^ byte)
}

/// A received block, for a receiver that takes `ifs` bytes. The tests have an
/// order: number of characters, LRC, LEN, NAD, PCB, information field.
pub fn read(bytes: &[u8], ifs: usize) -> Result<Block<'_>, Invalid> {
    let other = |why| Invalid { code: OTHER_ERROR, why };
    let announced = bytes.get(2).map(|&len| AROUND + usize::from(len));
    match announced {
        Some(size) if bytes.len() > size => return Err(other("over")),
        Some(size) if bytes.len() == size => (),
        _ => return Err(other("under")),
    }
    if lrc(bytes) != 0 {
        return Err(Invalid { code: CHECK_ERROR, why: "edc" });
    }
    if bytes[2] == 0xFF {
        return Err(other("len"));
    }
    if bytes[0] != 0x00 {
        return Err(other("nad"));
    }
    let control = Control::read(bytes[1]).ok_or(other("pcb"))?;
    let inf = &bytes[PROLOGUE..bytes.len() - 1];
    match control.fault_of_inf(inf.len(), ifs) {
        Some(why) => Err(other(why)),
        None => Ok(Block { control, inf }),
    }
}

/// A block to be sent; the information field has 254 bytes at most.
pub fn write(control: Control, inf: &[u8]) -> Vec<u8> {
    let mut block = vec![0x00, control.byte(), inf.len() as u8];
    block.extend_from_slice(inf);
    block.push(lrc(&block));
    block
}

/// A message as chained blocks for a receiver that takes `ifs` bytes, the first
/// with this number (000, I-5.2.4.4).
pub fn cut(message: &[u8], ifs: usize, number: u8) -> Vec<Vec<u8>> {
    let parts = message.len().div_ceil(ifs);
    let block = |(index, inf): (usize, &[u8])| {
        let number = (number + (index % 2) as u8) % 2;
        write(Control::I { number, more: index + 1 < parts }, inf)
    };
    message.chunks(ifs).enumerate().map(block).collect()
}

#[cfg(test)]
mod tests {
    use super::*;
    use crate::hex;

    fn judged(text: &str, ifs: usize) -> Result<(Control, usize), (u8, &'static str)> {
        let bytes = hex::bytes(text).unwrap();
        read(&bytes, ifs)
            .map(|block| (block.control, block.inf.len()))
            .map_err(|invalid| (invalid.code, invalid.why))
    }

    #[test]
    fn valid_blocks() {
        let i = |number, more| Control::I { number, more };
        let s = |topic, response| Control::S { topic, response };
        assert_eq!(judged("0000010706", 254), Ok((i(0, false), 1)));
        assert_eq!(judged("0060010766", 1), Ok((i(1, true), 1)));
        assert_eq!(judged("00920092", 1), Ok((Control::R { number: 1, error: 2 }, 0)));
        assert_eq!(judged("008F008F", 1), Ok((Control::R { number: 0, error: 15 }, 0)));
        assert_eq!(judged("00C101FE3E", 1), Ok((s(Topic::Ifs, false), 1)));
        assert_eq!(judged("00E30100E2", 1), Ok((s(Topic::Wtx, true), 1)));
        assert_eq!(judged("00C200C2", 1), Ok((s(Topic::Abort, false), 0)));
    }

    #[test]
    fn invalid_blocks_in_the_order_of_tests() {
        for (text, fault) in [
            ("", (2, "under")),
            ("0000", (2, "under")),
            ("000000", (2, "under")),
            ("21810101", (2, "under")),
            ("2181000101", (2, "over")),
            ("21810021", (1, "edc")),
            ("218100A0", (2, "nad")),
            ("00810081", (0, "")),
            ("00A000A0", (2, "pcb")),
            ("0001010700", (1, "edc")),
            ("0001010707", (2, "pcb")),
            ("00C400C4", (2, "pcb")),
            ("00FF00FF", (2, "pcb")),
            ("00000000", (2, "empty")),
            ("0000020708 0D".replace(' ', "").as_str(), (2, "ifs")),
            ("0080010786", (2, "inf")),
            ("00C100C1", (2, "inf")),
            ("00C2010 1C2".replace(' ', "").as_str(), (2, "inf")),
        ] {
            let expected = if fault.0 == 0 { None } else { Some(fault) };
            assert_eq!(judged(text, 1).err(), expected, "{text}");
        }
        let mut long = vec![0x21, 0x01, 0xFF];
        long.resize(258, 0);
        assert_eq!(read(&long, 254).unwrap_err().why, "under");
        long.push(lrc(&long));
        assert_eq!(read(&long, 254).unwrap_err().why, "len");
    }

    #[test]
    fn what_is_written_is_valid() {
        for byte in 0..=0xFF {
            let Some(control) = Control::read(byte) else { continue };
            assert_eq!(control.byte(), byte);
            let size = match control {
                Control::I { .. } => 254,
                Control::R { .. } => 0,
                Control::S { topic, .. } => topic.inf_size(),
            };
            let block = write(control, &vec![byte; size]);
            let read = read(&block, 254).unwrap();
            assert_eq!((read.control, read.inf.len()), (control, size));
            assert_eq!(read.inf, &block[read.inf_place()]);
        }
    }

    /// 02, R-10: cut and put together again it is the same, for every IFS.
    #[test]
    fn cutting() {
        let message: Vec<u8> = (0..=255).chain(0..5).collect();
        for ifs in 1..=254 {
            for size in [1, ifs - 1, ifs, ifs + 1, 2 * ifs, 261] {
                let message = &message[..size.clamp(1, 261)];
                let mut whole = Vec::new();
                let blocks = cut(message, ifs, 1);
                for (index, bytes) in blocks.iter().enumerate() {
                    let block = read(bytes, ifs).unwrap();
                    let (number, more) = (1 - (index % 2) as u8, index + 1 < blocks.len());
                    assert_eq!(block.control, Control::I { number, more });
                    assert!(!more || block.inf.len() == ifs);
                    whole.extend_from_slice(block.inf);
                }
                assert_eq!(whole, message);
            }
        }
    }
}
