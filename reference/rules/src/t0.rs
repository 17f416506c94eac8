//! The T=0 layer: one command and its answer, a card byte at a time (02, R-4;
//! 000, I-5.2.2, I-5.3.1, I-5.4 and Annex A).

/// Most of each kind of procedure byte in one command, over all its headers.
const MOST_60: usize = 255;
const MOST_61: usize = 16;
const MOST_6C: usize = 1;

/// A session takes answers up to the first length; of a longer one it gets
/// the beginning, which is too long as well (01, reason 1).
const LONGEST_HANDED: usize = 496;
const HANDED_OF_LONGER: usize = 259;

const GET_RESPONSE: [u8; 4] = [0x00, 0xC0, 0x00, 0x00];

/// Refusals by name. COMMAND and INS are of the command, the others of a card
/// byte.
pub const COMMAND: &str = "COMMAND";
pub const INS: &str = "INS";
pub const BYTE: &str = "BYTE";
pub const PLACE: &str = "PLACE";
pub const MANY_60: &str = "MANY-60";
pub const MANY_61: &str = "MANY-61";
pub const MANY_6C: &str = "MANY-6C";

/// The four cases of 000, Table I-29.
#[derive(Clone, Copy, Debug, PartialEq, Eq)]
pub enum Case {
    One,
    Two,
    Three,
    Four,
}

/// What the layer waits for.
#[derive(Clone, Copy, Debug, PartialEq, Eq)]
pub enum Wait {
    /// A procedure byte or the first status byte.
    Procedure,
    /// The byte behind '61', '6C' or the first status byte, which is given.
    Second(u8),
    /// So many bytes of data.
    Data(usize),
    /// Nothing: the exchange is over.
    Nothing,
}

/// What follows from a byte of the card.
#[derive(Clone, Debug, PartialEq, Eq)]
pub enum Step {
    /// Nothing to be done but to wait on.
    Wait,
    Send(Vec<u8>),
    /// Data and status, assembled.
    Answer(Vec<u8>),
    Refused(&'static str),
}

/// Where the bytes of a header go.
#[derive(Clone, Copy, Debug, PartialEq, Eq)]
enum Way {
    ToCard,
    FromCard,
}

/// One exchange under way.
#[derive(Clone, Debug)]
pub struct Exchange {
    case: Case,
    /// The header sent last, and whether it is the command's own.
    header: [u8; 5],
    own: bool,
    way: Way,
    /// Bytes of this header that are still to be moved, and those that came.
    left: usize,
    came: usize,
    /// The command's data, and what the card has sent.
    data: Vec<u8>,
    answer: Vec<u8>,
    /// The first status of a case 4 command where it was a warning.
    trailer: Option<[u8; 2]>,
    /// How many '60', '61' and '6C' have come.
    counts: [usize; 3],
    wait: Wait,
}

/// The case of a command and its data, or nothing if it is none of the four.
fn take_apart(command: &[u8]) -> Option<(Case, &[u8])> {
    let size = command.len();
    match size {
        0..=3 => None,
        4 => Some((Case::One, &[])),
        5 => Some((Case::Two, &[])),
        _ => {
            let lc = usize::from(command[4]);
            match (lc, size - 5) {
                (0, _) => None,
                (_, rest) if rest == lc => Some((Case::Three, &command[5..])),
                (_, rest) if rest == lc + 1 => Some((Case::Four, &command[5..5 + lc])),
                _ => None,
            }
        }
    }
}

/// A length byte for data from the card: 0 asks for 256.
fn asked(length: u8) -> usize {
    if length == 0 {
        256
    } else {
        usize::from(length)
    }
}

impl Exchange {
    /// Begins with a command; the header is to be sent first.
    pub fn begin(command: &[u8]) -> Result<Exchange, &'static str> {
        let (case, data) = take_apart(command).ok_or(COMMAND)?;
        let (class, ins) = (command[0], command[1]);
        if matches!(ins >> 4, 0x6 | 0x9) {
            return Err(INS);
        }
        // P3 is Le or Lc, and zero in case 1 (000, I-5.3.1.1.1 to 4).
        let p3 = command.get(4).copied().unwrap_or(0);
        let (way, left) = match case {
            Case::One => (Way::ToCard, 0),
            Case::Two => (Way::FromCard, asked(p3)),
            Case::Three | Case::Four => (Way::ToCard, data.len()),
        };
        Ok(Exchange {
            case,
            header: [class, ins, command[2], command[3], p3],
            own: true,
            way,
            left,
            came: 0,
            data: data.to_vec(),
            answer: Vec::new(),
            trailer: None,
            counts: [0; 3],
            wait: Wait::Procedure,
        })
    }

    pub fn header(&self) -> [u8; 5] {
        self.header
    }

    pub fn wait(&self) -> Wait {
        self.wait
    }

    pub fn case(&self) -> Case {
        self.case
    }

    /// One byte of the card. None is to be handed in when nothing is waited
    /// for; it would change nothing.
    pub fn byte(&mut self, byte: u8) -> Step {
        let step = match self.wait {
            Wait::Procedure => self.procedure(byte),
            Wait::Data(count) => {
                self.answer.push(byte);
                self.left -= 1;
                self.came += 1;
                self.wait = if count == 1 { Wait::Procedure } else { Wait::Data(count - 1) };
                Step::Wait
            }
            Wait::Second(0x61) => self.get_response(byte),
            Wait::Second(0x6C) => self.again(byte),
            Wait::Second(first) => self.status([first, byte]),
            Wait::Nothing => Step::Wait,
        };
        if matches!(step, Step::Answer(_) | Step::Refused(_)) {
            self.wait = Wait::Nothing;
        }
        step
    }

    /// A procedure byte or the first status byte (000, Tables I-20 and I-21).
    /// INS is never '6x' or '9x', nor then is its complement.
    fn procedure(&mut self, byte: u8) -> Step {
        let ins = self.header[1];
        match byte {
            0x60 => self.counted(0, MOST_60, MANY_60),
            _ if byte == ins || byte == !ins => self.moved(byte == ins),
            0x61 if self.response_misplaced() => Step::Refused(PLACE),
            0x61 => self.second(byte, 1, MOST_61, MANY_61),
            0x6C if self.counts[2] < MOST_6C && self.again_misplaced() => Step::Refused(PLACE),
            0x6C => self.second(byte, 2, MOST_6C, MANY_6C),
            0x62..=0x6F | 0x90..=0x9F => {
                self.wait = Wait::Second(byte);
                Step::Wait
            }
            _ => Step::Refused(BYTE),
        }
    }

    /// Counts a procedure byte, or refuses it as one too many.
    fn counted(&mut self, which: usize, most: usize, name: &'static str) -> Step {
        if self.counts[which] == most {
            return Step::Refused(name);
        }
        self.counts[which] += 1;
        Step::Wait
    }

    fn second(&mut self, byte: u8, which: usize, most: usize, name: &'static str) -> Step {
        let step = self.counted(which, most, name);
        if step == Step::Wait {
            self.wait = Wait::Second(byte);
        }
        step
    }

    /// '61' is for data from the card: not in cases 1 and 3, and in case 4
    /// once the command's data has gone out (000, I-5.3.1.2).
    fn response_misplaced(&self) -> bool {
        match self.case {
            Case::One | Case::Three => true,
            Case::Two => false,
            Case::Four => self.own && self.left > 0,
        }
    }

    /// '6C' is for a header that asks for data, before any has come.
    fn again_misplaced(&self) -> bool {
        (self.own && self.case != Case::Two) || self.came > 0
    }

    /// INS moves all that is left, its complement one byte.
    fn moved(&mut self, all: bool) -> Step {
        if self.left == 0 {
            return Step::Refused(PLACE);
        }
        let count = if all { self.left } else { 1 };
        match self.way {
            Way::FromCard => {
                self.wait = Wait::Data(count);
                Step::Wait
            }
            Way::ToCard => {
                let from = self.data.len() - self.left;
                self.left -= count;
                Step::Send(self.data[from..from + count].to_vec())
            }
        }
    }

    /// Sends a header that asks for data.
    fn ask(&mut self, header: [u8; 5]) -> Step {
        self.header = header;
        self.way = Way::FromCard;
        self.left = asked(header[4]);
        self.came = 0;
        self.wait = Wait::Procedure;
        Step::Send(header.to_vec())
    }

    fn get_response(&mut self, length: u8) -> Step {
        self.own = false;
        let [class, ins, p1, p2] = GET_RESPONSE;
        self.ask([class, ins, p1, p2, length])
    }

    /// The same header with another length.
    fn again(&mut self, length: u8) -> Step {
        let [class, ins, p1, p2, _] = self.header;
        self.ask([class, ins, p1, p2, length])
    }

    fn status(&mut self, status: [u8; 2]) -> Step {
        let warning = match status {
            [0x90, 0x00] => false,
            [first, _] => matches!(first, 0x62 | 0x63 | 0x90..=0x9F),
        };
        // Case 4, with the command's data gone out: the data that belongs to
        // a warning is fetched (000, I-5.3.1.1.4, step 4b, and A7).
        if self.case == Case::Four && self.own && self.left == 0 && warning {
            self.trailer = Some(status);
            return self.get_response(0x00);
        }
        // The first status is the one that counts.
        let mut answer = std::mem::take(&mut self.answer);
        answer.extend(self.trailer.unwrap_or(status));
        Step::Answer(answer)
    }
}

/// What a session is given of an answer.
pub fn handed(answer: &[u8]) -> &[u8] {
    if answer.len() <= LONGEST_HANDED {
        answer
    } else {
        &answer[..HANDED_OF_LONGER]
    }
}

#[cfg(test)]
mod tests;
