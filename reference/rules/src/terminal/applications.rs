//! The applications that a terminal supports: one AID in 01, a list of them
//! since 02, R-12.

/// The sizes that the name of an application can have (01; 001, 12.2.1).
pub const NAME_SIZES: std::ops::RangeInclusive<usize> = 5..=16;
const LONGEST_NAME: usize = 16;

/// 02, R-12: from byte 57 of START on there stand the count, eight fields and,
/// behind the capabilities, whether the shopper can choose and the edition.
const FIELDS: usize = 8;
const FIELD: usize = 1 + LONGEST_NAME + 1;
const EDITION: u8 = 1;

#[derive(Clone, Debug, PartialEq, Eq)]
pub enum Applications {
    /// It is selected by its name, and nothing is asked before (01).
    One(Vec<u8>),
    /// They are looked for on the card (02, R-12).
    Listed(Supported),
}

/// The terminal's list of applications, and who chooses among them.
#[derive(Clone, Debug, PartialEq, Eq)]
pub struct Supported {
    pub aids: Vec<Aid>,
    pub shopper_can_choose: bool,
}

/// One application of the list.
#[derive(Clone, Debug, PartialEq, Eq)]
pub struct Aid {
    pub name: Vec<u8>,
    /// Names that begin with it match too (001, 12.3.1: the Application
    /// Selection Indicator).
    pub is_partial: bool,
}

impl Aid {
    pub fn matches(&self, name: &[u8]) -> bool {
        name == self.name || (self.is_partial && name.starts_with(&self.name))
    }

    /// Nothing unless the field is a used one and as 02, R-12 has it.
    fn read(field: &[u8]) -> Option<Aid> {
        let (&rule, name) = field.split_last()?;
        let name = read_name(name)?;
        (rule <= 1).then_some(Aid { name, is_partial: rule == 1 })
    }
}

/// A length, 5 to 16, and 16 bytes: a name of that length and zeros.
fn read_name(bytes: &[u8]) -> Option<Vec<u8>> {
    let (&size, bytes) = bytes.split_first()?;
    let size = usize::from(size);
    if !NAME_SIZES.contains(&size) || bytes.len() != LONGEST_NAME {
        return None;
    }
    let (name, rest) = bytes.split_at(size);
    rest.iter().all(|&zero| zero == 0).then(|| name.to_vec())
}

/// The end of a START in its parts: applications and capabilities.
pub type Rest = (Applications, Option<[u8; 3]>);

/// Bytes 57 to 73, and 74 to 76 where there are capabilities (02, R-7).
pub fn read_one(rest: &[u8]) -> Option<Rest> {
    let (aid, capabilities) = rest.split_at_checked(1 + LONGEST_NAME)?;
    let capabilities = match *capabilities {
        [] => None,
        [a, b, c] => Some([a, b, c]),
        _ => return None,
    };
    Some((Applications::One(read_name(aid)?), capabilities))
}

/// Bytes 57 to 206 of a START with a list (02, R-12).
pub fn read_listed(rest: &[u8]) -> Option<Rest> {
    let (&count, rest) = rest.split_first()?;
    let (fields, rest) = rest.split_at_checked(FIELDS * FIELD)?;
    let count = usize::from(count);
    if !(1..=FIELDS).contains(&count) {
        return None;
    }
    let (used, unused) = fields.split_at(count * FIELD);
    let aids: Option<Vec<Aid>> = used.chunks(FIELD).map(Aid::read).collect();
    let supported = match *rest {
        [_, _, _, choosing @ 0..=1, EDITION] if unused.iter().all(|&zero| zero == 0) => {
            Supported { aids: aids?, shopper_can_choose: choosing == 1 }
        }
        _ => return None,
    };
    Some((Applications::Listed(supported), Some([rest[0], rest[1], rest[2]])))
}
