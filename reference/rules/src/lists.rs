//! Object lists: what the card asks to be sent to it (01, "The commands";
//! 000, II-1.4).

use crate::objects::read_tag;

/// The bytes asked for by one list may not be more than this.
pub const MOST_ASKED: usize = 252;

/// How a value is brought to the length asked for.
#[derive(Clone, Copy, Debug, PartialEq, Eq)]
enum Format {
    /// Keeps its right end; zeros go in front.
    Numeric,
    /// Keeps its left end; bytes of 'FF' go behind.
    Account,
    /// Keeps its left end; zeros go behind.
    Plain,
}

fn format_of(tag: u16) -> Format {
    match tag {
        0x9F02 | 0x9F03 | 0x9F1A | 0x5F2A | 0x9A | 0x9C | 0x5F24 | 0x5F25 => Format::Numeric,
        0x5A => Format::Account,
        _ => Format::Plain,
    }
}

/// The values a list can draw on at one moment. What is not in it gives zeros.
#[derive(Default)]
pub struct Known<'a> {
    pairs: Vec<(u16, &'a [u8])>,
}

impl<'a> Known<'a> {
    pub fn add(&mut self, tag: u16, value: &'a [u8]) {
        self.pairs.push((tag, value));
    }

    pub fn add_if(&mut self, tag: u16, value: Option<&'a [u8]>) {
        if let Some(value) = value {
            self.add(tag, value);
        }
    }

    fn get(&self, tag: u16) -> Option<&'a [u8]> {
        self.pairs.iter().find(|pair| pair.0 == tag).map(|pair| pair.1)
    }
}

/// The tags and lengths of a list, or nothing if it is malformed or asks for
/// too much. Unlike lists of objects these know no padding, so a
/// '00' spoils them.
fn read(mut list: &[u8]) -> Option<Vec<(u16, usize)>> {
    let mut wishes = Vec::new();
    let mut total = 0;
    while !list.is_empty() {
        let (tag, size) = read_tag(list)?;
        let length = usize::from(*list.get(size)?);
        total += length;
        wishes.push((tag, length));
        list = &list[size + 1..];
    }
    (total <= MOST_ASKED).then_some(wishes)
}

/// The value brought to `length` bytes, added to `out`.
fn fit(tag: u16, value: &[u8], length: usize, out: &mut Vec<u8>) {
    let format = format_of(tag);
    let missing = length.saturating_sub(value.len());
    let kept = length - missing;
    match format {
        Format::Numeric => {
            out.extend(std::iter::repeat_n(0x00, missing));
            out.extend_from_slice(&value[value.len() - kept..]);
        }
        Format::Account => {
            out.extend_from_slice(&value[..kept]);
            out.extend(std::iter::repeat_n(0xFF, missing));
        }
        Format::Plain => {
            out.extend_from_slice(&value[..kept]);
            out.extend(std::iter::repeat_n(0x00, missing));
        }
    }
}

/// A list that was filled.
#[derive(Clone, Debug, PartialEq, Eq)]
pub struct Filled {
    pub data: Vec<u8>,
    /// How many entries had no value to draw on (02, R-6). Those that ask for
    /// no bytes count like all others; a value of zeros is a value.
    pub unsupplied: usize,
}

/// The data a list asks for, or nothing where 01 has reason 9.
pub fn fill(list: &[u8], known: &Known) -> Option<Filled> {
    let mut filled = Filled { data: Vec::new(), unsupplied: 0 };
    for (tag, length) in read(list)? {
        match known.get(tag) {
            Some(value) => fit(tag, value, length, &mut filled.data),
            None => {
                filled.data.extend(std::iter::repeat_n(0x00, length));
                filled.unsupplied += 1;
            }
        }
    }
    Some(filled)
}

#[cfg(test)]
mod tests {
    use super::*;

    fn one(list: &[u8], tag: u16, value: &[u8]) -> Option<Vec<u8>> {
        let mut known = Known::default();
        known.add(tag, value);
        fill(list, &known).map(|filled| filled.data)
    }

    /// How many entries go unsupplied if only 9F03 is known, as zeros.
    fn unsupplied(list: &[u8]) -> Option<usize> {
        let mut known = Known::default();
        known.add(0x9F03, &[0; 6]);
        fill(list, &known).map(|filled| filled.unsupplied)
    }

    #[test]
    fn case_e_amount_cut_on_the_left() {
        let amount = [0x00, 0x00, 0x00, 0x00, 0x75, 0x00];
        let cut = one(&[0x9F, 0x02, 0x04], 0x9F02, &amount);
        assert_eq!(cut, Some(vec![0x00, 0x00, 0x75, 0x00]));
    }

    #[test]
    fn case_f_number_cut_on_the_right() {
        let number = [0x11, 0x22, 0x33, 0x44];
        let cut = one(&[0x9F, 0x37, 0x02], 0x9F37, &number);
        assert_eq!(cut, Some(vec![0x11, 0x22]));
    }

    #[test]
    fn filling_up() {
        assert_eq!(one(&[0x9C, 3], 0x9C, &[7]), Some(vec![0, 0, 7]));
        assert_eq!(one(&[0x5A, 3], 0x5A, &[0x12]), Some(vec![0x12, 0xFF, 0xFF]));
        assert_eq!(one(&[0x5A, 1], 0x5A, &[0x12, 0x3F]), Some(vec![0x12]));
        assert_eq!(one(&[0x95, 6], 0x95, &[1, 2, 3, 4, 5]), Some(vec![1, 2, 3, 4, 5, 0]));
        assert_eq!(one(&[0x5A, 2], 0x9C, &[7]), Some(vec![0, 0]));
        assert_eq!(one(&[0x9C, 1, 0x9C, 0, 0x9C, 1], 0x9C, &[7]), Some(vec![7, 7]));
        assert_eq!(one(&[0x70, 2], 0x9C, &[7]), Some(vec![0, 0]));
    }

    #[test]
    fn malformed_or_too_much() {
        assert_eq!(one(&[], 0x9C, &[7]), Some(vec![]));
        assert_eq!(one(&[0x00], 0x9C, &[7]), None);
        assert_eq!(one(&[0x9C], 0x9C, &[7]), None);
        assert_eq!(one(&[0x9F, 0x80, 1], 0x9C, &[7]), None);
        assert_eq!(one(&[0x9F], 0x9C, &[7]), None);
        assert_eq!(one(&[0x9C, 1, 0x00, 0x00], 0x9C, &[7]), None);
        assert_eq!(one(&[0x9B, 0x81], 0x9C, &[7]), Some(vec![0; 129]));
        assert_eq!(one(&[0x9B, 252], 0x9C, &[7]), Some(vec![0; 252]));
        assert_eq!(one(&[0x9B, 253], 0x9C, &[7]), None);
        assert_eq!(one(&[0x9B, 200, 0x82, 53], 0x9C, &[7]), None);
    }

    #[test]
    fn entries_without_a_value_are_counted() {
        assert_eq!(unsupplied(&[]), Some(0));
        assert_eq!(unsupplied(&[0x9F, 0x03, 6]), Some(0));
        assert_eq!(unsupplied(&[0x9F, 0x03, 0, 0x9F, 0x03, 2, 0x9F, 0x03, 9]), Some(0));
        assert_eq!(unsupplied(&[0x9F, 0x02, 6]), Some(1));
        assert_eq!(unsupplied(&[0x9F, 0x02, 0]), Some(1));
        assert_eq!(unsupplied(&[0x9C, 1, 0x9C, 1, 0x9F, 0x03, 1, 0x70, 3]), Some(3));
        assert_eq!(unsupplied(&[0x9C, 252, 0x9C, 1]), None);
        assert_eq!(unsupplied(&[0x9C, 1, 0x00]), None);
        assert_eq!(unsupplied(&[0x9C, 0].repeat(126)), Some(126));
    }
}
