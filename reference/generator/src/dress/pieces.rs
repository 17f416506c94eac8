//! Objects together with what a reader passes over: '00' bytes, and how long
//! each length is written (02, R-13). What is read is written again byte by
//! byte as it was.

use rules::objects::{is_constructed, length_bytes, read_object, read_tag};

/// One object.
#[derive(Clone, Debug, PartialEq, Eq)]
pub struct Piece {
    /// '00' bytes before it.
    pub zeros: usize,
    pub tag: u16,
    /// Bytes that the length takes at the least: 1, or 2 with '81', or 3 with
    /// '82'. A long value takes more.
    pub length_size: usize,
    pub value: Value,
}

#[derive(Clone, Debug, PartialEq, Eq)]
pub enum Value {
    Bytes(Vec<u8>),
    /// Of a constructed object.
    List(List),
}

/// Objects one after the other.
#[derive(Clone, Debug, Default, PartialEq, Eq)]
pub struct List {
    pub pieces: Vec<Piece>,
    /// '00' bytes behind the last object.
    pub zeros: usize,
}

/// Where a list is: empty for the outermost, then the index of the object in
/// it whose value is meant, and so on inwards.
pub type Path = Vec<usize>;

impl Piece {
    /// Without '00' before it, and with the shortest length.
    pub fn new(tag: u16, value: Value) -> Piece {
        Piece { zeros: 0, tag, length_size: 1, value }
    }

    fn write(&self, out: &mut Vec<u8>) {
        let value = match &self.value {
            Value::Bytes(bytes) => bytes.clone(),
            Value::List(list) => list.bytes(),
        };
        let [high, low] = self.tag.to_be_bytes();
        out.resize(out.len() + self.zeros, 0);
        out.extend((high != 0).then_some(high));
        out.push(low);
        let shortest = length_bytes(value.len());
        let size = value.len();
        match self.length_size.max(shortest.len()) {
            1 => out.extend(shortest),
            2 => out.extend([0x81, size as u8]),
            _ => out.extend([0x82, (size >> 8) as u8, size as u8]),
        }
        out.extend(value);
    }
}

impl List {
    /// Nothing where the bytes are no list of objects.
    pub fn read(mut bytes: &[u8]) -> Option<List> {
        let mut list = List::default();
        while let Some(&first) = bytes.first() {
            if first == 0 {
                list.zeros += 1;
                bytes = &bytes[1..];
                continue;
            }
            let (object, behind) = read_object(bytes)?;
            let (_, tag_size) = read_tag(bytes)?;
            let header = bytes.len() - behind.len() - object.value.len();
            let value = if is_constructed(object.tag) {
                Value::List(List::read(object.value)?)
            } else {
                Value::Bytes(object.value.to_vec())
            };
            let zeros = std::mem::take(&mut list.zeros);
            let length_size = header - tag_size;
            list.pieces.push(Piece { zeros, tag: object.tag, length_size, value });
            bytes = behind;
        }
        Some(list)
    }

    pub fn bytes(&self) -> Vec<u8> {
        let mut out = Vec::new();
        self.pieces.iter().for_each(|piece| piece.write(&mut out));
        out.resize(out.len() + self.zeros, 0);
        out
    }

    /// This list and all that are inside it, at every depth.
    pub fn paths(&self) -> Vec<Path> {
        let mut all = vec![Path::new()];
        for (index, piece) in self.pieces.iter().enumerate() {
            if let Value::List(inner) = &piece.value {
                all.extend(inner.paths().iter().map(|path| [&[index], &path[..]].concat()));
            }
        }
        all
    }

    pub fn at(&self, path: &[usize]) -> Option<&List> {
        let Some((&index, rest)) = path.split_first() else { return Some(self) };
        match &self.pieces.get(index)?.value {
            Value::List(inner) => inner.at(rest),
            Value::Bytes(_) => None,
        }
    }

    pub fn at_mut(&mut self, path: &[usize]) -> Option<&mut List> {
        let Some((&index, rest)) = path.split_first() else { return Some(self) };
        match &mut self.pieces.get_mut(index)?.value {
            Value::List(inner) => inner.at_mut(rest),
            Value::Bytes(_) => None,
        }
    }

    /// Puts '00' bytes before the object of this index, or behind the last.
    pub fn add_zeros(&mut self, gap: usize, count: usize) {
        match self.pieces.get_mut(gap) {
            Some(piece) => piece.zeros += count,
            None => self.zeros += count,
        }
    }
}

#[cfg(test)]
mod tests {
    use super::*;
    use rules::hex;

    #[test]
    fn what_is_read_is_written_again() {
        for text in [
            "",
            "0000",
            "5A021234",
            "005A81021234009F0282000100",
            "7082000B00A581060050009F3800007003005A00",
            "1F00019FFF7F03E10000",
        ] {
            let bytes = hex::bytes(text).unwrap();
            let list = List::read(&bytes).unwrap();
            assert_eq!(list.bytes(), bytes, "{text}");
        }
        for text in ["5A", "5A80", "70025A01", "FF7F0101"] {
            assert_eq!(List::read(&hex::bytes(text).unwrap()), None, "{text}");
        }
    }

    #[test]
    fn places_of_lists() {
        let mut list = List::read(&hex::bytes("6F0884000000A50273005000").unwrap()).unwrap();
        assert_eq!(list.paths(), [vec![], vec![0], vec![0, 1], vec![0, 1, 0]]);
        list.at_mut(&[0, 1, 0]).unwrap().add_zeros(0, 2);
        list.at_mut(&[0]).unwrap().add_zeros(0, 1);
        list.add_zeros(1, 1);
        assert_eq!(hex::text(&list.bytes()), "6F0B0084000000A50473020000005000");
        assert_eq!(list.at(&[1]), None);
    }

    #[test]
    fn long_values_take_long_lengths() {
        for (size, least, written) in [(5, 1, 1), (5, 2, 2), (5, 3, 3), (128, 1, 2), (256, 2, 3)] {
            let mut piece = Piece::new(0x5A, Value::Bytes(vec![7; size]));
            piece.length_size = least;
            let bytes = List { pieces: vec![piece], zeros: 0 }.bytes();
            assert_eq!(bytes.len(), 1 + written + size);
            assert_eq!(List::read(&bytes).unwrap().bytes(), bytes);
        }
    }
}
