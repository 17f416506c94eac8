//! Card answers as trees that can be bent before they become bytes.

use crate::random::Random;
use rules::objects::length_bytes;

/// An object to be written, or bytes put in as they are.
#[derive(Clone)]
pub enum Node {
    Leaf(u16, Vec<u8>),
    Tree(u16, Vec<Node>),
    Raw(Vec<u8>),
}

impl Node {
    pub fn tag(&self) -> Option<u16> {
        match self {
            Node::Leaf(tag, _) | Node::Tree(tag, _) => Some(*tag),
            Node::Raw(_) => None,
        }
    }
}

fn object(tag: u16, value: &[u8], loose: bool, r: &mut Random, out: &mut Vec<u8>) {
    let [high, low] = tag.to_be_bytes();
    if high != 0 {
        out.push(high);
    }
    out.push(low);
    let size = value.len();
    match if loose { r.below(4) } else { 3 } {
        0 if size <= 0xFF => out.extend([0x81, size as u8]),
        1 => out.extend([0x82, (size >> 8) as u8, size as u8]),
        _ => out.extend(length_bytes(size)),
    }
    out.extend_from_slice(value);
}

/// Writes nodes; loosely means longer length forms and '00' between objects.
pub fn encode(nodes: &[Node], loose: bool, r: &mut Random) -> Vec<u8> {
    let mut out = Vec::new();
    for node in nodes {
        if loose && r.chance(20) {
            let zeros = r.between(1, 3);
            out.resize(out.len() + zeros, 0);
        }
        match node {
            Node::Leaf(tag, value) => object(*tag, value, loose, r, &mut out),
            Node::Tree(tag, inner) => {
                let value = encode(inner, loose, r);
                object(*tag, &value, loose, r, &mut out);
            }
            Node::Raw(bytes) => out.extend_from_slice(bytes),
        }
    }
    if loose && r.chance(20) {
        out.push(0);
    }
    out
}

/// One answer of the card, not yet in bytes.
#[derive(Clone)]
pub struct Answer {
    pub outer: u16,
    pub members: Vec<Node>,
    /// The value of the form with tag 80, where that form is used.
    pub joined: Option<Vec<u8>>,
    /// Objects or bytes before and behind the one expected.
    pub before: Vec<Node>,
    pub behind: Vec<Node>,
    pub status: [u8; 2],
    pub loose: bool,
    /// If set, this is the answer and nothing else counts.
    pub raw: Option<Vec<u8>>,
}

impl Answer {
    pub fn new(outer: u16, members: Vec<Node>) -> Answer {
        Answer {
            outer,
            members,
            joined: None,
            before: Vec::new(),
            behind: Vec::new(),
            status: [0x90, 0x00],
            loose: false,
            raw: None,
        }
    }

    fn data(&self, loose: bool, r: &mut Random) -> Vec<u8> {
        let mut nodes = self.before.clone();
        nodes.push(match &self.joined {
            Some(value) => Node::Leaf(0x80, value.clone()),
            None => Node::Tree(self.outer, self.members.clone()),
        });
        nodes.extend(self.behind.clone());
        encode(&nodes, loose, r)
    }

    pub fn bytes(&self, r: &mut Random) -> Vec<u8> {
        if let Some(raw) = &self.raw {
            return raw.clone();
        }
        let mut out = self.data(self.loose, r);
        if out.len() > 256 {
            out = self.data(false, r);
        }
        out.extend(self.status);
        out.truncate(496);
        out
    }

    /// The members of the long form, which becomes the form used.
    pub fn open(&mut self) -> &mut Vec<Node> {
        self.joined = None;
        &mut self.members
    }

    pub fn remove(&mut self, tag: u16) {
        self.open().retain(|m| m.tag() != Some(tag));
    }

    pub fn replace(&mut self, tag: u16, value: Vec<u8>) {
        for member in self.open() {
            if member.tag() == Some(tag) {
                *member = Node::Leaf(tag, value.clone());
            }
        }
    }

    /// Puts a node among the members at any place.
    pub fn insert(&mut self, node: Node, r: &mut Random) {
        let members = self.open();
        let at = r.below(members.len() + 1);
        members.insert(at, node);
    }

    /// A second copy of a member, somewhere.
    pub fn double(&mut self, tag: u16, r: &mut Random) {
        let copy = self.open().iter().find(|m| m.tag() == Some(tag)).cloned();
        if let Some(copy) = copy {
            self.insert(copy, r);
        }
    }
}
