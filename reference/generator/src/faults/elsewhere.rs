//! Objects that are named at another place than the one they stand at.

use crate::sessions::fault::{fault, Fault};
use crate::sessions::nodes::Node;

/// 8E and 9F42, twice and wrong, where no place names them.
pub fn verification_elsewhere() -> Fault {
    fault(0, "8E and 9F42 twice", |a, r| {
        for tag in [0x8E, 0x9F42, 0x8E, 0x9F42] {
            let size = r.below(4);
            let value = r.bytes(size);
            a.insert(Node::Leaf(tag, value), r);
        }
    })
}
