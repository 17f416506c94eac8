//! Ways to bend single answers, each with the reason it should give when
//! nothing else is wrong (0: the answer stays good).

use super::nodes::Answer;
use crate::random::Random;
use std::rc::Rc;

type Change = dyn Fn(&mut Answer, &mut Random);

/// A way to bend one answer.
#[derive(Clone)]
pub struct Fault {
    pub label: String,
    /// The reason 01 gives for it, or `None` where chance decides.
    pub reason: Option<u8>,
    pub apply: Rc<Change>,
}

pub fn fault(reason: u8, label: &str, apply: impl Fn(&mut Answer, &mut Random) + 'static) -> Fault {
    Fault { label: label.to_string(), reason: Some(reason), apply: Rc::new(apply) }
}

pub fn chance(label: &str, apply: impl Fn(&mut Answer, &mut Random) + 'static) -> Fault {
    Fault { label: label.to_string(), reason: None, apply: Rc::new(apply) }
}
