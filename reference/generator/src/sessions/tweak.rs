//! Ways to set up terminal and card before the session begins.

use super::card::Card;
use super::start::Start;
use crate::random::Random;
use std::rc::Rc;

type Change = dyn Fn(&mut Start, &mut Card, &mut Random);

/// A way to set up terminal and card.
#[derive(Clone)]
pub struct Tweak {
    pub label: String,
    /// The reason it should give when nothing else is wrong (0: none), or
    /// `None` where that depends on the rest.
    pub reason: Option<u8>,
    pub apply: Rc<Change>,
}

pub fn tweak(
    reason: u8,
    label: &str,
    apply: impl Fn(&mut Start, &mut Card, &mut Random) + 'static,
) -> Tweak {
    Tweak { label: label.to_string(), reason: Some(reason), apply: Rc::new(apply) }
}
