//! A change that makes a right answer wrong.

use super::question::{Answer, Question};

/// Changes a right answer, or leaves it.
type Change = Box<dyn Fn(&Question, &mut Answer)>;

pub struct Damage {
    pub name: String,
    pub change: Change,
}

pub fn damage(name: impl Into<String>, change: impl Fn(&Question, &mut Answer) + 'static) -> Damage {
    Damage { name: name.into(), change: Box::new(change) }
}
