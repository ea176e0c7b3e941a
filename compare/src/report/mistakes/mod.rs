//! Report programs that are wrong in one respect each: what trainees write, and every wrong order of checks. A
//! comparison that cannot tell one of these from document 01 is not worth running; and what a trainee's own program
//! prints can be held against them, to say which mistake it looks like.

mod judging;
mod listing;
mod reading;
mod settling;
mod sewing;
mod steps;

pub use steps::{Mistake, Right};

/// Every one of them, those of the training page first.
pub fn all() -> Vec<Mistake> {
    let mut out = judging::mistakes();
    out.extend(settling::mistakes());
    out.extend(listing::mistakes());
    out.extend(reading::mistakes());
    out.extend(sewing::mistakes());
    out
}

pub fn find(key: &str) -> Option<Mistake> {
    all().into_iter().find(|mistake| mistake.key == key)
}
