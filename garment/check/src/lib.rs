//! What the tests and the measuring have in common: cloth that is made, and other ways to the same answers.

pub mod beside;
pub mod cells;
pub mod clocks;
pub mod cloth;
pub mod dressed;
pub mod exact;
pub mod former;
pub mod grid;
pub mod ways;
