//! Which pairs are listed, and how many box tests the walk takes that finds them.

pub mod box_tests;
pub mod listing;
