//! A piece's and a pair's word: the three words of document 01, and the four of the report.

pub mod settled;
pub mod verdict;
