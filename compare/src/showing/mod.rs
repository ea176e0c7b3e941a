//! What `compare/show` shows besides reports: why a pair has its word, and what deciding takes.

pub mod cost;
pub mod explain;
