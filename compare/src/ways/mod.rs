//! Other ways to judge a piece. None of them judges here: they are held to the right one, counted, or done wrong on purpose.

pub mod cubic;
pub mod quick;
pub mod search;
pub mod signs;
