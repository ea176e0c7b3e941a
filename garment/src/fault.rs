//! What went wrong, in words for whoever called; every fault but a misunderstood word ends with the same status.

use std::fmt::{self, Display, Formatter};
use std::io;

#[derive(Clone, Debug, PartialEq, Eq)]
pub struct Fault {
    pub words: String,
    /// A word of the command line is not understood, which only the files could tell.
    pub misunderstood: bool,
}

impl Fault {
    pub fn new(words: impl Into<String>) -> Fault {
        Fault { words: words.into(), misunderstood: false }
    }

    pub fn misunderstood(words: impl Into<String>) -> Fault {
        Fault { words: words.into(), misunderstood: true }
    }

    /// In a line of a file, counted from 1.
    pub fn in_line(file: &str, line: u64, words: impl Display) -> Fault {
        Fault::new(format!("{file}:{line}: {words}"))
    }

    /// What the system said of a file.
    pub fn of_file(file: impl Display, error: &io::Error) -> Fault {
        Fault::new(format!("{file}: {error}"))
    }
}

impl Display for Fault {
    fn fmt(&self, f: &mut Formatter) -> fmt::Result {
        f.write_str(&self.words)
    }
}

impl std::error::Error for Fault {}
