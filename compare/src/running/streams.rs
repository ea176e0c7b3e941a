//! Standard input and output of the programs here: what cannot be read or written is told in words, and whoever has seen enough may
//! close the output.

use std::io::{ErrorKind, Read, Write};
use std::process::exit;

/// A shell's status for a program that wrote into a closed pipe.
const CLOSED: i32 = 141;

/// All of standard input. A part of it is nothing.
pub fn input() -> Vec<u8> {
    let mut text = Vec::new();
    if let Err(error) = std::io::stdin().read_to_end(&mut text) {
        eprintln!("standard input cannot be read: {error}");
        exit(2);
    }
    text
}

/// Prints, and ends the program where nobody reads on.
pub fn print(words: &str) {
    let mut out = std::io::stdout().lock();
    if let Err(error) = out.write_all(words.as_bytes()).and_then(|()| out.flush()) {
        if error.kind() == ErrorKind::BrokenPipe {
            exit(CLOSED);
        }
        eprintln!("standard output cannot be written: {error}");
        exit(2);
    }
}

/// `println!` for programs whose output may be closed.
#[macro_export]
macro_rules! say {
    ($($words:tt)*) => { $crate::running::streams::print(&(format!($($words)*) + "\n")) };
}
