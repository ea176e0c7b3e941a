//! Whoever has seen enough of what a program here prints may close it, and a text that cannot be read is told in words.

use compare::making::kept;
use std::fs::File;
use std::io::{Read, Write};
use std::process::{Command, Stdio};

const PROGRAMS: [(&str, &[&str]); 3] = [
    (env!("CARGO_BIN_EXE_explain"), &[]),
    (env!("CARGO_BIN_EXE_exact-report"), &[]),
    (env!("CARGO_BIN_EXE_wrong-report"), &["singular-miss"]),
];

#[test]
fn a_closed_output_is_no_fault() {
    let text = std::fs::read(kept::folder().join("printed.scene")).unwrap();
    for (program, words) in PROGRAMS {
        let piped = || Stdio::piped();
        let mut child = Command::new(program).args(words).stdin(piped()).stdout(piped()).stderr(piped()).spawn().unwrap();
        drop(child.stdout.take());
        child.stdin.take().unwrap().write_all(&text).unwrap();
        let mut said = String::new();
        child.stderr.take().unwrap().read_to_string(&mut said).unwrap();
        assert_eq!((said.as_str(), child.wait().unwrap().code()), ("", Some(141)), "{program}");
    }
}

#[test]
fn a_folder_is_no_text() {
    for (program, words) in PROGRAMS {
        let folder = File::open(kept::folder()).unwrap();
        let answer = Command::new(program).args(words).stdin(folder).output().unwrap();
        let said = String::from_utf8(answer.stderr).unwrap();
        assert!(said.starts_with("standard input cannot be read") && answer.stdout.is_empty(), "{program}: {said}");
        assert_eq!(answer.status.code(), Some(2), "{program}");
    }
}
