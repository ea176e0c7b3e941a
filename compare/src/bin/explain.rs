//! usage: explain < SCENE
//!        explain START.obj END.obj
//! Why each listed pair has its word: its pieces with their weights. Or why the text, or one of the two files, is refused: the line, and what is wrong in
//! it. A file that is called - is standard input.

use compare::obj;
use compare::running::streams::{input, print};
use compare::scene::Scene;
use compare::showing::explain::explained;
use compare::text;
use std::process::exit;

fn main() {
    let words: Vec<String> = std::env::args().skip(1).collect();
    let words: Vec<&str> = words.iter().map(String::as_str).collect();
    match words[..] {
        [] => tell(of_text(&input())),
        [start, end] if [start, end] != ["-", "-"] => tell(of_files(&read(start), &read(end))),
        _ => {
            eprintln!("usage: compare/show why < SCENE, or compare/show why START.obj END.obj");
            exit(2);
        }
    }
}

/// The pairs of a scene, or why there is none.
fn tell(found: Result<Scene, String>) {
    match found {
        Ok(scene) => print(&explained(&scene)),
        Err(words) => {
            print(&words);
            exit(1);
        }
    }
}

fn of_text(bytes: &[u8]) -> Result<Scene, String> {
    text::read(bytes).map_err(|refusal| text::blame::in_words(bytes, refusal))
}

fn of_files(start: &[u8], end: &[u8]) -> Result<Scene, String> {
    obj::import(start, end).map_err(|_| obj::blame::in_words(start, end).expect("what is refused has words"))
}

fn read(name: &str) -> Vec<u8> {
    if name == "-" {
        return input();
    }
    std::fs::read(name).unwrap_or_else(|error| {
        eprintln!("{name}: {error}");
        exit(1)
    })
}
