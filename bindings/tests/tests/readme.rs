//! The lines of Rust in README.md compile, run, and say what the report says.

use makhnodri::{Kind, Settled};
use std::error::Error;
use std::path::Path;

const TOP: &str = concat!(env!("CARGO_MANIFEST_DIR"), "/../..");

/// The lines as they stand on the page.
#[rustfmt::skip]
fn as_shown() -> Result<(), Box<dyn Error>> {
    let scene = makhnodri::Scene::read(&std::fs::read("scenes/printed.scene")?)?;
    for (pair, word) in scene.settled()? { println!("{pair:?} {word:?}"); }
    let words: Vec<_> = scene.settled()?.into_iter().map(|(pair, word)| (pair.kind, pair.first, pair.second, word)).collect();
    assert_eq!(words, [(Kind::PointTriangle, 3, 0, Settled::Hit), (Kind::EdgeEdge, 0, 1, Settled::Hit)]);
    Ok(())
}

#[test]
fn the_lines_of_the_page() {
    std::env::set_current_dir(TOP).unwrap();
    as_shown().unwrap();
    let page = std::fs::read_to_string(Path::new(TOP).join("README.md")).unwrap();
    let section = page.split("## From Rust").nth(1).unwrap().split("\n## ").next().unwrap();
    let lines: Vec<&str> = section.lines().filter(|line| line.starts_with("    ")).collect();
    assert!(lines.len() >= 2);
    for line in lines {
        assert!(include_str!("readme.rs").lines().any(|own| own == line), "{line}");
    }
}
