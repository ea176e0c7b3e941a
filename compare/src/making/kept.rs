//! The scenes that the repository keeps, each with its report beside it, and the series, each with its log.

use std::path::{Path, PathBuf};

pub fn folder() -> PathBuf {
    Path::new(env!("CARGO_MANIFEST_DIR")).join("../scenes")
}

/// The name of each scene as the table in scenes/README.md has it, and its path; in the order of the names.
pub fn scenes() -> Vec<(String, PathBuf)> {
    kept("scene")
}

/// The same of each series.
pub fn series() -> Vec<(String, PathBuf)> {
    kept("series")
}

fn kept(ending: &str) -> Vec<(String, PathBuf)> {
    let mut out = Vec::new();
    gather(&folder(), "", ending, &mut out);
    out.sort();
    out
}

fn gather(folder: &Path, before: &str, wanted: &str, out: &mut Vec<(String, PathBuf)>) {
    let entries = std::fs::read_dir(folder).unwrap_or_else(|error| panic!("{}: {error}", folder.display()));
    for path in entries.map(|entry| entry.unwrap().path()) {
        let name = format!("{before}{}", path.file_stem().unwrap().to_string_lossy());
        if path.is_dir() {
            gather(&path, &format!("{name}/"), wanted, out);
        } else if path.extension().is_some_and(|ending| ending == wanted) {
            out.push((name, path));
        }
    }
}
