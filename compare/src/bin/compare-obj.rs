//! usage: compare-obj OBJ_PROGRAM IMPORT_PROGRAM [SEEDS [LAUNCHER WORDS...]]
//!        compare-obj --report START END
//!        compare-obj --scene START END
//!        compare-obj --wrong [MISTAKE START END]
//! Runs the two programs that take OBJ files on many pairs of them, and holds what each prints, byte for byte, to the independent report and scene
//! text. Ends with status 1 on a difference, and where some fault, or two at once, was never tried. LAUNCHER is a command to put before a program,
//! as a loader. Without programs, what the independent one prints for two files; or what one prints that makes this mistake, or the mistakes.

use compare::obj::faults::{cells, reached, Cell};
use compare::obj::making::{fixed, seeded, Trial};
use compare::obj::{import, import_with, reported, saved, Wrong, WRONG};
use compare::running::comparing::{give_up, read_named, OfFiles, MOST_SHOWN};
use compare::running::streams::print;
use std::collections::BTreeSet;
use std::process::exit;

const SEEDS: u64 = 300;

fn main() {
    let words: Vec<String> = std::env::args().skip(1).collect();
    let words: Vec<&str> = words.iter().map(String::as_str).collect();
    match words[..] {
        ["--report", start, end] => print(&reported(&import(&read(start), &read(end)))),
        ["--scene", start, end] => print(&saved(&import(&read(start), &read(end)))),
        ["--wrong"] => WRONG.iter().for_each(|wrong| compare::say!("{wrong:?}")),
        ["--wrong", key, start, end] => {
            let found = WRONG.into_iter().find(|wrong| format!("{wrong:?}") == key);
            let wrong = found.unwrap_or_else(|| give_up("obj", &format!("no mistake is called {key}")));
            print(&reported(&import_with(&read(start), &read(end), wrong)));
        }
        [obj, import] => compare([obj, import], SEEDS, &[]),
        [obj, import, seeds, ref launcher @ ..] => {
            compare([obj, import], seeds.parse().unwrap_or_else(|_| give_up("obj", &format!("{seeds} is no number"))), launcher)
        }
        _ => give_up("obj", "usage: compare-obj OBJ_PROGRAM IMPORT_PROGRAM [SEEDS [LAUNCHER WORDS...]]"),
    }
}

fn read(name: &str) -> Vec<u8> {
    read_named("obj", name)
}

fn compare(programs: [&str; 2], seeds: u64, launcher: &[&str]) {
    let mut comparison = OfFiles::new("obj", &launcher.iter().map(|word| word.to_string()).collect::<Vec<String>>());
    let (mut pairs, mut scenes) = (0usize, 0usize);
    let mut missing: BTreeSet<Cell> = cells().into_iter().collect();
    let wanted_cells = missing.len();
    for trial in fixed().into_iter().chain((0..seeds).flat_map(seeded)) {
        let imported = import(&trial.start, &trial.end);
        pairs += 1;
        scenes += imported.is_ok() as usize;
        let reached = reached(&trial.start, &trial.end);
        missing.retain(|cell| !reached.contains(cell));
        hold(&mut comparison, &trial, [(programs[0], reported(&imported)), (programs[1], saved(&imported))]);
    }
    comparison.clear();
    if !missing.is_empty() {
        println!("obj: never tried: {missing:?}");
    }
    println!(
        "obj: {pairs} pairs of files, {scenes} of them scenes, {} of {wanted_cells} faults and pairs of faults tried, each byte of reports \
         and scenes compared: {} differences",
        wanted_cells - missing.len(),
        comparison.differences
    );
    exit((comparison.differences > 0 || !missing.is_empty()) as i32);
}

/// Each program on the two files, with what it must print.
fn hold(comparison: &mut OfFiles, trial: &Trial, programs: [(&str, String); 2]) {
    let files: [(&str, &[u8]); 2] = [("start.obj", &trial.start), ("end.obj", &trial.end)];
    for (program, wanted) in programs {
        let Some((given, kept)) = comparison.differing(program, &files, &wanted, "") else { continue };
        let at = given.lines().zip(wanted.lines()).position(|(a, b)| a != b).unwrap_or(0);
        let line = |text: &str| text.lines().nth(at).unwrap_or("").to_string();
        println!("obj: {program}: {}: the two files are in {}", trial.name, kept.display());
        println!("    at line {}: {:?} and should be {:?}", at + 1, line(&given), line(&wanted));
        println!("    it looks like {:?}", like(trial, &given));
        if comparison.differences == MOST_SHOWN {
            exit(1);
        }
    }
}

fn like(trial: &Trial, given: &str) -> Vec<Wrong> {
    let prints = |wrong: &Wrong| {
        let imported = import_with(&trial.start, &trial.end, *wrong);
        [reported(&imported), saved(&imported)].contains(&given.to_string())
    };
    WRONG.into_iter().filter(prints).collect()
}
