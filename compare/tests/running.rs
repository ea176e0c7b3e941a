//! A program under test may hang, fail, or print without end: the comparison must not.

use compare::running::{Failed, Program};
use std::path::{Path, PathBuf};
use std::process::Command;
use std::time::{Duration, Instant};

fn program(words: &[&str]) -> Program {
    Program { command: words.iter().map(|word| word.to_string()).collect(), limit: Duration::from_secs(2) }
}

#[test]
fn what_it_prints_comes_back_whole() {
    let text: Vec<u8> = (0..200_000).map(|n| n as u8).collect();
    for parts in 1..4 {
        assert_eq!(program(&["cat"]).run(&text, parts), Ok(text.clone()));
    }
    assert_eq!(program(&["cat"]).run(b"", 1), Ok(Vec::new()));
}

/// Not even by a child of its own that keeps the pipe open.
#[test]
fn one_that_does_not_end_is_given_up() {
    let began = Instant::now();
    assert_eq!(program(&["sleep", "30"]).run(b"", 1), Err(Failed::ToEnd));
    assert_eq!(program(&["sh", "-c", "exec >&-; sleep 30"]).run(b"", 1), Err(Failed::ToEnd));
    assert_eq!(program(&["sh", "-c", "sleep 8 & echo"]).run(b"", 1), Err(Failed::ToEnd));
    assert!(began.elapsed() < Duration::from_secs(20));
}

#[test]
fn one_that_fails_or_prints_without_end_is_noticed() {
    assert!(matches!(program(&["false"]).run(b"", 1), Err(Failed::Otherwise(_))));
    assert!(matches!(program(&["yes"]).run(b"", 1), Err(Failed::Otherwise(_))));
    assert!(matches!(program(&["no such program"]).run(b"", 1), Err(Failed::ToStart(_))));
}

/// A program that has seen enough may leave its input unread.
#[test]
fn one_that_does_not_read_is_fine() {
    assert_eq!(program(&["echo", "total"]).run(&vec![0; 500_000], 1), Ok(b"total\n".to_vec()));
}

fn files_in(folder: &Path) -> Vec<PathBuf> {
    let mut files: Vec<PathBuf> = std::fs::read_dir(folder).unwrap().map(|entry| entry.unwrap().path()).collect();
    files.sort();
    files
}

/// Of a program that prints nothing three texts are kept, each told with its place, in a folder that has nothing else in it.
#[test]
fn what_a_comparison_keeps_is_in_a_folder_of_its_own() {
    for (comparison, programs, name, kept) in [
        (env!("CARGO_BIN_EXE_compare-with"), 1, "run", [".scene"; 1].as_slice()),
        (env!("CARGO_BIN_EXE_compare-contacts"), 1, "contacts", &[".scene"]),
        (env!("CARGO_BIN_EXE_compare-series"), 1, "series", &[".series"]),
        (env!("CARGO_BIN_EXE_compare-claims"), 1, "claims", &["/claims", "/scene"]),
        (env!("CARGO_BIN_EXE_compare-obj"), 2, "obj", &["/end.obj", "/start.obj"]),
    ] {
        let temporary = std::env::temp_dir().join(format!("tests-running-{name}-{}", std::process::id()));
        std::fs::create_dir(&temporary).unwrap();
        let run = Command::new(comparison).args(vec!["true"; programs]).arg("0").env("TMPDIR", &temporary).output().unwrap();
        let told = String::from_utf8(run.stdout).unwrap();
        assert_eq!(run.status.code(), Some(1), "{name}: {told}");
        let [folder] = &files_in(&temporary)[..] else { panic!("{name}: {:?}", files_in(&temporary)) };
        assert!(folder.file_name().unwrap().to_string_lossy().starts_with(&format!("compare-{name}-")), "{folder:?}");
        let wanted = (1..=3).flat_map(|number| kept.iter().map(move |ending| format!("difference-{number}{ending}")));
        let wanted: Vec<PathBuf> = wanted.map(|file| folder.join(file)).collect();
        let there = files_in(folder).into_iter().flat_map(|path| if path.is_dir() { files_in(&path) } else { vec![path] });
        assert_eq!(there.collect::<Vec<_>>(), wanted, "{name}");
        let place =
            |file: &PathBuf| if file.parent() == Some(folder) { file.clone() } else { file.parent().unwrap().to_path_buf() };
        assert!(wanted.iter().all(|file| told.contains(&place(file).display().to_string())), "{name}: {told}");
        std::fs::remove_dir_all(&temporary).unwrap();
    }
}

/// A program that is not there cannot be compared, which is no difference; a file that is not there has the status that it has in every program.
#[test]
fn what_is_not_there_is_told_with_one_status() {
    let missing = "no such file";
    for (comparison, words, status) in [
        (env!("CARGO_BIN_EXE_compare-with"), [missing, "0"].as_slice(), 2),
        (env!("CARGO_BIN_EXE_compare-contacts"), &[missing, "0"], 2),
        (env!("CARGO_BIN_EXE_compare-series"), &[missing, "0"], 2),
        (env!("CARGO_BIN_EXE_compare-claims"), &[missing, "0"], 2),
        (env!("CARGO_BIN_EXE_compare-obj"), &[missing, missing, "0"], 2),
        (env!("CARGO_BIN_EXE_raw"), &["0", missing], 2),
        (env!("CARGO_BIN_EXE_compare-claims"), &["--answers", missing, missing], 1),
        (env!("CARGO_BIN_EXE_compare-obj"), &["--report", missing, missing], 1),
        (env!("CARGO_BIN_EXE_compare-obj"), &["--scene", missing, missing], 1),
        (env!("CARGO_BIN_EXE_explain"), &[missing, missing], 1),
    ] {
        let run = Command::new(comparison).args(words).output().unwrap();
        assert_eq!(run.status.code(), Some(status), "{comparison} {words:?}");
        assert!(
            run.stdout.is_empty() && String::from_utf8_lossy(&run.stderr).contains(missing),
            "{comparison} {words:?}: {run:?}"
        );
    }
}

/// Answers that differ are told with the number of the line.
#[test]
fn where_answers_part_is_told() {
    let run = Command::new(env!("CARGO_BIN_EXE_compare-claims")).args(["true", "0"]).output().unwrap();
    let told = String::from_utf8(run.stdout).unwrap();
    assert!(told.contains("    at line 1: \"nothing\" and should be ") && !told.contains("Some("), "{told}");
}
