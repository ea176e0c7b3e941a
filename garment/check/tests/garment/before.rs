//! What is said before a report: each thing where it is so, and nowhere else.

use garment::before::{again, of_frame, of_mesh, FAR};
use garment::mesh::Mesh;
use garment::words::understood;
use garment_check::ways::mesh_of;
use std::ffi::OsString;

/// Vertices at the start, each moved by as much to the end, and a face.
fn moved(by: i32, faces: &str) -> Mesh {
    let text = |by: i32| format!("v 0 0 {by}\nv 4 0 {by}\nv 0 3 {by}\nv 9 9 {by}\n{faces}");
    mesh_of(&[text(0), text(by)], Some(1.0), false).expect("a mesh")
}

fn told(mesh: &Mesh, words: &str) -> usize {
    of_mesh(mesh, false).iter().filter(|line| line.contains(words)).count()
}

const NO_FACES: &str = "there are no faces";
const STILL: &str = "the end is the start";
const UNSEWN: &str = "stand in one place with another";
const MOVE: &str = "the farthest move is ";
const TOO_FAR: &str = "contacts that no cloth made";

#[test]
fn a_report_of_nothing_is_told() {
    let kinds = |mesh: &Mesh| [NO_FACES, STILL, UNSEWN, MOVE].map(|words| told(mesh, words));
    assert_eq!(kinds(&moved(1, "f 1 2 3\n")), [0, 0, 0, 1]);
    assert_eq!(kinds(&moved(0, "f 1 2 3\n")), [0, 1, 0, 0]);
    assert_eq!(kinds(&moved(1, "")), [1, 0, 0, 0]);
    assert_eq!(kinds(&moved(0, "")), [1, 1, 0, 0]);
    assert_eq!(kinds(&Mesh::default()), [1, 0, 0, 0]);
}

/// The edges are 4, 5 and 3 long: the one in the middle is 4.
#[test]
fn a_move_is_told_in_edge_lengths() {
    for (by, lengths) in [(1, "0.25"), (-4, "1.00"), (38, "9.50"), (40, "10.00"), (41, "10.25"), (400, "100.00")] {
        let lines = of_mesh(&moved(by, "f 1 2 3\n"), false);
        assert_eq!(lines.len(), 1, "{lines:?}");
        assert!(lines[0].starts_with(&format!("{MOVE}{lengths} edge lengths, of vertex 0")), "{lines:?}");
        assert_eq!(lines[0].contains(TOO_FAR), f64::from(by) / 4.0 > FAR, "{lines:?}");
    }
    // one vertex alone, and not that of lowest number
    let text = |z: i32| format!("v 0 0 0\nv 4 0 0\nv 0 3 {z}\nf 1 2 3\n");
    let mesh = mesh_of(&[text(0), text(2)], Some(1.0), false).expect("a mesh");
    assert!(of_mesh(&mesh, false)[0].starts_with("the farthest move is 0.50 edge lengths, of vertex 2"));
    // edges without a length are no measure
    let flat = |z: i32| format!("v 0 0 {z}\nv 0 0 {z}\nv 0 0 {z}\nf 1 2 3\n");
    assert_eq!(told(&mesh_of(&[flat(0), flat(2)], Some(1.0), false).expect("a mesh"), MOVE), 0);
}

#[test]
fn vertices_in_one_place_are_counted_where_they_are_not_sewn() {
    // three in one place are two that stand for the third; the last ones part on the way
    let text =
        |z: i32| format!("v 0 0 0\nv 0 0 0\nv 0 0 0\nv 4 0 0\nv 0 4 0\nv 4 0 0\nv 9 9 0\nv 9 9 {z}\nf 1 4 5\nf 2 6 7\nf 3 6 8\n");
    let texts = [text(0), text(1)];
    let counted = |sewn: bool| {
        let mesh = mesh_of(&texts, Some(1.0), sewn).expect("a mesh");
        of_mesh(&mesh, sewn).into_iter().find(|line| line.contains(UNSEWN))
    };
    assert!(
        counted(false).is_some_and(|line| line.starts_with("3 vertices ") && line.contains("--seams")),
        "{:?}",
        counted(false)
    );
    assert_eq!(counted(true), None);
}

/// A frame rests, so only what it is and what is in one place is told of it.
#[test]
fn what_is_told_of_a_frame() {
    let lines = |mesh: &Mesh, sewn: bool| {
        let lines = of_frame(mesh, sewn);
        assert!(lines.len() <= 2, "{lines:?}");
        [NO_FACES, UNSEWN].map(|words| lines.iter().filter(|line| line.contains(words)).count())
    };
    assert_eq!(lines(&moved(0, "f 1 2 3\n"), false), [0, 0]);
    assert_eq!(lines(&moved(0, ""), false), [1, 0]);
    let text = "v 0 0 0\nv 4 0 0\nv 0 4 0\nv 0 0 0\nf 1 2 3\nf 4 2 3\n".to_string();
    let twice = |sewn: bool| mesh_of(&[text.clone(), text.clone()], Some(1.0), sewn).expect("a mesh");
    assert_eq!((lines(&twice(false), false), lines(&twice(true), true)), ([0, 1], [0, 0]));
}

/// How many files a body has goes by the command.
#[test]
fn files_of_a_body() {
    let words = |line: &[&str]| line.iter().map(OsString::from).collect::<Vec<_>>().into_iter();
    let files = |line: &[&str]| understood(words(line)).map(|(_, options)| options.body_files);
    assert_eq!(files(&["--body-files", "a", "b", "c", "d"]), Ok(vec!["a".into(), "b".into()]));
    assert_eq!(files(&["check", "--body-files", "a", "c"]), Ok(vec!["a".into()]));
    assert_eq!(files(&["series", "c", "d", "e", "--body-files", "a"]), Ok(vec!["a".into()]));
    assert_eq!(files(&["series", "c", "d", "--body-files", "a", "-", "--quiet"]), Ok(vec!["a".into(), "-".into()]));
    assert_eq!(files(&["series", "c", "d"]), Ok(Vec::new()));
    for (line, told) in [
        (&["series", "--body-files", "a", "c", "d"][..], "and here are 0; --body-files has taken 3 files: let -- stand behind"),
        (&["series", "c", "d", "--body-files"], "--body-files wants a file, or one for each frame"),
        (&["check", "c", "--body-files"], "--body-files wants a file"),
        (&["--body-files", "a", "b", "check", "c"], "a body has 1 files here, and --body-files names 2"),
        (&["--body-files", "a"], "--body-files wants two values"),
        (&["total", "--body-files", "a", "b", "c"], "--body-files says nothing to this command"),
        (&["series", "c", "d", "--body-files", "a", "--body-files", "b"], "--body-files stands here twice"),
    ] {
        let wrong = files(line).expect_err("not understood");
        assert!(wrong.contains(told), "{line:?}: {wrong}");
    }
}

/// The command that repeats a run, from its words; understood, it is the same run on that grid.
#[test]
fn the_command_that_repeats_a_run() {
    let words = |line: &[&str]| line.iter().map(OsString::from).collect::<Vec<_>>().into_iter();
    for (line, wanted) in [
        (&["a.obj", "b.obj"][..], "garment --step 0.0001 a.obj b.obj"),
        (&["--step", "5", "--quiet", "--threads=2", "a.obj", "b.obj"], "garment --step 0.0001 a.obj b.obj"),
        (&["--seams", "a", "--json", "-", "--only", "hit,touch"], "garment --step 0.0001 --seams --json --only=hit,touch a -"),
        (&["rows", "3/8", "--contacts", "a", "b"], "garment rows 3/8 --step 0.0001 --contacts a b"),
        (&["series", "--seams", "a", "b", "c"], "garment series --step 0.0001 --seams a b c"),
        (&["scene", "a b", "it's"], "garment scene --step 0.0001 'a b' 'it'\\''s'"),
        (&["--", "-a", ""], "garment --step 0.0001 -- -a ''"),
        (&["--where", "--mark", "x.ply", "--body", "A b", "a", "b"], "garment --step 0.0001 --where --body='A b' a b"),
        (&["--between", "a", "b c", "d", "e"], "garment --step 0.0001 --between a 'b c' d e"),
        (&["scene", "--body-files", "-", "-x", "d", "e"], "garment scene --step 0.0001 --body-files - -x d e"),
        (&["check", "--body-files", "b", "d", "--where"], "garment check --step 0.0001 --body-files b --where d"),
        (&["series", "c", "d", "--body-files", "b"], "garment series --step 0.0001 --body-files b -- c d"),
        (&["series", "--body-files", "a", "b", "--", "c", "d"], "garment series --step 0.0001 --body-files a b -- c d"),
        (
            &["series", "--body-files", "a", "b", "--json", "c", "d"],
            "garment series --step 0.0001 --body-files a b --json -- c d",
        ),
        (&["--body-files", "a", "b", "c", "d", "--near"], "garment --step 0.0001 --body-files a b --near c d"),
    ] {
        let (command, options) = understood(words(line)).expect("understood");
        assert_eq!(again(&command, &options, 1e-4), wanted);
    }
    let line = ["--seams", "--no-hits", "--only=hit", "a", "b"];
    let (command, options) = understood(words(&line)).expect("understood");
    let repeated = again(&command, &options, 1e-4);
    let (same, on_grid) = understood(words(&repeated.split(' ').skip(1).collect::<Vec<_>>())).expect("understood");
    assert_eq!(
        (same, on_grid.step, on_grid.seams, on_grid.form, on_grid.no_hits),
        (command, Some(1e-4), true, options.form, true)
    );
}
