//! OBJ files by document 02, §3: what the document says with numbers, the cases of the proved reader, and that each mistake is noticed.

use compare::making::kept;
use compare::obj::faults::{cells, reached, Cell};
use compare::obj::making::{cases, fixed, kept_pairs, seeded, Trial};
use compare::obj::*;
use compare::scene::{Scene, EDGE_LIMIT};
use compare::text;
use std::collections::BTreeSet;

const SEEDS: u64 = 130;

fn trials() -> impl Iterator<Item = Trial> {
    fixed().into_iter().chain((0..SEEDS).flat_map(seeded))
}

/// Fewer, where each is read in every way.
fn some_trials() -> impl Iterator<Item = Trial> {
    fixed().into_iter().chain((0..42).flat_map(seeded))
}

/// What the proved reader must answer for the same pairs was written by hand.
#[test]
fn the_cases_of_the_proved_reader() {
    let printed = std::fs::read_to_string(concat!(env!("CARGO_MANIFEST_DIR"), "/../bindings/tests/cases/imports.told")).unwrap();
    let lines: Vec<(&str, &str)> = printed.lines().filter_map(|line| line.split_once('\t')).collect();
    let cases = cases();
    for case in &cases {
        let own = match import(&case.start, &case.end) {
            Ok(scene) => format!("read\t{}\t{}\t{}\t0", scene.vertices.len(), scene.edges.len(), scene.triangles.len()),
            // there the third field is missing where there is no line
            Err(Refused { number: 14, third: 0, file: None }) => "refused\t14".into(),
            Err(refused) => refused_line(refused).trim_end().into(),
        };
        let wanted = lines.iter().find(|(name, _)| *name == case.name).unwrap_or_else(|| panic!("no line for {}", case.name));
        assert_eq!(own, wanted.1, "{}", case.name);
    }
    // all but 12 and the three lines of numbers
    assert_eq!(cases.len(), 39);
    let shown = cases.iter().find(|case| case.name == "two files").unwrap();
    let scene = import(&shown.start, &shown.end).unwrap();
    let in_line = |numbers: Vec<usize>| numbers.iter().map(|n| format!("\t{n}")).collect::<String>();
    assert!(printed.contains(&format!("\nedges{}\t77", in_line(scene.edges.concat()))));
    assert!(printed.contains(&format!("\ntriangles{}\t77", in_line(scene.triangles.concat()))));
}

#[test]
fn decimals_are_hundredths() {
    let of = |field: &str| decimal(field.as_bytes(), Wrong::Nothing);
    for (field, hundredths) in [
        ("0", 0),
        ("-0", 0),
        ("-0.00", 0),
        ("1", 100),
        ("01", 100),
        ("1.5", 150),
        ("1.05", 105),
        ("1.50", 150),
        ("-0.5", -50),
        ("-0.01", -1),
        ("0.29", 29),
        ("999999999.99", 99_999_999_999),
        ("-999999999", -99_999_999_900),
        ("000000001", 100),
    ] {
        assert_eq!(of(field), Some(hundredths), "{field}");
    }
    for field in ["", "-", ".", "1.", ".5", "+1", "--1", "1.000", "1234567890", "1e3", "1,5", "1.2.3", " 1", "1\r", "-.5"] {
        assert_eq!(of(field), None, "{field}");
    }
}

/// Each side of each face is there, once, and in the order in which it first appears.
#[test]
fn edges_of_faces() {
    let mut shared = 0;
    for trial in trials() {
        let Ok(Scene { edges, triangles, .. }) = import(&trial.start, &trial.end) else { continue };
        let sorted = |[a, b]: [usize; 2]| [a.min(b), a.max(b)];
        let sides: Vec<[usize; 2]> = triangles.iter().flat_map(|&[a, b, c]| [[a, b], [b, c], [c, a]]).collect();
        let first = |i: usize| !sides[..i].iter().any(|&other| sorted(other) == sorted(sides[i]));
        let wanted: Vec<[usize; 2]> = (0..sides.len()).filter(|&i| first(i)).map(|i| sides[i]).collect();
        assert_eq!(edges, wanted, "{}", trial.name);
        assert!(edges.len() <= EDGE_LIMIT);
        shared += (edges.len() < sides.len()) as usize;
    }
    assert!(shared > 50, "{shared}");
}

/// A scene that was imported is accepted as text, and is then the same scene.
#[test]
fn an_imported_scene_is_accepted() {
    let (mut read, mut long) = (0, 0);
    for trial in trials() {
        let Ok(scene) = import(&trial.start, &trial.end) else { continue };
        let written = text::write(&scene);
        match text::read(written.as_bytes()) {
            Ok(again) => assert_eq!(again, scene, "{}", trial.name),
            Err(refusal) => assert_eq!((refusal.number, refusal.third), (8, 0), "{}", trial.name),
        }
        read += 1;
        long += (written.len() > 32_768) as usize;
    }
    assert!(read > 100 && long > 0, "{read} {long}");
}

/// Every fault, and each two, was tried: in a line, in two, in two files, and before 14.
#[test]
fn each_fault_and_each_two_are_tried() {
    let mut missing: BTreeSet<Cell> = cells().into_iter().collect();
    for trial in trials() {
        let reached = reached(&trial.start, &trial.end);
        assert!(reached.iter().all(|cell| cells().contains(cell) || matches!(cell, Cell::InOneLine(..))), "{reached:?}");
        missing.retain(|cell| !reached.contains(cell));
    }
    assert!(missing.is_empty(), "never tried: {missing:?}");
}

/// Each mistake is noticed, and told from every other.
#[test]
fn each_mistake_is_told_apart() {
    let mut unlike: BTreeSet<(usize, usize)> = BTreeSet::new();
    let ways: Vec<Wrong> = WRONG.into_iter().chain([Wrong::Nothing]).collect();
    for trial in some_trials() {
        let outcomes: Vec<_> = ways.iter().map(|&wrong| import_with(&trial.start, &trial.end, wrong)).collect();
        for i in 0..ways.len() {
            unlike.extend((i + 1..ways.len()).filter(|&j| outcomes[i] != outcomes[j]).map(|j| (i, j)));
        }
    }
    for i in 0..ways.len() {
        for j in i + 1..ways.len() {
            assert!(unlike.contains(&(i, j)), "{:?} is not told from {:?}", ways[i], ways[j]);
        }
    }
}

/// What docs/FORMAT.md says of decimals, and the scene that it shows, is what is read.
#[test]
fn the_page_tells_of_decimals_and_of_a_scene() {
    let page = std::fs::read_to_string(kept::folder().join("../docs/FORMAT.md")).unwrap();
    let part = page.split("## Two OBJ files").nth(1).unwrap().split("\n## ").next().unwrap();
    let mut held = 0;
    for row in part.split("| decimal | in the scene |\n").nth(1).unwrap().lines().skip(1).take_while(|row| row.starts_with('|')) {
        let cells: Vec<&str> = row.trim_matches('|').split(" | ").map(str::trim).collect();
        for field in cells[0].split("`, `").map(|field| field.trim_matches('`')) {
            let file = format!("v {field} 0 0\n");
            let given = match import(file.as_bytes(), file.as_bytes()) {
                Ok(scene) => scene.vertices[0][0].to_string(),
                Err(Refused { number, .. }) => (if number == 9 { "none: 9" } else { "too far: 2" }).into(),
            };
            assert_eq!(given, cells[1], "{field}");
            held += 1;
        }
    }
    assert_eq!(held, 19);
    let indented: Vec<&str> = part.lines().filter_map(|line| line.strip_prefix("    ")).collect();
    let shown = |front: &'static str| indented.iter().filter(move |line| line.starts_with(front));
    let two = shown("v ").chain(shown("f ")).filter_map(|line| line.split_once("  "));
    let (mut start, mut end) = (String::new(), String::new());
    for (first, second) in two {
        start += &format!("{}\n", first.trim());
        end += &format!("{}\n", second.trim());
    }
    assert_eq!(start.lines().count(), 6);
    let scene: String =
        ["v\t", "e\t", "t\t"].into_iter().flat_map(|front| shown(front).map(|line| format!("{line}\n"))).collect();
    assert_eq!(saved(&import(start.as_bytes(), end.as_bytes())), scene);
}

/// The pairs in scenes/obj have their reports and their scenes, and the page tells of each.
#[test]
fn the_example_files_have_their_reports() {
    let page = std::fs::read_to_string(kept::folder().join("README.md")).unwrap();
    let folder = kept::folder().join("obj");
    let pairs = kept_pairs();
    for pair in &pairs {
        let imported = import(&pair.start, &pair.end);
        let wanted = std::fs::read_to_string(folder.join(format!("{}.report", pair.name))).unwrap();
        assert_eq!(reported(&imported), wanted, "{}", pair.name);
        if let Ok(scene) = std::fs::read_to_string(folder.join(format!("{}.scene", pair.name))) {
            assert_eq!(saved(&imported), scene, "{}", pair.name);
        } else {
            assert!(imported.is_err(), "{} has no scene", pair.name);
        }
        assert!(page.contains(&format!("\n+ obj/{}: ", pair.name)), "{} has no line", pair.name);
    }
    assert_eq!(pairs.len(), page.lines().filter(|line| line.starts_with("+ obj/")).count());
}

/// Every refusal is said in words behind its own line: with the line as it stands and a reason, or what differs.
#[test]
fn a_refusal_is_said_in_words() {
    let (mut refused, mut numbers) = (0, BTreeSet::new());
    for trial in fixed().into_iter().chain((0..40).flat_map(seeded)) {
        let imported = import(&trial.start, &trial.end);
        let words = compare::obj::blame::in_words(&trial.start, &trial.end);
        let Err(refusal) = imported else {
            assert_eq!(words, None);
            continue;
        };
        let words = words.expect("words");
        let (first, rest) = words.split_once('\n').expect("two lines");
        assert!(reported(&Err(refusal)).starts_with(first) && rest.ends_with('\n'), "{words}");
        let reasons = rest.lines().filter(|line| line.starts_with("  ")).count();
        assert_eq!(reasons > 0, refusal.file.is_some() && refusal.number != 8, "{words}");
        refused += 1;
        numbers.insert(refusal.number);
    }
    assert!(refused > 100, "{refused}");
    assert_eq!(numbers.into_iter().collect::<Vec<u64>>(), [2, 3, 4, 8, 9, 10, 11, 14]);
}
