//! What docs/TRAINING.md shows is what the programs print, and what it says of its scenes is so.

use compare::calls::stored;
use compare::contacts;
use compare::list::listing;
use compare::making::kept;
use compare::numbers::equations::{meet, Point};
use compare::obj;
use compare::report::mistakes::{self, Right};
use compare::report::report;
use compare::scene::{Pair, Scene, REPORT_ROOM};
use compare::series;
use compare::showing::explain::explained;
use compare::text::read;
use compare::verdicts::settled::{of_pair, Settled};
use compare::verdicts::verdict::{of_pieces, Verdict};

fn page() -> String {
    std::fs::read_to_string(kept::folder().join("../docs/TRAINING.md")).unwrap()
}

fn text(path: &str) -> Vec<u8> {
    std::fs::read(kept::folder().join("..").join(path)).unwrap_or_else(|error| panic!("{path}: {error}"))
}

fn scene(name: &str) -> Scene {
    read(&text(&format!("scenes/training/{name}.scene"))).unwrap()
}

fn wrong(key: &str, room: usize, text: &[u8]) -> String {
    mistakes::find(key).unwrap_or_else(|| panic!("no mistake is called {key}")).report(&Right::of(text, room))
}

/// What a command of the page prints: a program, a scene, and at times only the first or the last lines.
fn printed(command: &str) -> String {
    let (command, cut) = command.split_once(" | ").unwrap_or((command, ""));
    if let Some(whole) = of_two_files(command) {
        return shortened(whole, cut);
    }
    let (program, scene) = command.split_once(" < ").unwrap_or_else(|| panic!("no scene: {command}"));
    let text = text(scene);
    let room = |word: Option<&&str>| word.map_or(REPORT_ROOM, |word| word.parse().unwrap());
    let words: Vec<&str> = program.split(' ').collect();
    let whole = match words[..] {
        ["./makhnodri", "report"] => report(&text, REPORT_ROOM),
        ["compare/show", "exact", ..] => report(&text, room(words.get(2))),
        ["compare/show", "wrong", key, ..] => wrong(key, room(words.get(3)), &text),
        ["./makhnodri", "contacts"] | ["compare/contacts", "--exact"] => contacts::printed(&text, REPORT_ROOM),
        ["compare/contacts", "--wrong", key] => {
            let mistake = contacts::mistakes::find(key).unwrap_or_else(|| panic!("no mistake is called {key}"));
            contacts::mistakes::printed(mistake, &text, REPORT_ROOM)
        }
        ["./makhnodri", "series"] | ["compare/series", "--exact"] => series::printed(&text, REPORT_ROOM),
        ["compare/series", "--wrong", key] => {
            let mistake = series::mistakes::find(key).unwrap_or_else(|| panic!("no mistake is called {key}"));
            mistake.outcome(&series::mistakes::Right::of(&text)).printed
        }
        ["compare/show", "why"] => explained(&read(&text).unwrap()),
        _ => panic!("no such command: {command}"),
    };
    shortened(whole, cut)
}

/// What a command prints that takes two OBJ files.
fn of_two_files(command: &str) -> Option<String> {
    let words: Vec<&str> = command.split(' ').collect();
    let (key, files) = match words[..] {
        ["./makhnodri", "obj", start, end] => ("Nothing", [start, end]),
        ["compare/obj", "--wrong", key, start, end] => (key, [start, end]),
        _ => return None,
    };
    let ways = obj::WRONG.into_iter().chain([obj::Wrong::Nothing]);
    let wrong =
        ways.into_iter().find(|wrong| format!("{wrong:?}") == key).unwrap_or_else(|| panic!("no mistake is called {key}"));
    Some(obj::reported(&obj::import_with(&text(files[0]), &text(files[1]), wrong)))
}

/// Only the first or the last lines.
fn shortened(whole: String, cut: &str) -> String {
    let lines: Vec<&str> = whole.split_inclusive('\n').collect();
    match cut.split(' ').collect::<Vec<&str>>()[..] {
        ["head", "-n", count] => lines[..count.parse().unwrap()].concat(),
        ["tail", "-n", count] => lines[lines.len() - count.parse::<usize>().unwrap()..].concat(),
        [""] => whole,
        _ => panic!("no such cut: {cut}"),
    }
}

#[test]
fn every_terminal_of_the_page() {
    let page = page();
    let mut commands = 0;
    for terminal in page.split("```console\n").skip(1) {
        let terminal = terminal.split("```").next().unwrap();
        for part in terminal.split("$ ").skip(1) {
            let (command, shown) = part.split_once('\n').unwrap();
            assert_eq!(printed(command), shown, "{command}");
            commands += 1;
        }
    }
    assert!(commands > 20, "{commands} commands");
}

/// The verdict of the one pair, exact and with each small number in the table's head.
#[test]
fn the_table_of_small_numbers() {
    let page = page();
    let cells = |line: &str| line.split('|').map(|cell| cell.trim().to_string()).collect::<Vec<String>>();
    let head = cells(page.lines().find(|line| line.starts_with("| scene | exact |")).unwrap());
    let rows: Vec<Vec<String>> = page.lines().filter(|line| line.starts_with("| training/")).map(cells).collect();
    assert_eq!(rows.len(), 2);
    for row in rows {
        let text = text(&format!("scenes/{}.scene", row[1]));
        let verdict = |report: String| report.lines().next().unwrap().rsplit('\t').next().unwrap().to_string();
        assert_eq!(row[2], verdict(report(&text, REPORT_ROOM)));
        for (number, cell) in head.iter().zip(&row).skip(3).filter(|(number, _)| !number.is_empty()) {
            assert_eq!(*cell, verdict(wrong(&format!("cubic-{number}"), REPORT_ROOM, &text)), "{} {number}", row[1]);
        }
    }
}

/// Every picture and every scene that the page names is there; every training scene is named.
#[test]
fn pictures_and_scenes() {
    let page = page();
    for link in page.split("](pictures/").skip(1) {
        text(&format!("docs/pictures/{}", link.split(')').next().unwrap()));
    }
    for (name, _) in kept::scenes() {
        assert!(!name.starts_with("training/") || page.contains(&name), "{name} is on no page");
    }
}

#[test]
fn the_pieces_that_are_told() {
    use Verdict::{Degenerate as D, Hit as H, Miss as M};
    assert_eq!(of_pieces(&scene("hair"), Pair::pt(3, 0)), [H, M, M]);
    assert_eq!(of_pieces(&scene("hair-short"), Pair::pt(3, 0)), [M, M, M]);
    assert_eq!(of_pieces(&scene("crack"), Pair::pt(4, 0)), [M, M, M]);
    assert_eq!(of_pieces(&scene("crack"), Pair::pt(4, 1)), [M, M, H]);
    for (name, second) in [("seam-open", [M, M, M]), ("seam-closed", [M, M, H])] {
        assert_eq!(of_pieces(&scene(name), Pair::pt(3, 0)), [M, M, M]);
        assert_eq!(of_pieces(&scene(name), Pair::pt(3, 1)), second);
    }
    let flat = scene("flat");
    let pairs = [Pair::pt(3, 0), Pair::pt(4, 0), Pair::pt(5, 0), Pair::ee(0, 1)];
    assert!(pairs.iter().all(|&pair| of_pieces(&flat, pair).iter().all(|&verdict| verdict == D)));
    // three touch, the point beside the triangle does not
    let (touch, apart) = (Settled::Touch, Settled::Apart);
    assert_eq!(pairs.map(|pair| of_pair(&flat, pair)), [touch, touch, apart, touch]);
}

/// Whether a point and a triangle touch under straight motion at time p/q.
fn touch_straight(scene: &Scene, pair: Pair, p: i64, q: i64) -> bool {
    let at = |vertex: &usize| -> Point {
        let v = scene.vertices[*vertex];
        [0, 1, 2, 3].map(|axis| if axis == 3 { 0 } else { (q - p) * v[axis] + p * v[axis + 3] })
    };
    let (first, second) = pair.parts(scene);
    meet(&first.iter().map(at).collect::<Vec<Point>>(), &second.iter().map(at).collect::<Vec<Point>>())
}

#[test]
fn the_two_models() {
    let scene = scene("two-models");
    let (dips, keeps_clear) = (Pair::pt(3, 0), Pair::pt(4, 0));
    assert!(touch_straight(&scene, dips, 1, 4) && touch_straight(&scene, dips, 3, 4));
    assert_eq!(of_pieces(&scene, dips), [Verdict::Miss; 3]);
    // above the flat face all the time: 1 - 2t + 2t^2, up to a factor, which is never 0
    let above = |t: i64, whole: i64| {
        let at = |v: usize, axis: usize| (whole - t) * scene.vertices[v][axis] + t * scene.vertices[v][axis + 3];
        at(2, 0) * at(4, 2) - at(2, 2) * at(4, 0)
    };
    for t in 0..=100 {
        assert_eq!(above(t, 100), 128 * (100 * 100 - 2 * 100 * t + 2 * t * t));
    }
    assert!(of_pieces(&scene, keeps_clear).contains(&Verdict::Hit));
}

/// The boxes that the page tells of a vertex that is dragged, and what is listed then.
#[test]
fn the_boxes_of_a_dragged_vertex() {
    let scene = read(&text("scenes/printed.scene")).unwrap();
    let mut dragged = scene.clone();
    dragged.vertices[3] = [1, 1, 9, 1, 1, 3];
    let [old, new] = [&scene, &dragged].map(|scene| stored::box_of(scene, &[3]));
    let grown = std::array::from_fn(|k| if k < 3 { old[k].min(new[k]) } else { old[k].max(new[k]) });
    let edges = [&scene, &dragged].map(|scene| stored::box_of(scene, &scene.edges[1]));
    for told in [new, grown, edges[0], edges[1]] {
        let told = told.map(|number| number.to_string()).join(" ");
        assert!(page().contains(&told), "{told} is not on the page");
    }
    let vertex_3 = |pair: &Pair| *pair == Pair::pt(3, 0);
    assert!(listing::listed(&scene).iter().any(vertex_3) && !listing::listed(&dragged).iter().any(vertex_3));
}

/// What the page says of the sleeve: when nothing happens, what goes through, and what a log that goes round has lost.
#[test]
fn the_log_of_the_sleeve() {
    let page = page();
    let drawn = series::read(&text("scenes/series/sleeve.series")).unwrap();
    let judged: Vec<series::Judged> = drawn.steps().iter().map(series::judged).collect();
    let hits = series::hits(&judged);
    let first = hits[0];
    assert_eq!((judged.len(), hits.len(), first), (36, 186, series::HitAt { step: 12, pair: Pair::pt(30, 11) }));
    let lost = &hits[..hits.len() - series::LOG_LIMIT];
    let in_step = |step: u64| lost.iter().filter(|hit| hit.step == step).count();
    assert_eq!((lost.len() - in_step(28), in_step(28), lost.last().unwrap().step), (121, 1, 28));
    assert!(hits[lost.len()..].iter().all(|hit| hit.pair != first.pair));
    for words in ["in 36 steps. For eleven of them nothing happens", "In step 12 its corner, vertex 30", "186 in all"] {
        assert!(page.contains(words), "{words}");
    }
    assert!(page.contains("All 121 hits of steps 12 to 27 are gone, and one of step 28."));
}
