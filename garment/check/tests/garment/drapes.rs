//! Series of frames: a cloth of masses and springs, whose first pierced frame is the one behind the first hit; the log over the steps; and how often a file
//! is read.

use compare::making::spring::Springs;
use garment::clean::at_start;
use garment::fault::Fault;
use garment::frames::{Files, Frames, Wanted};
use garment::judge::{Judge, Which};
use garment::mark::Marked;
use garment::mesh::Mesh;
use garment::obj;
use garment::report::Form;
use garment::rounding::{Bounds, Grid};
use garment::series::{judged, write, Asked, Hit, Log};
use garment::whereabouts::Whereabouts;
use garment::whole::Beside;
use garment_check::cloth::{drape, obj as text_of, Place};
use garment_check::exact;
use garment_check::ways::{about, no_bar, told_of};
use makhnodri::{Settled, CONTACT_LIMIT, COORDINATE_LIMIT, LOG_LIMIT};
use std::collections::BTreeMap;
use std::path::PathBuf;

/// A folder of frames, which goes when this does.
struct Folder(PathBuf);

impl Folder {
    fn new(name: &str, frames: &[Vec<Place>], faces: &[Vec<u32>]) -> (Folder, Vec<String>) {
        let folder = std::env::temp_dir().join(format!("garment-{name}-{}", std::process::id()));
        std::fs::create_dir_all(&folder).expect("a folder");
        let write = |(at, places): (usize, &Vec<Place>)| {
            let name = folder.join(format!("{at:03}.obj"));
            std::fs::write(&name, text_of(places, faces)).expect("it is written");
            name.display().to_string()
        };
        let names = frames.iter().enumerate().map(write).collect();
        (Folder(folder), names)
    }
}

impl Drop for Folder {
    fn drop(&mut self) {
        let _ = std::fs::remove_dir_all(&self.0);
    }
}

/// What a series is asked for here.
struct How {
    step: Option<f64>,
    threads: usize,
    /// The bytes of frames that are held.
    room: Option<usize>,
    body: Vec<String>,
}

const PLAIN: How = How { step: None, threads: 2, room: None, body: Vec::new() };

/// Frames with a step, and the mesh without places.
fn begun(names: &[String], how: &How, limit: i32) -> Result<(Frames, Mesh, f64), Fault> {
    let files = Files { frames: names.to_vec(), body: how.body.clone() };
    let (mut frames, first) = Frames::begun(files, limit)?;
    frames.room = how.room.unwrap_or(frames.room);
    let Wanted { step, chosen } = frames.set_step(how.step, how.threads, &mut no_bar())?;
    assert_eq!(chosen, how.step.is_none());
    Ok((frames, Mesh::new(vec![[0; 6]; first.places.len()], first.triangles), step))
}

fn asked<'a>(mesh: &'a Mesh, form: &'a Form, threads: usize) -> Asked<'a> {
    Asked { mesh, choice: None, whereabouts: None, form, marked: false, sewn: false, threads }
}

fn log_of(names: &[String], how: &How) -> Result<(Log, f64), Fault> {
    let (frames, mesh, step) = begun(names, how, COORDINATE_LIMIT)?;
    Ok((judged(&asked(&mesh, &Form::default(), how.threads), &frames, &mut no_bar())?, step))
}

/// Each frame at rest on the grid.
fn at_rest(names: &[String], step: f64) -> Vec<Mesh> {
    let mesh = |name: &String| {
        let frame = obj::read_file(name).expect("it is read");
        let grid = Grid::of(&Bounds::of(&frame.places), Some(step), COORDINATE_LIMIT).expect("a grid");
        let places = grid.frame(&frame.places, COORDINATE_LIMIT).expect("it fits").places;
        Mesh::new(places.iter().map(|&[x, y, z]| [x, y, z, x, y, z]).collect(), frame.triangles)
    };
    names.iter().map(mesh).collect()
}

/// How many edges are through a triangle in a frame, each tried with each by the independent program.
fn pierced_in(frame: &Mesh) -> usize {
    let scene = exact::scene(frame);
    let every = (0..frame.edges.len()).flat_map(|edge| (0..frame.triangles.len()).map(move |triangle| (edge, triangle)));
    every.filter(|&(edge, triangle)| exact::pierced(&scene, edge, triangle)).count()
}

#[test]
fn the_frame_behind_the_first_hit_is_the_first_that_is_pierced() {
    for seed in [1, 2, 3] {
        let mut cloth = Springs::new(8, seed);
        let faces: Vec<Vec<u32>> =
            cloth.triangles().iter().map(|corners| corners.iter().map(|&corner| corner as u32).collect()).collect();
        let mut frames = vec![cloth.places.clone()];
        for _ in 0..25 {
            cloth.fall();
            frames.push(cloth.places.clone());
        }
        let (_folder, names) = Folder::new(&format!("springs-{seed}"), &frames, &faces);
        let (log, step) = log_of(&names, &PLAIN).expect("a series");
        let meshes = at_rest(&names, step);
        let own = |mesh: &Mesh| {
            at_start(&Judge::new(mesh).expect("a mesh"), None, 1, &mut no_bar(), |_| Ok(())).expect("decided").count as usize
        };
        let pierced: Vec<usize> = meshes.iter().map(pierced_in).collect();
        assert_eq!(meshes.iter().map(own).collect::<Vec<usize>>(), pierced, "seed {seed}");
        let first = pierced.iter().position(|&count| count > 0).expect("it goes through itself");
        assert!(first > 5, "seed {seed}: frame {first}");
        assert_eq!(log.first, first, "seed {seed}");
    }
}

/// A drape that falls: the log has the first 64 hits and counts the others, whatever the threads, and says of what its totals are.
#[test]
fn the_log_of_a_drape() {
    let frames: Vec<Vec<Place>> = (0..5).map(|frame| drape(300, frame, 1).0).collect();
    let (_folder, names) = Folder::new("drape", &frames, &drape(300, 0, 1).1);
    let (log, step) = log_of(&names, &How { threads: 3, ..PLAIN }).expect("a series");
    assert_eq!(log_of(&names, &How { threads: 1, ..PLAIN }).expect("a series").0, log);
    assert!(log.first > 1 && log.hits.len() == LOG_LIMIT && log.later > 0, "{log:?}");
    assert!(log.hits.is_sorted_by_key(|hit| hit.step) && log.hits[0].step == log.first);
    assert!(log.farthest.0 > 5.0, "{:?}", log.farthest);
    let (mut out, mesh, form) = (Vec::new(), &at_rest(&names, step)[0], Form::default());
    write(&log, &about(mesh), names.len(), &asked(mesh, &form, 1), &mut out).expect("it is written");
    let lines: Vec<String> = String::from_utf8(out).expect("text").lines().map(str::to_string).collect();
    assert_eq!(lines.len(), LOG_LIMIT + 4);
    assert_eq!(
        [&lines[64], &lines[65], &lines[67]],
        [&format!("later\t{}", log.later), "of\tnear", &format!("first\t{}", log.first)]
    );
}

/// Frames that are held and frames that are read a second time, with a step that is chosen and with the same one given, have one log; and a frame that is
/// read a second time is looked at again.
#[test]
fn held_or_read_again() {
    let frames: Vec<Vec<Place>> = (0..5).map(|frame| drape(300, frame, 1).0).collect();
    let faces = drape(300, 0, 1).1;
    let (_folder, names) = Folder::new("held", &frames, &faces);
    let (log, step) = log_of(&names, &PLAIN).expect("a series");
    let bytes = 24 * frames[0].len();
    for room in [0, bytes, 2 * bytes + 1] {
        assert_eq!(log_of(&names, &How { room: Some(room), ..PLAIN }).expect("a series").0, log, "{room}");
    }
    assert_eq!(log_of(&names, &How { step: Some(step), ..PLAIN }).expect("a series").0, log);
    for (room, told) in [(0, Some("has changed since it was read first")), (1 << 20, None)] {
        let (frames_read, mesh, _) = begun(&names, &How { room: Some(room), ..PLAIN }, COORDINATE_LIMIT).expect("frames");
        let far: Vec<Place> = frames[3].iter().map(|[x, y, z]| [x * 50.0, y * 50.0, *z]).collect();
        std::fs::write(&names[3], text_of(&far, &faces)).expect("it is written");
        let again = judged(&asked(&mesh, &Form::default(), 2), &frames_read, &mut no_bar());
        assert_eq!(again.is_err(), told.is_some());
        assert!(told.is_none_or(|told| again.expect_err("it has changed").words.contains(told)));
        std::fs::write(&names[3], text_of(&frames[3], &faces)).expect("it is written");
    }
}

/// The hits of one step, its totals by names and its marks, from a report of two times on the same grid.
fn own_step(texts: [String; 2], step: f64, json: bool) -> (Vec<String>, BTreeMap<String, [u64; 5]>, Vec<Marked>) {
    let [start, end] = texts.map(|text| obj::read("frame.obj", text.as_bytes()).expect("it is read"));
    let rounded = garment::rounding::onto_grid(&start.places, &end.places, Some(step), CONTACT_LIMIT).expect("it is on the grid");
    let (names, grid) = (start.names.clone(), Grid { step: rounded.step, middle: rounded.middle });
    let mesh = garment::mesh::join("frame.obj", start, &end, rounded, false).expect("a mesh");
    let whereabouts = Some(Whereabouts::new(&mesh, names, grid));
    let beside = Beside { whereabouts, marked: true, ..Beside::default() };
    let (text, told) = told_of(&mesh, &Form { json, ..Form::default() }, Which::Near, &beside, 1);
    let mut sums = BTreeMap::new();
    for line in text.lines().filter_map(|line| line.strip_prefix("names\t")) {
        let fields: Vec<&str> = line.split('\t').collect();
        let counts = [2, 3, 4, 5, 6].map(|at| fields[at].parse().expect("a count"));
        sums.insert(fields[..2].join("\t"), counts);
    }
    let hit = if json { "\"word\":\"hit\"" } else { "\thit\t" };
    let hits = text.lines().filter(|line| line.contains(hit)).map(|line| line.trim_end_matches(',').replace(hit, "|"));
    (hits.collect(), sums, told.marked)
}

/// Where each hit of a log is: what the report of that step alone says, words left out; totals by names sum up; and the step of the first hit is shown.
#[test]
fn where_a_series_is_hit() {
    let frames: Vec<Vec<Place>> = (0..5).map(|frame| drape(300, frame, 1).0).collect();
    let faces = drape(300, 0, 1).1;
    let (_folder, names) = Folder::new("where", &frames, &faces);
    for json in [false, true] {
        let (frames_read, mesh, step) = begun(&names, &PLAIN, CONTACT_LIMIT).expect("frames");
        let of_first = obj::read_file(&names[0]).expect("it is read").names;
        let whereabouts = Whereabouts::new(&mesh, of_first, Grid { step, middle: [0; 3] });
        let form = Form { json, ..Form::default() };
        let asked = Asked { whereabouts: Some(&whereabouts), marked: true, ..asked(&mesh, &form, 2) };
        let log = judged(&asked, &frames_read, &mut no_bar()).expect("a log");
        let (mut lines, mut sums): (Vec<String>, BTreeMap<String, [u64; 5]>) = Default::default();
        for at in 0..4 {
            let texts = [at, at + 1].map(|at| text_of(&frames[at], &faces));
            let (hits, of_step, marked) = own_step(texts, step, json);
            lines.extend(hits.into_iter().map(|hit| format!("{} {hit}", at + 1)));
            for (names, counts) in of_step {
                let sum = sums.entry(names).or_default();
                (0..5).for_each(|count| sum[count] += counts[count]);
            }
            if log.first == at + 1 {
                assert_eq!(log.shown.as_ref().expect("it is shown").marked, marked);
            }
        }
        let part = if json { "," } else { "\t" };
        let own = |Hit { step, pair, tail }: &Hit| match json {
            true => format!("{step} {{\"kind\":\"{}\",\"first\":{},\"second\":{},|{tail}}}", pair.kind, pair.first, pair.second),
            false => format!("{step} {}\t{}\t{}|{}", pair.kind, pair.first, pair.second, &tail[part.len()..]),
        };
        assert_eq!(log.hits.iter().map(own).collect::<Vec<_>>(), lines[..LOG_LIMIT]);
        let mut out = Vec::new();
        write(&log, &about(&mesh), names.len(), &asked, &mut out).expect("it is written");
        let text = String::from_utf8(out).expect("text");
        for (names, counts) in sums {
            let row = counts.map(|count| count.to_string()).join("\t");
            assert!(text.contains(&format!("names\t{names}\t{row}\n")), "{names} {row}");
        }
        assert!(text.contains(if json { "\"names\":[\n" } else { "\nnames\tcloth\tcloth\t" }), "{text}");
    }
}

/// Nothing is hit: the last step is shown, at its end.
#[test]
fn what_is_shown_of_a_clean_series() {
    let frames: Vec<Vec<Place>> = (0..2).map(|frame| drape(50, frame, 1).0).collect();
    let (_folder, names) = Folder::new("shown", &frames, &drape(50, 0, 1).1);
    let (frames_read, mesh, _) = begun(&names, &PLAIN, CONTACT_LIMIT).expect("frames");
    let form = Form::default();
    let log = judged(&Asked { marked: true, ..asked(&mesh, &form, 2) }, &frames_read, &mut no_bar()).expect("a log");
    let shown = log.shown.expect("it is shown");
    assert!(log.first == 0 && shown.marked.iter().all(|marked| marked.time.is_none()), "{:?}", shown.marked);
    assert_eq!(shown.mesh.positions.len(), frames[0].len());
}

/// A drape that goes far, with a step that is given: each step counts from its own middle, and has what two files have; where one step is too long that is
/// told, with a step that is enough.
#[test]
fn a_drape_that_goes_far() {
    let near: Vec<Vec<Place>> = (0..5).map(|frame| drape(300, frame, 1).0).collect();
    let away = |by: f64| -> Vec<Vec<Place>> {
        let shift = |(at, places): (usize, &Vec<Place>)| places.iter().map(|[x, y, z]| [x + by * at as f64, *y, *z]).collect();
        near.iter().enumerate().map(shift).collect()
    };
    let faces = drape(300, 0, 1).1;
    let (_folder, names) = Folder::new("far", &away(90_000.0), &faces);
    let how = How { step: Some(0.1), ..PLAIN };
    let (log, _) = log_of(&names, &how).expect("each step has room");
    let mut hits = 0;
    for at in 0..4 {
        let texts = [at, at + 1].map(|at| std::fs::read_to_string(&names[at]).expect("it is there"));
        let mesh = garment_check::ways::mesh_of(&texts, Some(0.1), false).expect("a mesh");
        let (_, told) = told_of(&mesh, &Form::default(), Which::Near, &Beside::default(), 1);
        hits += told.tally.of(Settled::Hit);
    }
    assert!(hits > 0 && log.tally.of(Settled::Hit) == hits, "{hits} {:?}", log.tally);
    assert!(log_of(&names, &PLAIN).expect("a coarser grid").1 > 0.1);
    let (_folder, names) = Folder::new("farther", &away(200_000.0), &faces);
    let fault = log_of(&names, &how).expect_err("no room").words;
    assert!(fault.contains("000.obj and ") && fault.contains("take a larger --step; 0.2 is enough"), "{fault}");
}

/// Frames of other meshes are told by their names.
#[test]
fn a_frame_of_another_mesh() {
    let (places, faces) = drape(50, 0, 1);
    let (_folder, mut names) = Folder::new("other", &[places.clone(), places.clone(), places], &faces);
    std::fs::write(&names[2], "v 0 0 0\n").expect("it is written");
    for step in [None, Some(0.1)] {
        let fault = log_of(&names, &How { step, ..PLAIN }).expect_err("another mesh").words;
        assert!(fault.contains("002.obj has 1"), "{fault}");
    }
    names.truncate(2);
    assert_eq!(log_of(&names, &PLAIN).expect("two frames").0.first, 0);
}
