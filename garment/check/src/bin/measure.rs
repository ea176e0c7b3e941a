//! usage: measure FOLDER [called] [parts] [former] [grid] [order] [sizes] [sheet] [folds] [tight] [drape] [VERTICES..]
//! What the program takes on garments that are made, as it is called and by its parts; its judging over a cubic's; and each part over what it was: reading,
//! edges, seams and lines as they were made, pairs by a grid and judged in scenes of 128. All tables, where none is named. FOLDER takes the files.
//! Where GARMENT_BEFORE names an earlier program, it is called beside this one. Times by parts are the processor's, so that what else runs on the machine
//! is not in them.

use compare::ways::cubic::{self, Moving};
use garment::edges;
use garment::judge::{Judge, Which};
use garment::judging::{settle, Packed, TOGETHER};
use garment::mesh::{self, Mesh};
use garment::obj;
use garment::pairs::{Kind, Pair};
use garment::report::Form;
use garment::rounding::onto_grid;
use garment::seams;
use garment::work::all_cores;
use garment_check::beside::{as_asked, in_order, measured, stretches, Beside};
use garment_check::clocks::{run, taken, Run};
use garment_check::cloth::{cloth, drape, obj as cloth_text, Kind as ClothKind, KINDS};
use garment_check::former;
use garment_check::grid::Finder;
use garment_check::ways::{made, mesh_of};
use makhnodri::{Scratch, Settled, COORDINATE_LIMIT};
use std::hint::black_box;
use std::process::Command;

/// The tolerance of the cubic that is timed, as in bench/.
const TOLERANCE: f64 = 1e-6;
/// Of each way the shortest of as many rounds counts.
const ROUNDS: usize = 9;

fn main() {
    keep_pages();
    let words: Vec<String> = std::env::args().skip(1).collect();
    let [folder, rest @ ..] = &words[..] else {
        eprintln!(
            "usage: measure FOLDER [called] [parts] [former] [grid] [order] [sizes] [sheet] [folds] [tight] [drape] [VERTICES..]"
        );
        std::process::exit(2);
    };
    let (sizes, words): (Vec<&String>, Vec<&String>) = rest.iter().partition(|word| word.parse::<usize>().is_ok());
    let (sorts, tables): (Vec<&String>, Vec<&String>) = words.into_iter().partition(|word| SORTS.contains(&word.as_str()));
    let sorted = |name: &str| sorts.is_empty() || sorts.iter().any(|sort| name.starts_with(sort.as_str()));
    let sizes: Vec<usize> = sizes.iter().filter_map(|size| size.parse().ok()).collect();
    let sizes = if sizes.is_empty() { vec![20_000, 100_000] } else { sizes };
    let asked = |table: &str| tables.is_empty() || tables.iter().any(|asked| *asked == table);
    let all: [(&str, &dyn Fn()); 6] = [
        ("called", &|| as_called(folder, &sizes)),
        ("parts", &|| by_parts(&sizes)),
        ("former", &|| beside_former(&sizes)),
        ("grid", &|| beside_grid(&sizes, &sorted)),
        ("order", &|| in_any_order(&sizes)),
        ("sizes", &|| by_sizes(&sizes, &sorted)),
    ];
    all.iter().filter(|(table, _)| asked(table)).for_each(|(_, print)| print());
}

/// What a round gives back stays with the process from here on: a block of this size that was given back raises the size from which the allocator asks the
/// system for each block anew, and the first garment would be measured with that and all others without.
fn keep_pages() {
    drop(black_box(vec![1u8; 24 << 20]));
}

/// The table beside the grid is of all of these, or of those that are named.
const SORTS: [&str; 4] = ["sheet", "folds", "tight", "drape"];

/// What is measured of a size: the texts of its files.
struct Garment {
    name: String,
    texts: Box<dyn Fn() -> [String; 2]>,
}

/// Cloth that is made, and two frames of a drape that falls.
fn garments(size: usize) -> Vec<Garment> {
    let frame = move |at| {
        let (places, faces) = drape(size, at, 1);
        cloth_text(&places, &faces)
    };
    let of_kind =
        |kind: ClothKind| Garment { name: format!("{} {size}", kind.name), texts: Box::new(move || cloth(kind, size, 1).objs()) };
    let falling = Garment { name: format!("drape {size}"), texts: Box::new(move || [0, 1].map(frame)) };
    KINDS.into_iter().map(of_kind).chain([falling]).collect()
}

/// Pairs of a stretch of rows, about, which is asked for in one call; and of a large mesh so many for each vertex, since a call begins with boxes and trees of
/// all of it. No more than are held until it is known that they fit, 2^23, or rows are walked twice.
const IN_A_CALL: u64 = 1 << 22;
const FOR_A_VERTEX: u64 = 8;

/// How many rows are asked for in one call, so that it has about as many pairs.
fn rows_of_a_call(judge: &Judge, which: Which) -> usize {
    let rows = judge.rows();
    let scratch = &mut Scratch::default();
    let pairs: u64 = stretches(judge, rows)
        .map(|some| judge.lent(some.start).count_rows(scratch, which, some).expect("they are counted"))
        .sum();
    let in_a_call = IN_A_CALL.max(FOR_A_VERTEX * judge.mesh().positions.len() as u64);
    rows.div_ceil(pairs.div_ceil(in_a_call).max(1) as usize)
}

/// Rounds of parts in any order, and up to how many vertices they are listed without an order too.
const ORDER_ROUNDS: usize = 5;
const BARE: usize = 20_000;

/// Rounds end behind so many seconds, but not before so many of them.
const FEWEST: usize = 3;
const LONG: f64 = 4.0;

/// Finding and judging by the grid and by scenes of 128 pairs, and by the library's rows: ns of processor time a listed pair, and the ratios.
fn beside_grid(sizes: &[usize], sorted: &dyn Fn(&str) -> bool) {
    println!("\none thread, ns of its processor time a listed pair: by the grid, its pairs in scenes of 128, rows listed, rows judged, near rows judged, hits");
    println!("and touches kept of near rows; then rows listed over the grid, judging over scenes of 128, near rows and kept ones over grid and scenes of 128;");
    println!("ms of a call for no rows, and of all edges that are through a triangle at the start");
    println!(
        "  {:<16}{:>12}{:>12}{:>8}{:>8}{:>8}{:>8}{:>8}{:>8}{:>9}{:>7}{:>7}{:>7}{:>9}{:>9}",
        "",
        "listed",
        "near",
        "grid",
        "scenes",
        "list",
        "settle",
        "near",
        "kept",
        "find",
        "judge",
        "near",
        "kept",
        "call",
        "pierced"
    );
    let all = sizes.iter().flat_map(|&size| garments(size)).filter(|garment| sorted(&garment.name));
    for Garment { name, texts } in all {
        let mesh = mesh_of(&texts(), None, false).expect("a mesh");
        let judge = Judge::new(&mesh).expect("a mesh");
        let [length, near_length] = [Which::Listed, Which::Near].map(|which| rows_of_a_call(&judge, which));
        let row = rounds(|| measured(&mesh, &judge, length, near_length));
        let each = |seconds: f64| format!("{:>8.1}", 1e9 * seconds / row.listed as f64);
        let times = [row.grid, row.packed, row.list, row.settle, row.near_settle, row.near_keep].map(each).concat();
        println!(
            "  {name:<16}{:>12}{:>12}{times}{:>9.3}{:>7.3}{:>7.3}{:>7.3}{:>9.2}{:>9.1}",
            row.listed,
            row.near,
            row.find(),
            row.judge(),
            row.near(),
            row.kept(),
            1e3 * row.call,
            1e3 * row.pierced
        );
    }
}

/// Faces in any order: pairs found by the grid, and rows listed with the order that is lent and without one, in seconds.
fn in_any_order(sizes: &[usize]) {
    println!("\none thread, faces in any order: seconds of its processor time by the grid, rows listed with an order lent and without, and over the grid");
    println!("  {:<16}{:>12}{:>10}{:>10}{:>10}{:>10}{:>10}", "", "listed", "grid", "order", "none", "order", "none");
    for &size in sizes {
        for kind in KINDS {
            let mesh = made(&cloth(kind, size, 1).in_any_order(2));
            let judge = Judge::new(&mesh).expect("a mesh");
            if judge.lent(judge.border()).edge_order.is_empty() {
                println!(
                    "  {:<16}{:>12}",
                    format!("{} {size}", kind.name),
                    "no order is lent: its parts stand within a few of their lengths in any order"
                );
                continue;
            }
            let (listed, [grid, order], none) =
                in_order(&mesh, &judge, rows_of_a_call(&judge, Which::Listed), ORDER_ROUNDS, size <= BARE);
            let name = format!("{} {size}", kind.name);
            let [none, over] = none.map_or(["-".into(), "-".into()], |none| [none, none / grid].map(|n| format!("{n:.2}")));
            println!("  {name:<16}{listed:>12}{grid:>10.3}{order:>10.3}{none:>10}{:>10.2}{over:>10}", order / grid);
        }
    }
}

/// What a pair costs in the calls in which the program asks for it, and over what it costs on the first size.
fn by_sizes(sizes: &[usize], sorted: &dyn Fn(&str) -> bool) {
    println!("\none thread, pairs found and judged as the program asks for them: ns of its processor time a listed pair, and over that of the first size");
    println!("  {:<16}{:>12}{:>8}{:>8}", "", "listed", "ns", "over");
    for kind in KINDS.into_iter().filter(|kind| sorted(kind.name)) {
        let mut first = None;
        for &size in sizes {
            let mesh = made(&cloth(kind, size, 1));
            let judge = Judge::new(&mesh).expect("a mesh");
            let (began, (pairs, mut best)) = (taken(), as_asked(&judge));
            for round in 1..ROUNDS {
                if round >= FEWEST && (taken() - began).as_secs_f64() > LONG {
                    break;
                }
                best = best.min(as_asked(&judge).1);
            }
            let each = 1e9 * best / pairs as f64;
            let over = each / *first.get_or_insert(each);
            println!("  {:<16}{pairs:>12}{each:>8.1}{over:>8.2}", format!("{} {size}", kind.name));
        }
    }
}

fn rounds(work: impl Fn() -> Beside) -> Beside {
    let (began, mut best) = (taken(), work());
    for round in 1..ROUNDS {
        if round >= FEWEST && (taken() - began).as_secs_f64() > LONG {
            break;
        }
        best = best.shortest(work());
    }
    best
}

/// The shortest times of two ways to the same, in turns.
fn in_turns<T, U>(mut one: impl FnMut() -> T, mut other: impl FnMut() -> U) -> [f64; 2] {
    let mut best = [f64::MAX; 2];
    for _ in 0..ROUNDS {
        let began = taken();
        black_box(one());
        let between = taken();
        black_box(other());
        best[0] = best[0].min((between - began).as_secs_f64());
        best[1] = best[1].min((taken() - between).as_secs_f64());
    }
    best
}

/// Reading, edges, seams and lines as they were made before and as they are now, in turns: ms of processor time, and the ratio.
fn beside_former(sizes: &[usize]) {
    println!("\none thread, before and now: ms of its processor time");
    println!("  {:<16}{:>26}{:>26}{:>26}{:>26}", "", "read", "edges", "seams", "write");
    for kind in KINDS {
        for &size in sizes {
            let columns: String = former_and_now(kind, size)
                .iter()
                .map(|[before, now]| format!("{:>10.2}{:>9.2}{:>7.2}", 1e3 * before, 1e3 * now, now / before))
                .collect();
            println!("  {:<16}{columns}", format!("{} {size}", kind.name));
        }
    }
}

fn former_and_now(kind: ClothKind, size: usize) -> [[f64; 2]; 4] {
    let texts = cloth(kind, size, 1).objs();
    let bytes = texts.each_ref().map(|text| text.as_bytes());
    let reading = in_turns(|| bytes.map(|text| former::read("made", text)), || bytes.map(|text| obj::read("made", text)));
    let mesh = made(&cloth(kind, size, 1));
    let triangles = &mesh.triangles;
    let edging = in_turns(|| former::edges_of(triangles), || edges::of(mesh.positions.len(), triangles));
    let sewing = in_turns(|| former::by_position(&mesh.positions), || seams::by_position(&mesh.positions));
    let finder = Finder::new(&mesh);
    let pairs = finder.in_rows(0..finder.rows());
    let told: Vec<_> = pairs.iter().map(|&pair| (pair, settle(&mesh, pair).expect("a word"))).collect();
    let (list, words) = as_written(&told);
    let form = Form::default();
    let mut out = Vec::new();
    let before = || {
        out.clear();
        told.iter().for_each(|&(pair, word)| former::line(&form, pair, word, &mut out));
        out.len()
    };
    let mut out = Vec::new();
    let now = || {
        out.clear();
        form.lines(&list, &words, &mut out);
        out.len()
    };
    [reading, edging, sewing, in_turns(before, now)]
}

/// Pairs and words as the library writes them.
fn as_written(told: &[(Pair, Settled)]) -> (Vec<u64>, Vec<u8>) {
    told.iter().map(|&(pair, word)| (pair.entry(), word as u8)).unzip()
}

/// The shortest time of some work, in seconds, and what came of it.
fn shortest<T>(mut work: impl FnMut() -> T) -> (f64, T) {
    let mut best = f64::MAX;
    let mut result = None;
    for _ in 0..ROUNDS {
        let began = taken();
        result = Some(black_box(work()));
        best = best.min((taken() - began).as_secs_f64());
    }
    (best, result.expect("there is a round"))
}

/// The parts of the work on one thread, in milliseconds of its processor time.
fn by_parts(sizes: &[usize]) {
    println!("\none thread, by parts: ms of its processor time");
    println!(
        "  {:<16}{:>10}{:>8}{:>8}{:>8}{:>8}{:>8}{:>8}{:>11}{:>11}{:>7}",
        "", "pairs", "read", "mesh", "cells", "find", "judge", "write", "ns a pair", "by cubic", "ratio"
    );
    for kind in KINDS {
        for &size in sizes {
            parts_of(kind, size);
        }
    }
}

fn parts_of(kind: ClothKind, size: usize) {
    let texts = cloth(kind, size, 1).objs();
    let (reading, objs) = shortest(|| [0, 1].map(|i| obj::read("made", texts[i].as_bytes()).expect("it is read")));
    let [start, end] = &objs;
    let (meshing, mesh) = shortest(|| {
        let rounded = onto_grid(&start.places, &end.places, None, COORDINATE_LIMIT).expect("it fits");
        mesh::Mesh::new(rounded.positions, start.triangles.clone())
    });
    let (celling, finder) = shortest(|| Finder::new(&mesh));
    let (finding, pairs) = shortest(|| finder.in_rows(0..finder.rows()));
    let (judging, cubing) = both_ways(&mesh, &pairs);
    let told: Vec<_> = pairs.iter().map(|&pair| (pair, settle(&mesh, pair).expect("a word"))).collect();
    let (list, words) = as_written(&told);
    let (writing, _) = shortest(|| {
        let mut lines = Vec::new();
        Form::default().lines(&list, &words, &mut lines);
        lines.len()
    });
    let [reading, meshing, celling, finding, writing] =
        [reading, meshing, celling, finding, writing].map(|seconds| 1e3 * seconds);
    let each = |seconds: f64| 1e9 * seconds / pairs.len() as f64;
    println!(
        "  {:<16}{:>10}{reading:>8.0}{meshing:>8.0}{celling:>8.0}{finding:>8.0}{:>8.0}{writing:>8.0}{:>11.1}{:>11.1}{:>7.2}",
        format!("{} {size}", kind.name),
        pairs.len(),
        1e3 * judging,
        each(judging),
        each(cubing),
        judging / cubing
    );
}

/// Judging all pairs by the library and by the cubic, in turns. The cubic has its doubles ready made.
fn both_ways(mesh: &Mesh, pairs: &[Pair]) -> (f64, f64) {
    let moving: Vec<Moving> = mesh.positions.iter().map(|p| [0, 3].map(|at| [0, 1, 2].map(|axis| p[at + axis] as f64))).collect();
    let (mut library, mut doubles, mut packed) = (f64::MAX, f64::MAX, Packed::default());
    for _ in 0..ROUNDS {
        let began = taken();
        black_box(
            pairs
                .chunks(TOGETHER)
                .map(|some| packed.settle(mesh, some).expect("words").map(|word| word as u64).sum::<u64>())
                .sum::<u64>(),
        );
        let between = taken();
        black_box(pairs.iter().map(|&pair| by_cubic(mesh, &moving, pair) as u64).sum::<u64>());
        library = library.min((between - began).as_secs_f64());
        doubles = doubles.min((taken() - between).as_secs_f64());
    }
    (library, doubles)
}

fn by_cubic(mesh: &Mesh, moving: &[Moving], pair: Pair) -> bool {
    let at = |vertex: u32| &moving[vertex as usize];
    match pair.kind {
        Kind::PointTriangle => cubic::point_triangle(at(mesh.stood(pair.first)), mesh.corners(pair.second).map(at), TOLERANCE),
        Kind::EdgeEdge => cubic::edge_edge(mesh.ends(pair.first).map(at), mesh.ends(pair.second).map(at), TOLERANCE),
    }
}

/// The program as it is called, on one thread and on all: the shortest of the rounds, and the memory of its fullest moment. The system counts a
/// program's memory from before it becomes that program, so this is done while this one is small yet, and the files are made by another.
fn as_called(folder: &str, sizes: &[usize]) {
    println!("as it is called, report thrown away");
    println!(
        "  {:<16}{:>10}{:>9}{:>10}{:>20}{:>20}{:>8}",
        "", "pairs", "threads", "seconds", "processor seconds", "pairs a processor s", "MiB"
    );
    for kind in KINDS {
        for &size in sizes {
            let name = format!("{} {size}", kind.name);
            let files = ["start", "end"].map(|when| format!("{folder}/{}-{size}-{when}.obj", kind.name));
            run(&beside("make-garment"), &[kind.name, &size.to_string(), "1", &files[0], &files[1]])
                .unwrap_or_else(|error| panic!("{error}"));
            let pairs = pairs_of(&files);
            for (threads, program) in
                [1, all_cores()].into_iter().flat_map(|threads| programs().map(move |program| (threads, program)))
            {
                let count = threads.to_string();
                let words = ["--quiet", "--threads", &count, &files[0], &files[1]];
                let runs: Vec<Run> = (0..3).map(|_| run(&program, &words).unwrap_or_else(|error| panic!("{error}"))).collect();
                let least = |figure: fn(&Run) -> f64| runs.iter().map(figure).fold(f64::MAX, f64::min);
                let (seconds, processor, memory) =
                    (least(|run| run.seconds), least(|run| run.processor_seconds), least(|run| run.mebibytes));
                println!(
                    "  {name:<16}{pairs:>10}{threads:>9}{seconds:>10.2}{processor:>20.2}{:>20.0}{memory:>8.0}  {program}",
                    pairs as f64 / processor
                );
            }
        }
    }
}

/// An earlier program where one is named, and this one.
fn programs() -> impl Iterator<Item = String> {
    std::env::var("GARMENT_BEFORE").ok().into_iter().chain([beside("garment")])
}

/// A program in this one's folder.
fn beside(name: &str) -> String {
    let own = std::env::current_exe().expect("this program has a place");
    own.with_file_name(name).display().to_string()
}

/// The first count of the report's totals.
fn pairs_of(files: &[String; 2]) -> u64 {
    let report = Command::new(beside("garment")).args(["--quiet", "--only", "touch"]).args(files).output().expect("it runs");
    let text = String::from_utf8(report.stdout).expect("plain letters");
    let totals = text.lines().last().and_then(|line| line.strip_prefix("total\t")).expect("totals");
    totals.split('\t').next().and_then(|count| count.parse().ok()).expect("a count")
}
