//! Texts of series: from seeds, at the edges of the rules, with a fault of each kind at each place, and with each two faults.

use super::faults::cells;
use super::*;
use crate::making::cases;
use crate::making::generate;
use crate::making::kept;
use crate::numbers::random::Random;
use crate::scene::affine::Affine;
use crate::text::crossed;
use crate::text::damage::damaged;
use crate::text::faults::{self as scene_faults, Cell};

pub struct Trial {
    pub name: String,
    pub text: Vec<u8>,
}

fn trial(name: impl Into<String>, text: impl Into<Vec<u8>>) -> Trial {
    Trial { name: name.into(), text: text.into() }
}

// ---- series from seeds

/// Listed pairs of all steps together, so that a series from a seed takes its time only once.
const MOST_PAIRS: usize = 500;
const MOST_STEPS: usize = 40;
/// A scene with more vertices gets a block or two.
const FEW_VERTICES: usize = 60;

/// How the vertices of a step go on.
#[derive(Clone, Copy)]
enum Way {
    BackAndForth,
    Rest,
    Wander(i64),
    Shift([i64; 3]),
    SomeBackAndForth(u64),
    Anywhere,
}

/// A scene of some kind, with blocks behind it.
pub fn series(seed: u64) -> Series {
    let mut random = Random::new(seed ^ 0x5e51);
    let scene = generate::scene(seed);
    let small = scene.vertices.iter().flatten().map(|n| n.abs()).max().unwrap_or(0) < 1_000;
    let reach = if small { 3 } else { COORDINATE_LIMIT / 40 };
    let most = if scene.vertices.len() > FEW_VERTICES { 2 } else { MOST_STEPS };
    let wanted = random.pick(&[0, 1, 2, 3, 5, most, most]).min(most);
    let mut series = Series { scene, blocks: vec![] };
    let mut listed = listing::listed(&series.scene).len();
    let mut step = series.scene.clone();
    let mut way = drawn_way(&mut random, reach);
    while series.blocks.len() < wanted {
        if random.chance(6) {
            way = drawn_way(&mut random, reach);
        }
        let block = goes_on(&mut random, way, &step);
        step = step_after(&step, &block);
        series.blocks.push(block);
        listed += listing::listed(&step).len();
        if write(&series).len() > TEXT_LIMIT || listed > MOST_PAIRS {
            series.blocks.pop();
            break;
        }
    }
    series
}

fn drawn_way(random: &mut Random, reach: i64) -> Way {
    match random.below(6) {
        0 => Way::BackAndForth,
        1 => Way::Rest,
        2 => Way::Wander(random.between(1, reach)),
        3 => Way::Shift([0; 3].map(|_| random.between(-reach, reach))),
        4 => Way::SomeBackAndForth(random.next()),
        _ => Way::Anywhere,
    }
}

/// The next ends, in range, sewn vertices in one place.
fn goes_on(random: &mut Random, way: Way, step: &Scene) -> Vec<[i64; 3]> {
    let ends: Vec<[i64; 3]> = step.vertices.iter().map(|v| [v[3], v[4], v[5]]).collect();
    let next = |(place, v): (usize, &[i64; 6])| {
        let (start, end) = ([v[0], v[1], v[2]], [v[3], v[4], v[5]]);
        match way {
            Way::BackAndForth => start,
            Way::Rest => end,
            Way::Wander(reach) => end.map(|n| n + random.between(-reach, reach)),
            Way::Shift(by) => [0, 1, 2].map(|axis| end[axis] + by[axis]),
            Way::SomeBackAndForth(which) if which >> (place % 64) & 1 == 1 => start,
            Way::SomeBackAndForth(_) => end,
            Way::Anywhere => random.pick(&ends),
        }
    };
    let mut block: Vec<[i64; 3]> = step.vertices.iter().enumerate().map(next).collect();
    block.iter_mut().flatten().for_each(|n| *n = (*n).clamp(-COORDINATE_LIMIT, COORDINATE_LIMIT));
    step.seams.iter().for_each(|&[i, j]| block[i] = block[j]);
    block
}

/// The series through one matrix, with a shift for each boundary between steps; nothing where a coordinate leaves its range.
pub fn sent(random: &mut Random, series: &Series) -> Option<Series> {
    let affine = Affine::draw(random, &series.scene);
    let mut out = Series { scene: affine.send(&series.scene), blocks: vec![] };
    for block in &series.blocks {
        let places = block.iter().map(|next| [next[0], next[1], next[2], 0, 0, 0]).collect();
        let start_shift = [0; 3].map(|_| random.between(-99, 99));
        let moved = Affine { start_shift, ..affine.clone() }.send(&Scene { vertices: places, ..Scene::default() });
        out.blocks.push(moved.vertices.iter().map(|v| [v[0], v[1], v[2]]).collect());
    }
    let in_blocks = out.blocks.iter().flatten().flatten();
    out.scene.vertices.iter().flatten().chain(in_blocks).all(|&n| in_range(n)).then_some(out)
}

/// In the name of a text for a cell.
pub const CELL: &str = ", cell ";

/// A series as made, sent on, damaged, and a text for a cell of the table of faults.
pub fn seeded(seed: u64) -> Vec<Trial> {
    let mut random = Random::new(!seed);
    let made = series(seed);
    let name = |way: &str| format!("seed {seed}, {}, {way}", generate::kind_name(seed));
    let text = write(&made);
    let cells = cells();
    let cell = cells[seed as usize % cells.len()];
    let mut out = vec![
        trial(name("damaged"), damaged(&mut random, &text)),
        trial(name("cut short"), cut_short(&mut random, &text)),
        trial(format!("seed {seed}{CELL}{cell:?}"), with_cell(&mut random, cell)),
    ];
    out.extend(sent(&mut random, &made).map(|sent| trial(name("sent on"), write(&sent))));
    out.push(trial(name("as made"), text));
    out
}

/// The text up to some line, with its LF or without, and at times a line more.
fn cut_short(random: &mut Random, text: &str) -> String {
    let lines: Vec<&str> = text.split_inclusive('\n').collect();
    let mut out = lines[..random.below(lines.len() + 1)].concat();
    match random.below(6) {
        0 => drop(out.pop()),
        1 => out.push_str("n\n"),
        2 => out.push_str("v\t0\t0\t0\n"),
        _ => {}
    }
    out
}

// ---- texts at the edges of the rules

/// A resting triangle and points that go up and down through it, so many in each step; some touch it and stay.
pub fn up_and_down(points: &[usize]) -> Series {
    let most = points.iter().copied().max().unwrap_or(0);
    let corners = [[0, 0, 0], [200, 0, 0], [0, 200, 0]];
    let place = |point: usize, above: bool| [1 + point as i64, 1, if above { 1 } else { -1 }];
    let mut above = vec![true; most];
    let mut turn = |count: usize| {
        above.iter_mut().take(count).for_each(|above| *above = !*above);
        let moved = above.iter().enumerate().map(|(point, &above)| place(point, above));
        corners.into_iter().chain(moved).collect::<Vec<[i64; 3]>>()
    };
    let mut ends = points.iter().map(|&count| turn(count));
    let first = ends.next().unwrap_or_default();
    let starts = corners.into_iter().chain((0..most).map(|point| place(point, true)));
    let vertices = starts.zip(&first).map(|(a, b)| [a[0], a[1], a[2], b[0], b[1], b[2]]).collect();
    let scene = Scene { vertices, triangles: vec![[0, 1, 2]], ..Scene::default() };
    Series { scene, blocks: ends.collect() }
}

/// Points over layers of one triangle: in each step this many of them fall through, and the others stay above.
pub fn heaps(falling: &[usize]) -> Series {
    let layers = 55;
    let mut series = up_and_down(falling);
    series.scene.triangles = vec![[0, 1, 2]; layers];
    series
}

/// So many bytes: a scene without parts, `n`s behind it where it has no vertices.
fn as_long_as(bytes: usize) -> Vec<u8> {
    let mut text = "v\t0\t0\t0\t0\t0\t0\n".to_string();
    while text.len() + 12 <= bytes {
        text.push_str("n\nv\t0\t0\t0\n");
    }
    // a next end may be longer
    let missing = bytes - text.len();
    let longer = ["", "", "n\n", "", "", "", "", "", "", "", "n\nv\t0\t0\t0\n", "n\nv\t10\t0\t0\n"];
    match missing {
        0 => {}
        10 | 11 => text.push_str(longer[missing]),
        _ => {
            let last = text.len() - "0\n".len();
            text.insert_str(last, &"1".repeat(missing));
        }
    }
    text.into_bytes()
}

/// The texts of `own`, the scenes that are kept, and the texts at the edges of document 01's rules: a scene is a series of one step.
pub fn fixed() -> Vec<Trial> {
    let mut out = own();
    out.extend(
        kept::scenes().into_iter().map(|(name, path)| trial(format!("scenes/{name}.scene"), std::fs::read(path).unwrap())),
    );
    out.extend(cases::text_cases().into_iter().map(|case| trial(case.name, case.text)));
    out
}

/// Texts that try a series, and the series that are kept.
pub fn own() -> Vec<Trial> {
    let mut out = vec![trial("no line", ""), trial("document 01's scene", cases::PRINTED_SCENE)];
    out.extend(shown().into_iter().enumerate().map(|(place, (text, _))| trial(format!("shown {place}"), text)));
    for count in [1, 2, 63, 64, 16_384, 16_385] {
        out.push(trial(format!("{count} steps of nothing"), "n\n".repeat(count)));
    }
    let hits: [&[usize]; 9] =
        [&[1; 63], &[1; 64], &[1; 65], &[1; 130], &[5; 30], &[63, 1, 1], &[60, 5, 3], &[70, 0, 1], &[0, 0, 2, 0, 66]];
    out.extend(hits.iter().map(|points| {
        trial(format!("{} hits in {} steps", points.iter().sum::<usize>(), points.len()), write(&up_and_down(points)))
    }));
    for line in ["n\t", "n\t0", "n ", " n", "n\r", "N", "nn", "n\0", "v\t0\t0\t0", "vn"] {
        out.push(trial(format!("a line {line:?}"), format!("v\t0\t0\t0\t0\t0\t0\n{line}\nv\t0\t0\t0\n")));
        out.push(trial(format!("two lines {line:?}"), format!("v\t0\t0\t0\t0\t0\t0\nn\nv\t0\t0\t0\n{line}\nv\t0\t0\t0\n")));
    }
    out.push(trial("falling, resting and coming back", write(&falling())));
    let no_room: [&[usize]; 8] = [&[56], &[57, 56, 1], &[1, 56, 56], &[56, 57], &[57, 56], &[0, 57, 56], &[0, 0, 56], &[55, 55]];
    // every point that falls through, and the others do not: 55 layers each
    out.extend(no_room.iter().map(|falling| trial(format!("heaps {falling:?}"), write(&heaps(falling)))));
    out.extend([TEXT_LIMIT - 1, TEXT_LIMIT, TEXT_LIMIT + 1].map(|bytes| trial(format!("{bytes} bytes"), as_long_as(bytes))));
    out.extend(full_blocks());
    out.extend(
        kept::series().into_iter().map(|(name, path)| trial(format!("scenes/{name}.series"), std::fs::read(path).unwrap())),
    );
    out
}

/// As many vertices as there may be, and a block of as many lines, of one less, and of one more.
fn full_blocks() -> Vec<Trial> {
    let scene = Scene { vertices: (0..VERTEX_LIMIT as i64).map(|n| [n, 0, 0, n, 0, 1]).collect(), ..Scene::default() };
    let of = |lines: usize| Series { scene: scene.clone(), blocks: vec![vec![[0, 0, 0]; lines]] };
    [511, 512, 513].map(|lines| trial(format!("512 vertices, {lines} lines"), write(&of(lines)))).into()
}

/// A point falls on a triangle, rests there, and comes back: hit, touch and hit in steps 2, 3 and 4.
pub fn falling() -> Series {
    let corners = [[0, 0, 0], [4, 0, 0], [0, 4, 0]];
    let at = |height: i64| corners.into_iter().chain([[1, 1, height]]).collect::<Vec<[i64; 3]>>();
    let from = at(2);
    let vertices = from.iter().zip(at(1)).map(|(a, b)| [a[0], a[1], a[2], b[0], b[1], b[2]]).collect();
    let scene = Scene { vertices, triangles: vec![[0, 1, 2]], ..Scene::default() };
    Series { scene, blocks: [0, 0, 1, 2].map(at).into() }
}

/// The texts that crate `meaning` shows, `meaning/SeriesShown.table`, each with its refusal's number and line where it has one.
pub fn shown() -> Vec<(String, Option<(u64, u64)>)> {
    // v: a vertex at rest; f: one that ends past the range; n; o: on to 0; F: on past the range; 1, 2: on to that height; e, d, t, w: records
    let far = COORDINATE_LIMIT + 1;
    let line = |letter: char| match letter {
        'v' => "v\t0\t0\t0\t0\t0\t0\n".to_string(),
        'f' => format!("v\t0\t0\t0\t0\t0\t{far}\n"),
        'n' => "n\n".into(),
        'F' => format!("v\t0\t0\t{far}\n"),
        'e' => "e\t0\t1\n".into(),
        'd' => "e\t0\t0\n".into(),
        't' => "t\t0\t1\t2\n".into(),
        's' => "w\t1\t0\n".into(),
        'w' => "w\t0\t0\n".into(),
        height => format!("v\t0\t0\t{}\n", height.to_digit(3).unwrap()),
    };
    let rows = [
        ("", None),
        ("v", None),
        ("vvn00", None),
        ("vn0n0", None),
        ("nn", None),
        ("n0", Some((13, 2))),
        ("vn000", Some((13, 4))),
        ("vn0F", Some((13, 4))),
        ("vvn0n00", Some((13, 5))),
        ("vnn0", Some((13, 3))),
        ("vvn0", Some((13, 4))),
        ("vvnF", Some((13, 4))),
        ("vn", Some((13, 2))),
        ("vn0n", Some((13, 4))),
        ("vvvnF0", Some((2, 5))),
        ("vnF", Some((2, 3))),
        ("fn", Some((2, 1))),
        ("vvne00", Some((10, 4))),
        ("vvn0d", Some((10, 5))),
        ("vn0t", Some((10, 4))),
        ("vnw", Some((10, 3))),
        ("vvsn11", None),
        ("vvsn01", Some((15, 6))),
        ("vvvsn010", Some((15, 8))),
        ("vvsn0F", Some((2, 6))),
        ("vvsn11n02", Some((15, 9))),
    ];
    rows.into_iter().map(|(letters, says)| (letters.chars().map(line).collect(), says)).collect()
}

// ---- a change at every place of a small series

/// Five vertices, of which the last is sewn to the first; two edges, a face, and two blocks.
pub fn small() -> Series {
    let vertices = vec![[0, 0, 0, 0, 0, 0], [4, 0, 0, 4, 0, 0], [0, 4, 0, 0, 4, 0], [1, 1, 1, 1, 1, -1], [0, 0, 0, 0, 0, 0]];
    let scene = Scene { vertices, edges: vec![[1, 2], [3, 4]], triangles: vec![[0, 1, 2]], seams: vec![[4, 0]] };
    let block = |height: i64| vec![[0, 0, 0], [4, 0, 0], [0, 4, 0], [1, 1, height], [0, 0, 0]];
    Series { scene, blocks: vec![block(1), block(-1)] }
}

/// Lines to put anywhere.
const LINES: [&str; 18] = [
    "n\n", "v\t0\t0\t0\n", "v\t0\t0\t9\n", "v\t0\t0\t0\t0\t0\t0\n", "v\t0\t0\t524288\n", "v\t-524288\t0\t0\t0\t0\t0\n",
    "e\t0\t1\n", "e\t0\t0\n", "e\t0\t99\n", "t\t0\t1\t2\n", "w\t4\t0\n", "w\t1\t0\n", "\n", "n\t\n", "n", "nn\n", "v\t0\t0\n",
    "v\t0\t0\t-0\n",
];

/// Each line in front of each line, in its place, behind it at the end of the text; each line left out; the text ended behind each line.
pub fn everywhere() -> Vec<Vec<u8>> {
    let whole = write(&small());
    let lines: Vec<&str> = whole.split_inclusive('\n').collect();
    let mut out = Vec::new();
    for at in 0..=lines.len() {
        let (above, below) = (lines[..at].concat(), lines[at..].concat());
        let behind = lines[(at + 1).min(lines.len())..].concat();
        for line in LINES {
            out.push(format!("{above}{line}{below}"));
            out.push(format!("{above}{line}{behind}"));
            out.push(format!("{above}{line}"));
        }
        out.push(above.clone() + &behind);
        out.push(above.trim_end_matches('\n').to_string());
        out.push(above);
    }
    out.into_iter().map(String::into_bytes).collect()
}

// ---- a text for each cell of the table of faults

pub fn with_cell(random: &mut Random, cell: Cell) -> Vec<u8> {
    let by_scene = scene_faults::cells().contains(&cell);
    // what a scene can have is tried in the scene above blocks, and half the time below an `n`, where it can be had there
    if by_scene && (!below_an_n(cell) || random.chance(2)) {
        let scene = String::from_utf8(crossed::text(random, cell)).expect("texts of cells are ASCII");
        return (scene.clone() + &blocks_for(random, &scene, 2)).into_bytes();
    }
    match cell {
        Cell::Given(number) => in_a_block(random, Base::Few, &[number], None),
        Cell::InOneLine(given, other) => in_a_block(random, Base::Few, &[given, other], None),
        // these stand above the first `n` only
        Cell::InTwoLines(given @ (ONE_TOO_MANY | NO_SUCH_VERTEX | VERTEX_TWICE), other) => {
            let scene = String::from_utf8(crossed::text(random, Cell::Given(given))).unwrap();
            scene.clone() + &blocks_for(random, &scene, 1) + &last_line(other)
        }
        Cell::InTwoLines(given, other) => in_a_block(random, Base::Few, &[given], Some(other)),
        Cell::InTheWhole(TEXT_TOO_LONG, _) => in_a_block(random, Base::Long, &[WRONG_BLOCK], None),
        Cell::InTheWhole(given, _) => in_a_block(random, Base::Crowded, &[given], None),
    }
    .into_bytes()
}

/// Whether such faults can stand below an `n`: 11 is not given there, and of two in a line that needs vertex numbers 10 comes first.
fn below_an_n(cell: Cell) -> bool {
    let numbers = [ONE_TOO_MANY, NO_SUCH_VERTEX, VERTEX_TWICE];
    match cell {
        Cell::Given(given) => !numbers.contains(&given) && ![TEXT_TOO_LONG, NO_ROOM].contains(&given),
        Cell::InOneLine(BAD_LINE, other) => ![ONE_TOO_MANY].contains(&other),
        Cell::InOneLine(OUT_OF_ORDER, other) => ![OUT_OF_RANGE, ONE_TOO_MANY].contains(&other),
        Cell::InOneLine(..) => false,
        Cell::InTwoLines(given, other) => !numbers.contains(&given) && other != ONE_TOO_MANY,
        Cell::InTheWhole(given, other) => given != TEXT_TOO_LONG && other == NO_ROOM && !numbers.contains(&given),
    }
}

#[derive(Clone, Copy)]
enum Base {
    Few,
    /// more pairs than room in every step
    Crowded,
    /// over the length that a text may have
    Long,
}

/// Blocks behind the text of a scene: all ends go on by the same, so that what is sewn stays together.
fn blocks_for(random: &mut Random, scene: &str, count: usize) -> String {
    let vertices: Vec<&str> = scene.lines().filter(|line| line.starts_with("v\t")).collect();
    let mut out = String::new();
    for _ in 0..count {
        let by = [0; 3].map(|_| random.between(-3, 3));
        out.push_str("n\n");
        for vertex in &vertices {
            let numbers: Vec<i64> = vertex.split('\t').skip(4).filter_map(|n| n.parse().ok()).collect();
            let next = [0, 1, 2].map(|axis| (numbers.get(axis).unwrap_or(&0) % 1_000 + by[axis]).to_string());
            out.push_str(&format!("v\t{}\n", next.join("\t")));
        }
    }
    out
}

/// The line that has a fault at the end of a text of blocks.
fn last_line(fault: u64) -> String {
    match fault {
        BAD_LINE => "x\n",
        WRONG_BLOCK => "n\n",
        OUT_OF_RANGE => "v\t524288\t0\t0\n",
        NO_SUCH_VERTEX => "e\t0\t9999\n",
        BROKEN_SEAM => "w\t1\t1\n",
        VERTEX_TWICE => "e\t0\t0\n",
        _ => "e\t0\t1\n",
    }
    .into()
}

/// A series whose first fault stands below an `n`, in a line that has these; and, where one is wanted later, a last line with that.
fn in_a_block(random: &mut Random, base: Base, faults: &[u64], later: Option<u64>) -> String {
    let has = |number: u64| faults.contains(&number);
    let mut scene = match base {
        Base::Few => few(random),
        Base::Crowded => crowded(),
        Base::Long => String::from_utf8(crossed::text(random, Cell::Given(TEXT_TOO_LONG))).unwrap(),
    };
    if has(ONE_TOO_MANY) || later == Some(ONE_TOO_MANY) {
        let edges = scene.lines().filter(|line| line.starts_with('e')).count();
        scene = scene.replacen("t\t", &("e\t0\t1\n".repeat(EDGE_LIMIT - edges) + "t\t"), 1);
    }
    let above = scene.lines().count();
    let vertices = scene.lines().filter(|line| line.starts_with('v')).count();
    let blocks = 1 + random.below(3);
    let mut lines: Vec<String> = scene.lines().map(str::to_string).collect();
    lines.extend(blocks_for(random, &scene, blocks).lines().map(str::to_string));
    // the first line of the block, and the line in it
    let block = above + random.below(blocks) * (vertices + 1) + 1;
    let record = [OUT_OF_ORDER, ONE_TOO_MANY, NO_SUCH_VERTEX, VERTEX_TWICE].into_iter().any(has);
    let ends_short = has(WRONG_BLOCK) && later.is_none() && (record || random.chance(3));
    // behind the last line but one a block is no longer short
    let within = random.below(vertices - (ends_short && !record) as usize);
    let at = block + within;
    let place = if record || ends_short {
        if record {
            lines.insert(at, of_another_kind(faults));
        }
        at
    } else if has(BROKEN_SEAM) {
        // sewn vertices: the last of the block, and others
        let seam = block + random.pick(&[0, 3, 4, 5]);
        lines[seam] = moved(&lines[seam], 1);
        block + vertices - 1
    } else if has(WRONG_BLOCK) && !has(OUT_OF_RANGE) && within > 0 && random.chance(2) {
        lines.insert(at, "n".into());
        at
    } else if has(WRONG_BLOCK) {
        lines.insert(block + vertices, "v\t0\t0\t0".into());
        block + vertices
    } else {
        at
    };
    if has(OUT_OF_RANGE) {
        let far = random.pick(&["524288", "-524288", "999999999"]);
        let field = 1 + random.below(3);
        let fields = lines[place].split('\t').enumerate();
        let spoilt: Vec<&str> = fields.map(|(i, old)| if i == field { far } else { old }).collect();
        lines[place] = spoilt.join("\t");
    }
    if has(BAD_LINE) {
        lines[place].push_str(random.pick(&["\t", "\t-0", "\tx"]));
    }
    if ends_short {
        // the last line of the text: in an unfinished block, also as the `n`
        let shortest = if record || has(OUT_OF_RANGE) || has(BAD_LINE) { 0 } else { random.below(2) };
        lines.truncate(place + 1 - shortest);
    }
    lines.join("\n") + "\n" + &later.map_or(String::new(), last_line)
}

/// A record of a scene, which is 10 below an `n`, with these faults besides.
fn of_another_kind(faults: &[u64]) -> String {
    let has = |number: u64| faults.contains(&number);
    let numbers = match (has(NO_SUCH_VERTEX), has(VERTEX_TWICE)) {
        (true, true) => "9999\t9999",
        (true, false) => "0\t9999",
        (false, true) => "1\t1",
        (false, false) => "0\t1",
    };
    if has(BROKEN_SEAM) {
        return "w\t1\t1".into();
    }
    format!("e\t{numbers}")
}

/// A `v` line of a block with its last number moved.
fn moved(line: &str, by: i64) -> String {
    let (front, last) = line.rsplit_once('\t').unwrap();
    format!("{front}\t{}", last.parse::<i64>().unwrap() + by)
}

/// Six vertices, of which 4 stands where 0 does and 5 where 3, sewn; so a seam may come apart at the last line.
fn few(random: &mut Random) -> String {
    let mut places: Vec<[i64; 6]> = (0..4).map(|y| [random.between(-9, 9), y, 0, random.between(-9, 9), 1, y]).collect();
    places.extend([places[0], places[3]]);
    let scene = Scene { vertices: places, edges: vec![[0, 1], [1, 2]], triangles: vec![[0, 1, 2]], seams: vec![[4, 0], [5, 3]] };
    text::write(&scene)
}

/// More listed pairs than room, in every step that moves all alike.
fn crowded() -> String {
    let vertices = vec![[0; 6]; 38];
    text::write(&Scene { vertices, edges: vec![[0, 1]], triangles: vec![[0, 1, 2]; 96], seams: vec![[4, 0], [5, 3]] })
}
