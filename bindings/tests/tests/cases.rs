//! Cases written by hand, each with the line that it must give: a text for each refusal and for each two that can meet, texts at the sizes and
//! one past them, buffers of other lengths, the list in rooms of each kind, pairs of OBJ files. The library's calls themselves are made, on
//! buffers of which every number is a mark, and every number is looked at afterwards. The lines stand in bindings/tests/cases. The numbers here
//! are their own: a case that took a limit from the wrapper would follow it wherever it goes.

use compare::obj::making::cases as pairs_of_files;
use makhnodri::raw;
use std::ops::{AddAssign, SubAssign};

const TEXTS: &str = include_str!("../cases/texts.told");
const SIZES: &str = include_str!("../cases/sizes.told");
const LISTS: &str = include_str!("../cases/lists.told");
const IMPORTS: &str = include_str!("../cases/imports.told");

/// A case by its name, with the line that it gave.
struct Case {
    name: String,
    line: String,
}

impl Case {
    fn new(name: &str, line: String) -> Case {
        Case { name: name.into(), line }
    }
}

/// The first case whose line is another one than wanted, or the first wanted line that no case gives.
fn difference(cases: &[Case], wanted: &str) -> Option<String> {
    let mut lines = wanted.lines();
    for Case { name, line } in cases {
        let wanted = lines.next().unwrap_or("");
        if wanted != line {
            return Some(format!("{name}: gives {line:?}, and should give {wanted:?}"));
        }
    }
    lines.next().map(|line| format!("no case gives {line:?}"))
}

// ---- what is lent, and what is seen of it

const MARK: u8 = 77;

/// Room for the largest scene, and not one number more; and for its boxes.
const ROOM: [usize; 4] = [3_072, 2_048, 1_536, 1_024];
const BOXES: usize = 12_288;

#[derive(Clone)]
struct Lent {
    positions: Vec<i32>,
    edges: Vec<u16>,
    triangles: Vec<u16>,
    seams: Vec<u16>,
    boxes: Vec<i32>,
    counts: [usize; 4],
}

/// The numbers that must stand in front of each buffer, again and again up to the end of the scene.
struct Front<'a>(&'a [i32], &'a [u16], &'a [u16], &'a [u16]);

/// Of a text whose lines are `v 1 2 3 4 5 6`, `e 0 1`, `t 0 1 2` and `w 4 3`.
const PLAIN: Front = Front(&[1, 2, 3, 4, 5, 6], &[0, 1], &[0, 1, 2], &[4, 3]);

/// So many numbers are the wanted ones, again and again.
fn stand<T: PartialEq>(list: &[T], wanted: &[T], count: usize) -> bool {
    let again = wanted.iter().cycle();
    count == 0 || !wanted.is_empty() && count <= list.len() && list[..count].iter().zip(again).all(|(a, b)| a == b)
}

/// Each number from a place on is still a mark.
fn kept<T: PartialEq + From<u8>>(list: &[T], from: usize) -> bool {
    list.iter().skip(from).all(|number| *number == T::from(MARK))
}

impl Lent {
    fn marked([positions, edges, triangles, seams]: [usize; 4], boxes: usize) -> Lent {
        let marks = |length: usize| vec![MARK.into(); length];
        let [positions, boxes] = [positions, boxes].map(|length| vec![MARK.into(); length]);
        Lent { positions, edges: marks(edges), triangles: marks(triangles), seams: marks(seams), boxes, counts: [MARK.into(); 4] }
    }

    fn read(&mut self, text: &[u8]) -> u64 {
        let Lent { positions, edges, triangles, seams, counts, .. } = self;
        let (p, e, t, s) = (positions.len(), edges.len(), triangles.len(), seams.len());
        let (ps, es, ts, ss) = (positions.as_mut_ptr(), edges.as_mut_ptr(), triangles.as_mut_ptr(), seams.as_mut_ptr());
        let (text, length, count) = (text.as_ptr(), text.len(), counts.as_mut_ptr());
        // SAFETY: each pointer goes with the length of its slice, counts has four numbers, and what is written is borrowed by `&mut`
        unsafe { raw::makhnodri_read_scene_slices(text, length, ps, p, es, e, ts, t, ss, s, count) }
    }

    fn import(&mut self, start: &[u8], end: &[u8]) -> u64 {
        let Lent { positions, edges, triangles, seams, boxes, counts } = self;
        let (p, e, t, s, b) = (positions.len(), edges.len(), triangles.len(), seams.len(), boxes.len());
        let (ps, es, ts, ss) = (positions.as_mut_ptr(), edges.as_mut_ptr(), triangles.as_mut_ptr(), seams.as_mut_ptr());
        let (from, to, bs, count) = (start.as_ptr(), end.as_ptr(), boxes.as_mut_ptr(), counts.as_mut_ptr());
        // SAFETY: as above
        unsafe { raw::makhnodri_import_scene_slices(from, start.len(), to, end.len(), ps, p, es, e, ts, t, ss, s, bs, b, count) }
    }

    /// The lengths of the four lists of the scene.
    fn lengths(&self) -> [usize; 4] {
        [0, 1, 2, 3].map(|list| self.counts[list].saturating_mul([6, 2, 3, 2][list]))
    }

    fn stand(&self, front: &Front) -> bool {
        let [p, e, t, s] = self.lengths();
        let Front(positions, edges, triangles, seams) = front;
        stand(&self.positions, positions, p)
            && stand(&self.edges, edges, e)
            && stand(&self.triangles, triangles, t)
            && stand(&self.seams, seams, s)
    }

    /// All but the scene, and so many numbers of boxes, are marks.
    fn kept_behind(&self, [p, e, t, s]: [usize; 4], boxes: usize) -> bool {
        let lists = kept(&self.positions, p) && kept(&self.edges, e) && kept(&self.triangles, t) && kept(&self.seams, s);
        lists && kept(&self.boxes, boxes)
    }

    /// Nothing was written.
    fn kept_all(&self) -> bool {
        self.kept_behind([0; 4], 0) && self.counts == [MARK.into(); 4]
    }

    fn in_line(&self, between: &str) -> String {
        self.counts.iter().map(|count| format!("{between}{count}")).collect()
    }

    /// What is seen after a text was read.
    fn told(&self, answer: u64, front: &Front) -> String {
        let rest = |kept: bool| if kept { "the rest kept" } else { "the rest CHANGED" };
        match heard(answer) {
            (0, 0) => {
                let written = if self.stand(front) { "as written" } else { "WRONG" };
                format!(": read{}, {written}, {}", self.in_line(" "), rest(self.kept_behind(self.lengths(), 0)))
            }
            (number, line) => format!(": refused {number} {line}, {}", rest(self.kept_all())),
        }
    }

    /// The same after an import: a read one has a box of six numbers for each part, and nothing is said of what was kept.
    fn told_of_import(&self, answer: u64) -> String {
        let rest = |kept: bool| if kept { "" } else { ", the rest CHANGED" };
        match heard(answer) {
            (0, 0) => {
                let boxes = self.counts[..3].iter().fold(0, |sum: usize, count| sum.saturating_add(*count)).saturating_mul(6);
                format!("\tread{}{}", self.in_line("\t"), rest(self.kept_behind(self.lengths(), boxes)))
            }
            (number, 0) => format!("\trefused\t{number}{}", rest(self.kept_all())),
            (number, carried) => {
                let file = ["", "start", "end", "both"][carried as usize >> 30];
                format!("\trefused\t{number}\t{}\t{file}{}", carried & ((1 << 30) - 1), rest(self.kept_all()))
            }
        }
    }
}

/// A refusal's number, or 0, and what is below it.
fn heard(answer: u64) -> (u64, u64) {
    (answer >> 32, answer & 0xffff_ffff)
}

fn reading(name: &str, text: &[u8], room: [usize; 4], front: &Front) -> Case {
    let mut lent = Lent::marked(room, 0);
    let answer = lent.read(text);
    Case::new(name, name.to_string() + &lent.told(answer, front))
}

// ---- texts

const PRINTED_TEXT: &[u8] =
    b"v\t0\t0\t0\t0\t0\t0\nv\t4\t0\t0\t4\t0\t0\nv\t0\t4\t0\t0\t4\t0\nv\t1\t1\t1\t1\t1\t-1\nv\t1\t-1\t1\t1\t-1\t-1\ne\t0\t1\ne\t3\t4\nt\t0\t1\t2\n";
const PRINTED: [i32; 30] = [0, 0, 0, 0, 0, 0, 4, 0, 0, 4, 0, 0, 0, 4, 0, 0, 4, 0, 1, 1, 1, 1, 1, -1, 1, -1, 1, 1, -1, -1];

/// One vertex at rest.
const V: &[u8] = b"v\t0\t0\t0\t0\t0\t0\n";

/// The texts of cases/texts: a name, a colon, a text and a bar, one after the other.
fn given() -> Vec<Case> {
    let all = include_bytes!("../cases/texts").strip_suffix(b"|").unwrap();
    let case = |given: &[u8]| {
        let colon = given.iter().position(|&byte| byte == b':').unwrap();
        let name = std::str::from_utf8(&given[..colon]).unwrap().trim_start_matches('\n');
        reading(name, &given[colon + 1..], ROOM, &PLAIN)
    };
    all.split(|&byte| byte == b'|').map(case).collect()
}

/// Texts that are taken, with the numbers that then stand in front.
fn taken() -> Vec<Case> {
    let at_rest = |times: usize, lines: &[u8]| [&V.repeat(times), lines].concat();
    let zeros: &[i32] = &[0; 6];
    let largest = b"v\t524287\t-524287\t0\t262144\t-262144\t524286\n".to_vec();
    let cases: [(&str, Vec<u8>, Front); 5] = [
        ("the printed scene", PRINTED_TEXT.to_vec(), Front(&PRINTED, &[0, 1, 3, 4], &[0, 1, 2], &[])),
        ("the largest coordinates", largest, Front(&[524287, -524287, 0, 262144, -262144, 524286], &[], &[], &[])),
        (
            "ends and corners as they are written, an edge twice",
            at_rest(3, b"e\t2\t0\ne\t2\t0\nt\t2\t1\t0\n"),
            Front(zeros, &[2, 0, 2, 0], &[2, 1, 0], &[]),
        ),
        (
            "three seams, two of them to one vertex",
            at_rest(5, b"w\t1\t0\nw\t3\t2\nw\t4\t0\n"),
            Front(zeros, &[], &[], &[1, 0, 3, 2, 4, 0]),
        ),
        (
            "edges and triangles that became one",
            at_rest(4, b"e\t0\t1\ne\t0\t3\nt\t0\t1\t2\nt\t0\t3\t2\nw\t3\t1\n"),
            Front(zeros, &[0, 1, 0, 3], &[0, 1, 2, 0, 3, 2], &[3, 1]),
        ),
    ];
    cases.iter().map(|(name, text, front)| reading(name, text, ROOM, front)).collect()
}

fn texts() -> Vec<Case> {
    given().into_iter().chain(taken()).collect()
}

#[test]
fn texts_for_each_refusal_and_texts_that_are_taken() {
    assert_eq!(difference(&texts(), TEXTS), None);
}

// ---- sizes

/// Lines, each so many times, and the coordinate that stands everywhere.
fn made(name: &str, coordinate: i32, lines: &[(&[u8], usize)]) -> Case {
    let text: Vec<u8> = lines.iter().flat_map(|(line, times)| line.repeat(*times)).collect();
    reading(name, &text, ROOM, &Front(&[coordinate], &[0, 1], &[0, 1, 2], &[1, 0]))
}

/// At the sizes, and one past them.
fn at_the_sizes() -> Vec<Case> {
    let (e, t, w): (&[u8], &[u8], &[u8]) = (b"e\t0\t1\n", b"t\t0\t1\t2\n", b"w\t1\t0\n");
    vec![
        made("512 v", 0, &[(V, 512)]),
        made("513 v", 0, &[(V, 513)]),
        made("the 513th below e", 0, &[(V, 512), (e, 1), (V, 1)]),
        made("the 513th out of range", 0, &[(V, 512), (b"v\t524288\t0\t0\t0\t0\t0\n", 1)]),
        made("the 513th without form", 0, &[(V, 512), (b"v\t524288\t0\t0\t0\t0\n", 1)]),
        made("1025 e", 0, &[(V, 2), (e, 1_025)]),
        made("the 1025th with an unknown vertex", 0, &[(V, 2), (e, 1_024), (b"e\t0\t2\n", 1)]),
        made("the 1025th with one vertex twice", 0, &[(V, 2), (e, 1_024), (b"e\t0\t0\n", 1)]),
        made("513 t", 0, &[(V, 3), (t, 513)]),
        made("a seam below 512 v", 0, &[(V, 512), (w, 1)]),
        made("513 w, the second one at fault", 0, &[(V, 512), (w, 513)]),
    ]
}

/// As many bytes as may be, and more.
fn as_long_as_may_be() -> Vec<Case> {
    let (v, e): (&[u8], &[u8]) = (b"v\t-524287\t-524287\t-524287\t-524287\t-524287\t-524287\n", b"e\t0\t1\n");
    vec![
        made("32768 bytes", -524_287, &[(v, 512), (e, 1_024), (b"t\t0\t1\t2\n", 128)]),
        made("a few bytes more", -524_287, &[(v, 512), (e, 1_024), (b"t\t0\t1\t10\n", 128)]),
        made("one byte more, and no line", -524_287, &[(b"x", 32_769)]),
    ]
}

/// Buffers of other lengths: longer ones are fine, a shorter one is 12 before anything else.
fn other_buffers() -> Vec<Case> {
    let v: &[u8] = b"v\t1\t2\t3\t4\t5\t6\n";
    let cases: [(&str, &[u8], [usize; 4]); 7] = [
        ("longer buffers", v, [3_080, 2_056, 1_544, 1_032]),
        ("one position too few", v, [3_071, 2_048, 1_536, 1_024]),
        ("one edge number too few", v, [3_072, 2_047, 1_536, 1_024]),
        ("one triangle number too few", v, [3_072, 2_048, 1_535, 1_024]),
        ("one seam number too few", v, [3_072, 2_048, 1_536, 1_023]),
        ("12 and 9", b"\n", [3_071, 2_048, 1_536, 1_024]),
        ("12 and 8", &[0; 32_769], [3_072, 2_048, 1_536, 1_023]),
    ];
    cases.iter().map(|(name, text, room)| reading(name, text, *room, &PLAIN)).collect()
}

fn sizes() -> Vec<Case> {
    [at_the_sizes(), as_long_as_may_be(), other_buffers()].into_iter().flatten().collect()
}

#[test]
fn texts_at_the_sizes_and_buffers_of_other_lengths() {
    assert_eq!(difference(&sizes(), SIZES), None);
}

// ---- the list

/// The edges and the triangle of the printed scene.
const EDGES: [u16; 4] = [0, 1, 3, 4];
const TRIANGLES: [u16; 3] = [0, 1, 2];

/// The lent number of box tests, before each call.
const TESTS: usize = 7;

/// A scene without seams, listed into a buffer or counted: the answer, the number of box tests, every number of the buffer.
fn listing(name: &str, positions: &[i32], edges: &[u16], triangles: &[u16], list: Option<&mut [u32]>) -> Case {
    let (p, e, t) = (positions.len(), edges.len(), triangles.len());
    let (ps, es, ts, ss) = (positions.as_ptr(), edges.as_ptr(), triangles.as_ptr(), [].as_ptr());
    let mut tests = TESTS;
    let (answer, list) = match list {
        Some(list) => {
            let (room, length) = (list.as_mut_ptr(), list.len());
            // SAFETY: each pointer goes with the length of its slice, and what is written is borrowed by `&mut`
            (unsafe { raw::makhnodri_list_pairs_slices(ps, p, es, e, ts, t, ss, 0, room, length, &mut tests) }, &*list)
        }
        // SAFETY: as above
        None => (unsafe { raw::makhnodri_count_pairs_slices(ps, p, es, e, ts, t, ss, 0, &mut tests) }, &[][..]),
    };
    let told = match heard(answer) {
        (0, count) => format!("listed\t{count}"),
        (number, needed) => format!("refused\t{number}\t{needed}"),
    };
    let numbers: String = list.iter().map(|number| format!("\t{number}")).collect();
    Case::new(name, format!("{told}\ttests\t{tests}{numbers}"))
}

fn lists() -> Vec<Case> {
    let [mut one, mut two, mut three, mut four, mut fresh] = [1, 2, 3, 4, 4].map(|room| vec![9; room]);
    let printed = |name: &str, list: Option<&mut [u32]>| listing(name, &PRINTED, &EDGES, &TRIANGLES, list);
    vec![
        printed("no room", Some(&mut [])),
        printed("room for one", Some(&mut one)),
        printed("room for both", Some(&mut two)),
        printed("room for one more", Some(&mut three)),
        printed("room for two more", Some(&mut four)),
        printed("counted", None),
        listing("the empty scene, and no room", &[], &[], &[], Some(&mut [])),
        listing("the empty scene, into the list of before", &[], &[], &[], Some(&mut two)),
        listing("positions that are no multiple of 6", &PRINTED[..29], &EDGES, &TRIANGLES, Some(&mut fresh)),
    ]
}

#[test]
fn the_list_in_rooms_too_short_exact_left_over_and_none() {
    assert_eq!(difference(&lists(), LISTS), None);
}

// ---- pairs of OBJ files

fn importing(name: &str, start: &[u8], end: &[u8], room: [usize; 4]) -> (Lent, Case) {
    let mut lent = Lent::marked(room, BOXES);
    let answer = lent.import(start, end);
    let line = name.to_string() + &lent.told_of_import(answer);
    (lent, Case::new(name, line))
}

/// The pairs, of which the independent reader has the texts; 12, whatever the files are; and the edges and triangles of one pair, with the
/// numbers behind them.
fn imports() -> Vec<Case> {
    let pairs = pairs_of_files();
    let mut out: Vec<Case> = pairs.iter().map(|pair| importing(&pair.name, &pair.start, &pair.end, ROOM).1).collect();
    out.push(importing("a short seam buffer", b"x\n", b"x\n", [3_072, 2_048, 1_536, 1_023]).1);
    let two = pairs.iter().find(|pair| pair.name == "two files").unwrap();
    let (lent, read) = importing("", &two.start, &two.end, ROOM);
    let numbers = |name: &str, list: &[u16]| {
        let numbers: String = list.iter().map(|number| format!("\t{number}")).collect();
        Case::new(&format!("the {name} of two files"), name.to_string() + &numbers)
    };
    out.extend([Case { name: "two files again".into(), ..read }, numbers("edges", &lent.edges[..12])]);
    out.push(numbers("triangles", &lent.triangles[..8]));
    out
}

#[test]
fn pairs_of_obj_files_taken_and_refused() {
    assert_eq!(difference(&imports(), IMPORTS), None);
}

// ---- that each of these can fail

/// A line that is another one is told with its case's name; so are one too few and one too many.
#[test]
fn a_changed_line_is_told() {
    for (cases, wanted, count) in [(texts(), TEXTS, 67), (sizes(), SIZES, 21), (lists(), LISTS, 9), (imports(), IMPORTS, 43)] {
        let lines: Vec<&str> = wanted.lines().collect();
        assert_eq!((lines.len(), cases.len()), (count, count));
        for (at, case) in cases.iter().enumerate() {
            for changed in [&format!("{}0", lines[at]), &lines[at][1..], ""] {
                let other = [&lines[..at], &[changed], &lines[at + 1..]].concat().join("\n");
                assert!(difference(&cases, &other).is_some_and(|told| told.starts_with(&case.name)), "{}", case.name);
            }
        }
        assert!(difference(&cases, &lines[..count - 1].join("\n")).is_some_and(|told| told.starts_with(&cases[count - 1].name)));
        assert_eq!(difference(&cases[..count - 1], wanted), Some(format!("no case gives {:?}", lines[count - 1])));
    }
}

/// Shows the buffers with one number of a list more by one, for each of its numbers.
fn each_changed<T: From<u8> + AddAssign + SubAssign>(lent: &Lent, list: fn(&mut Lent) -> &mut [T], seen: &dyn Fn(&Lent)) {
    let mut lent = lent.clone();
    for place in 0..list(&mut lent).len() {
        list(&mut lent)[place] += T::from(1);
        seen(&lent);
        list(&mut lent)[place] -= T::from(1);
    }
}

/// The same for every list, and for the counts.
fn with_one_changed(lent: &Lent, seen: &dyn Fn(&Lent)) {
    each_changed(lent, |lent| &mut lent.positions, seen);
    each_changed(lent, |lent| &mut lent.edges, seen);
    each_changed(lent, |lent| &mut lent.triangles, seen);
    each_changed(lent, |lent| &mut lent.seams, seen);
    each_changed(lent, |lent| &mut lent.boxes, seen);
    each_changed(lent, |lent| &mut lent.counts, seen);
}

/// One number that is written wrong is seen in front, and one that should not be written behind the scene and after a refusal.
#[test]
fn a_changed_number_is_told() {
    let front = Front(&PRINTED, &EDGES, &TRIANGLES, &[]);
    for (text, line) in [
        (PRINTED_TEXT, ": read 5 2 1 0, as written, the rest kept"),
        (b"v\t0\t0\t0\t0\t0\t0\ne\t0\t1\n", ": refused 3 2, the rest kept"),
    ] {
        let mut lent = Lent::marked(ROOM, 0);
        let answer = lent.read(text);
        assert_eq!(lent.told(answer, &front), line);
        with_one_changed(&lent, &|changed| assert_ne!(changed.told(answer, &front), line));
    }
    let mut lent = Lent::marked(ROOM, BOXES);
    let answer = lent.import(b"v 0 0 0\n", b"v 0 0\n");
    assert_eq!(lent.told_of_import(answer), "\trefused\t9\t1\tend");
    with_one_changed(&lent, &|changed| assert_ne!(changed.told_of_import(answer), "\trefused\t9\t1\tend"));
}
