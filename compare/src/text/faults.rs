//! Everything that is wrong with a text, and not only what is refused: each check looked at on its own, in every
//! line. So a comparison can count which faults it has tried together, and a wrong order of checks can be made on
//! purpose.

use crate::list::listing;
use crate::scene::refusal::*;
use crate::scene::*;
use crate::text::{self, Record};

/// The numbers that a line may be refused for, in the order of the checks.
pub const LINE_CHECKS: [u64; 7] = [BAD_LINE, OUT_OF_ORDER, ONE_TOO_MANY, OUT_OF_RANGE, NO_SUCH_VERTEX, BROKEN_SEAM, VERTEX_TWICE];

/// The numbers that the report program can give.
pub const PRINTED: [u64; 9] =
    [TEXT_TOO_LONG, BAD_LINE, OUT_OF_ORDER, ONE_TOO_MANY, OUT_OF_RANGE, NO_SUCH_VERTEX, BROKEN_SEAM, VERTEX_TWICE, NO_ROOM];

/// How many records of each kind there may be, and how far a coordinate may go.
#[derive(Clone, Copy)]
pub struct Limits {
    pub records: [usize; 4],
    pub coordinate: i64,
}

pub const LIMITS: Limits =
    Limits { records: [VERTEX_LIMIT, EDGE_LIMIT, TRIANGLE_LIMIT, SEAM_LIMIT], coordinate: COORDINATE_LIMIT };

/// For each line, what it could be refused for, in the order of the checks.
pub fn of_lines(text: &[u8]) -> Vec<Vec<u64>> {
    let mut above = Scene::default();
    let lines = text.split_inclusive(|&byte| byte == b'\n');
    lines
        .map(|line| {
            let body = line.strip_suffix(b"\n");
            let faults = of_line(body.unwrap_or(line), body.is_some(), &above, LIMITS);
            if !faults.contains(&BAD_LINE) {
                add(&mut above, text::record(body.unwrap()).expect("a line of the form"));
            }
            faults
        })
        .collect()
}

/// A record more, whatever it says.
pub fn add(scene: &mut Scene, record: Record) {
    match record {
        Record::Vertex(vertex) => scene.vertices.push(vertex),
        Record::Edge(edge) => scene.edges.push(edge),
        Record::Triangle(triangle) => scene.triangles.push(triangle),
        Record::Seam(seam) => scene.seams.push(seam),
    }
}

/// The place of a kind among the four.
pub fn place_of(kind: u8) -> Option<usize> {
    b"vetw".iter().position(|&byte| byte == kind)
}

/// `above` has the records of the lines above. Of a line that is not of the form, the fields that are
/// numbers are looked at all the same, as a program would that looks at them too early.
pub fn of_line(line: &[u8], ended: bool, above: &Scene, limits: Limits) -> Vec<u64> {
    let kind = line.first().and_then(|&byte| place_of(byte));
    let fields: Vec<&[u8]> = line.split(|&byte| byte == b'\t').skip(1).collect();
    let numbers: Vec<i64> = fields.iter().filter_map(|field| text::coordinate(field)).collect();
    let places: Vec<usize> = numbers.iter().map(|&n| n.try_into().unwrap_or(usize::MAX)).collect();
    let counts = [above.vertices.len(), above.edges.len(), above.triangles.len(), above.seams.len()];
    let seam = places[..].first_chunk::<2>().filter(|_| kind == Some(3));
    LINE_CHECKS
        .into_iter()
        .filter(|&check| match (check, kind) {
            (BAD_LINE, _) => !ended || text::record(line).is_none(),
            (_, None) => false,
            (OUT_OF_ORDER, Some(place)) => counts[place + 1..].iter().any(|&count| count > 0),
            (ONE_TOO_MANY, Some(place)) => counts[place] >= limits.records[place],
            (OUT_OF_RANGE, Some(place)) => place == 0 && numbers.iter().any(|n| n.abs() > limits.coordinate),
            (NO_SUCH_VERTEX, Some(place)) => place > 0 && numbers.iter().any(|&n| n >= counts[0] as i64),
            (BROKEN_SEAM, Some(_)) => seam.is_some_and(|&seam| text::breaks(above, seam)),
            (_, Some(3)) => seam.is_some_and(|&seam| text::makes_twice(above, seam)),
            (_, Some(place)) => place > 0 && above.any_twice(&places),
        })
        .collect()
}

/// The scene made of the lines that could be refused for nothing.
pub fn faultless(text: &[u8]) -> Scene {
    let faults = of_lines(text);
    let lines = text.split_inclusive(|&byte| byte == b'\n').zip(faults);
    let mut scene = Scene::default();
    for (line, _) in lines.filter(|(_, faults)| faults.is_empty()) {
        // a line that is taken away above may have been a vertex that this one speaks of
        let _ = text::take(&mut scene, &line[..line.len() - 1]);
    }
    scene
}

/// What a refused text was tried for: the number it got, and another that it could have got.
#[derive(Clone, Copy, Debug, PartialEq, Eq, PartialOrd, Ord)]
pub enum Cell {
    /// The number given.
    Given(u64),
    /// Given for a line that has the second fault too.
    InOneLine(u64, u64),
    /// Given for a line, and a later line has the second fault.
    InTwoLines(u64, u64),
    /// The number given, and the whole text has the second: 7 behind a faulty line, or anything in a text too long.
    InTheWhole(u64, u64),
}

/// Every cell that some text can reach. (A line with a coordinate out of range has no vertex numbers; a seam is of the last kind, and of 512 some
/// seam is broken before there is one too many.)
pub fn cells() -> Vec<Cell> {
    let mut out: Vec<Cell> = PRINTED.into_iter().map(Cell::Given).collect();
    for (place, &given) in LINE_CHECKS.iter().enumerate() {
        let never = |other: u64| other == BROKEN_SEAM && [OUT_OF_ORDER, ONE_TOO_MANY].contains(&given);
        let later = LINE_CHECKS[place + 1..].iter().filter(|&&other| given != OUT_OF_RANGE && !never(other));
        out.extend(later.map(|&other| Cell::InOneLine(given, other)));
        out.extend(LINE_CHECKS.map(|other| Cell::InTwoLines(given, other)));
        out.extend([Cell::InTheWhole(given, NO_ROOM), Cell::InTheWhole(TEXT_TOO_LONG, given)]);
    }
    out.push(Cell::InTheWhole(TEXT_TOO_LONG, NO_ROOM));
    out
}

/// The cells that a text reaches, once each.
pub fn reached(text: &[u8]) -> Vec<Cell> {
    let listed = text::read(text).and_then(|scene| listing::list(&scene, REPORT_ROOM));
    let Err(Refusal { number: given, third }) = listed else { return Vec::new() };
    let lines = of_lines(text);
    let mut out = vec![Cell::Given(given)];
    if LINE_CHECKS.contains(&given) {
        let at = third as usize - 1;
        out.extend(lines[at].iter().filter(|&&other| other != given).map(|&other| Cell::InOneLine(given, other)));
        out.extend(lines[at + 1..].iter().flatten().map(|&other| Cell::InTwoLines(given, other)));
    }
    if given == TEXT_TOO_LONG {
        out.extend(lines.iter().flatten().map(|&other| Cell::InTheWhole(given, other)));
    }
    if given != NO_ROOM && listing::list(&faultless(text), REPORT_ROOM).is_err() {
        out.push(Cell::InTheWhole(given, NO_ROOM));
    }
    out.sort();
    out.dedup();
    out
}
