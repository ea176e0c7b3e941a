//! Everything that is wrong with two files, so that it is seen which faults, and which two at once, were tried; and a text for each of them.

use super::*;
use crate::list::listing;
use std::collections::BTreeSet;

/// What was tried. The first fault of two is the one that is given.
#[derive(Clone, Copy, Debug, PartialEq, Eq, PartialOrd, Ord)]
pub enum Cell {
    /// One line of the two files is at fault, with this fault alone.
    Alone(File, Fault),
    InOneLine(File, Fault, Fault),
    /// The second in a later line of the same file.
    InTwoLines(File, Fault, Fault),
    /// The first in the start file, the second in the end file.
    InTwoFiles(Fault, Fault),
    /// 8 for this file and not for the other.
    Long(File),
    LongBoth,
    /// 8 for the first file, and a faulty line in the second.
    LongBefore(File, File),
    /// 14, by one difference alone.
    Differ(Difference),
    /// A faulty line of this file, and without it the files differ.
    FaultBeforeDiffer(File, Fault),
    /// 14, where the start file at rest has more pairs than room.
    DifferBeforeNoRoom,
    NoRoom,
    /// Read, and its text would be too long.
    TextTooLong,
    /// 14, where the text of the start file at rest would be too long.
    DifferBeforeTextTooLong,
    Read,
    /// Files as long as they may be.
    ReadLongest,
}

#[derive(Clone, Copy, Debug, PartialEq, Eq, PartialOrd, Ord)]
pub enum Difference {
    VertexCount,
    FaceCount,
    /// The same faces, one begun at another corner.
    FaceTurned,
    /// The same faces, one the other way round.
    FaceReversed,
    FacesExchanged,
    AnotherCorner,
}

pub const DIFFERENCES: [Difference; 6] = [
    Difference::VertexCount,
    Difference::FaceCount,
    Difference::FaceTurned,
    Difference::FaceReversed,
    Difference::FacesExchanged,
    Difference::AnotherCorner,
];

/// The faults that one line can have at once: of a vertex, and of a face.
const TOGETHER: [&[Fault]; 2] = [
    &[Fault::OutOfOrder, Fault::RecordTooMany, Fault::OutOfRange],
    &[Fault::RecordTooMany, Fault::NoSuchVertex, Fault::VertexTwice, Fault::EdgeTooMany],
];

pub fn in_one_line() -> Vec<[Fault; 2]> {
    let pairs =
        |group: &'static [Fault]| (0..group.len()).flat_map(move |i| group[i + 1..].iter().map(move |&other| [group[i], other]));
    TOGETHER.into_iter().flat_map(pairs).collect()
}

pub fn cells() -> Vec<Cell> {
    let mut out = vec![Cell::LongBoth, Cell::DifferBeforeNoRoom, Cell::NoRoom, Cell::TextTooLong, Cell::DifferBeforeTextTooLong];
    out.extend([Cell::Read, Cell::ReadLongest]);
    for file in FILES {
        out.extend(FAULTS.map(|fault| Cell::Alone(file, fault)));
        out.extend(FAULTS.map(|fault| Cell::FaultBeforeDiffer(file, fault)));
        out.extend(in_one_line().into_iter().map(|[given, other]| Cell::InOneLine(file, given, other)));
        out.extend(FAULTS.into_iter().flat_map(|given| FAULTS.map(|other| Cell::InTwoLines(file, given, other))));
        out.push(Cell::Long(file));
        out.extend(FILES.map(|other| Cell::LongBefore(file, other)));
    }
    out.extend(FAULTS.into_iter().flat_map(|given| FAULTS.map(|other| Cell::InTwoFiles(given, other))));
    out.extend(DIFFERENCES.map(Cell::Differ));
    out
}

/// The faults of each line that has one, each looked at below the lines that have none.
fn faulty_lines(text: &[u8]) -> Vec<Vec<Fault>> {
    let mut mesh = Mesh::default();
    let mut out = Vec::new();
    for bytes in lines(text, Wrong::Nothing) {
        let said = bytes.and_then(|bytes| line(bytes, Wrong::Nothing));
        let found = faults_of(&mesh, said, Wrong::Nothing);
        match said {
            Some(said) if found.is_empty() => mesh.add(said, Wrong::Nothing),
            _ => out.push(found),
        }
    }
    out
}

/// The one thing in which two meshes differ.
fn difference(first: &Mesh, second: &Mesh) -> Option<Difference> {
    if first.places.len() != second.places.len() {
        return (first.faces == second.faces).then_some(Difference::VertexCount);
    }
    if first.faces.len() != second.faces.len() {
        return Some(Difference::FaceCount);
    }
    let other: Vec<([usize; 3], [usize; 3])> =
        first.faces.iter().copied().zip(second.faces.iter().copied()).filter(|(a, b)| a != b).collect();
    match other[..] {
        [([a, b, c], face)] if [[b, c, a], [c, a, b]].contains(&face) => Some(Difference::FaceTurned),
        [([a, b, c], face)] if [[a, c, b], [c, b, a], [b, a, c]].contains(&face) => Some(Difference::FaceReversed),
        [_] => Some(Difference::AnotherCorner),
        [(a, b), (c, d)] if (a, b) == (d, c) => Some(Difference::FacesExchanged),
        _ => None,
    }
}

/// The cells that two files reach.
pub fn reached(start: &[u8], end: &[u8]) -> BTreeSet<Cell> {
    let mut out = BTreeSet::new();
    let texts = [start, end];
    let long = texts.map(|text| text.len() > TEXT_LIMIT);
    let wrong = texts.map(|text| if text.len() > 2 * TEXT_LIMIT { vec![] } else { faulty_lines(text) });
    if long[0] || long[1] {
        let first = if long[0] { File::Start } else { File::End };
        out.insert(if long == [true; 2] { Cell::LongBoth } else { Cell::Long(first) });
        out.extend(FILES.into_iter().filter(|&file| !wrong[file as usize].is_empty()).map(|file| Cell::LongBefore(first, file)));
        return out;
    }
    let Some(file) = FILES.into_iter().find(|&file| !wrong[file as usize].is_empty()) else {
        reached_without_faults(start, end, &mut out);
        return out;
    };
    let [given, later @ ..] = &wrong[file as usize][..] else { unreachable!("it has a faulty line") };
    let fault = given[0];
    if given.len() == 1 && later.is_empty() && (file == File::End || wrong[1].is_empty()) {
        out.insert(Cell::Alone(file, fault));
    }
    out.extend(given[1..].iter().map(|&other| Cell::InOneLine(file, fault, other)));
    out.extend(later.iter().flatten().map(|&other| Cell::InTwoLines(file, fault, other)));
    if file == File::Start {
        out.extend(wrong[1].iter().flatten().map(|&other| Cell::InTwoFiles(fault, other)));
    }
    if differ(&as_far_as_read(start), &as_far_as_read(end), Wrong::Nothing) {
        out.insert(Cell::FaultBeforeDiffer(file, fault));
    }
    out
}

fn reached_without_faults(start: &[u8], end: &[u8], out: &mut BTreeSet<Cell>) {
    let crowded = |scene: &Scene| listing::listed(scene).len() > REPORT_ROOM;
    let lengthy = |scene: &Scene| text::write(scene).len() > TEXT_LIMIT;
    match import(start, end) {
        Ok(scene) => {
            out.insert(Cell::Read);
            out.extend([start, end].iter().any(|text| text.len() == TEXT_LIMIT).then_some(Cell::ReadLongest));
            out.extend(crowded(&scene).then_some(Cell::NoRoom));
            out.extend(lengthy(&scene).then_some(Cell::TextTooLong));
        }
        Err(_) => {
            out.extend(difference(&as_far_as_read(start), &as_far_as_read(end)).map(Cell::Differ));
            let at_rest = import(start, start).expect("it has no fault");
            out.extend(crowded(&at_rest).then_some(Cell::DifferBeforeNoRoom));
            out.extend(lengthy(&at_rest).then_some(Cell::DifferBeforeTextTooLong));
        }
    }
}

// ---- texts for the cells

const GOOD: &str = "v 0 0 0\n";

/// Three vertices and a face; a fault of its own. Those two of too many need more.
fn small(fault: Fault) -> String {
    let front = GOOD.repeat(3);
    match fault {
        Fault::BadLine => format!("{front}f 1 2 3\nf 1/1 2/2 3/3\n"),
        Fault::OutOfOrder => format!("{front}f 1 2 3\n{GOOD}"),
        Fault::OutOfRange => format!("{front}v 0 -5242.88 0\nf 1 2 3\n"),
        Fault::NoSuchVertex => format!("{front}f 1 2 4\n"),
        Fault::VertexTwice => format!("{front}f 1 2 1\n"),
        Fault::RecordTooMany => format!("{}f 1 2 3\n", GOOD.repeat(VERTEX_LIMIT + 1)),
        Fault::EdgeTooMany => full("", &format!("{NEW_EDGE}\n")),
    }
}

/// Faces that share no edge: their corners are 1, 2 and 3 apart, each distance once.
fn apart(i: usize) -> String {
    format!("f {} {} {}\n", i + 1, i + 2, i + 4)
}

const NEW_EDGE: &str = "f 500 501 502";
/// Faces whose edges are there already, and which brings none.
const OLD_EDGES: &str = "f 4 2 1";

/// 512 vertices, with this among them, 511 faces that have 1,024 edges, and this behind.
fn full(front: &str, behind: &str) -> String {
    let faces: String = (0..341).map(apart).collect();
    // of its three edges one is new
    let last = "f 1 2 3\n";
    let again = format!("{OLD_EDGES}\n").repeat(511 - 342);
    format!("{}{front}{GOOD}{faces}{last}{again}{behind}", GOOD.repeat(VERTEX_LIMIT - 1))
}

/// A line with this fault below all of a full file; where it can have another before it, it has.
fn behind(fault: Fault) -> &'static str {
    match fault {
        Fault::BadLine => "f 1 2 3 4",
        Fault::OutOfOrder | Fault::RecordTooMany => "v 0 0 0",
        Fault::OutOfRange => "v 0 9999.99 0",
        Fault::NoSuchVertex => "f 1 2 513",
        Fault::VertexTwice => "f 2 1 2",
        Fault::EdgeTooMany => NEW_EDGE,
    }
}

pub fn alone(fault: Fault) -> String {
    small(fault)
}

/// One fault, and in a later line another.
pub fn in_two_lines(given: Fault, other: Fault) -> String {
    let other = format!("{}\n", behind(other));
    match given {
        Fault::OutOfRange => full("v 9999 0 0\n", &other),
        // one vertex more than there may be, above the faces
        Fault::RecordTooMany => full("", &other).replacen("f 1 2 4\n", &format!("{GOOD}f 1 2 4\n"), 1),
        _ => full("", &format!("{}\n{other}", behind(given))),
    }
}

/// Two faults in one line.
pub fn with_two(pair: [Fault; 2]) -> String {
    use Fault::*;
    let one_more = |line: &str| full("", &format!("{OLD_EDGES}\n{line}\n"));
    match pair {
        [OutOfOrder, RecordTooMany] => full("", GOOD),
        [OutOfOrder, OutOfRange] => format!("{}f 1 2 3\nv 0 0 5242.88\n", GOOD.repeat(3)),
        [RecordTooMany, OutOfRange] => format!("{}v 0 0 -5242.88\n", GOOD.repeat(VERTEX_LIMIT)),
        [RecordTooMany, NoSuchVertex] => one_more("f 1 2 513"),
        [RecordTooMany, VertexTwice] => one_more("f 1 2 1"),
        [RecordTooMany, EdgeTooMany] => one_more(NEW_EDGE),
        [NoSuchVertex, VertexTwice] => format!("{GOOD}f 2 1 2\n"),
        [NoSuchVertex, EdgeTooMany] => full("", "f 1 2 513\n"),
        [VertexTwice, EdgeTooMany] => full("", "f 500 502 500\n"),
        other => unreachable!("{other:?} are not in one line"),
    }
}

/// A file without a fault that is none of those above.
pub fn fine() -> String {
    format!("{}f 1 2 3\n", GOOD.repeat(5))
}
