//! Two Wavefront OBJ files, one for the start and one for the end, by document 02, §3: the scene that they give, or why they give none. With it
//! the ways in which this is got wrong.

pub mod blame;
pub mod faults;
pub mod making;

use crate::report;
use crate::scene::refusal::*;
use crate::scene::*;
use crate::text;
use std::collections::HashSet;

#[derive(Clone, Copy, Debug, PartialEq, Eq, PartialOrd, Ord)]
pub enum File {
    Start,
    End,
}

pub const FILES: [File; 2] = [File::Start, File::End];

impl File {
    pub fn word(self) -> &'static str {
        match self {
            File::Start => "start",
            File::End => "end",
        }
    }
}

/// A refusal, and the file that it is about where it is about one.
#[derive(Clone, Copy, Debug, PartialEq, Eq)]
pub struct Refused {
    pub number: u64,
    pub third: u64,
    pub file: Option<File>,
}

impl Refused {
    fn in_file(number: u64, third: u64, file: File) -> Refused {
        Refused { number, third, file: Some(file) }
    }
}

impl From<Refusal> for Refused {
    fn from(Refusal { number, third }: Refusal) -> Refused {
        Refused { number, third, file: None }
    }
}

/// The mistakes that the request invites. `Nothing` is the right way.
#[derive(Clone, Copy, Debug, PartialEq, Eq)]
pub enum Wrong {
    Nothing,
    /// -0, -0.0 and -0.00 are refused
    MinusNothingRefused,
    /// 0.5 is five hundredths
    OneDigitAsHundredths,
    /// digits behind the point are left out
    PartLeftOut,
    /// a double times 100, cut
    InDoubles,
    /// 01 is refused
    ZerosInFrontRefused,
    /// ten digits are a number, and too large
    TenDigitsTaken,
    /// three digits behind the point are rounded off
    ThirdDigitCutOff,
    /// an edge stands twice where faces have it either way round
    EdgesBothWays,
    /// each edge with its lower vertex first
    EdgesSorted,
    /// a face's edges are a b, a c, b c
    EdgesInOtherOrder,
    /// the side from the third corner to the first is left out
    LastSideLeftOut,
    /// 11 for edge 1,025 before 4
    EdgeBeforeTwice,
    /// edge 1,025 is taken, and those behind it left out
    EdgesLeftOut,
    /// 1,024 edges are one too many
    EdgeTooSoon,
    /// faces are compared with their corners in rising order
    CornersSorted,
    /// faces are compared as a set
    FacesInAnyOrder,
    /// vertex counts are not compared where the faces agree
    CountsNotCompared,
    /// 14 before a line fault of the end file
    DifferBeforeEnd,
    /// 14 is told of the end file
    DifferInEnd,
    /// lines are counted without those that are skipped
    SkippedNotCounted,
    /// lines from 0
    LinesFromNought,
    /// the end file first
    EndFirst,
    /// 8 for the end file after the lines of the start file
    LongEndLate,
    /// lines of the end file behind those of the start file
    LinesOfBoth,
    /// only the form of the end file is looked at
    EndNotChecked,
    /// f 0 is a vertex that is not there
    NoughtIsUnknown,
    /// f 01 is vertex 1
    ZeroInFrontOfVertex,
    /// f lines of four corners and more are taken, the first three
    FourthCornerLeftOut,
    /// f 1/2/3 is vertex 1
    SlashesTaken,
    /// a CR before the LF is left out
    CarriageReturnTaken,
    /// a last line without LF is taken
    EndWithoutLineFeed,
    /// a skipped last line without LF is taken
    SkippedWithoutLineFeed,
    /// `vt`, `vn`, `vp` with anything behind them are skipped
    AnyOtherVertexSkipped,
    /// `o`, `g`, `s` and materials are skipped
    NamesSkipped,
    /// two spaces part fields too
    SpacesTaken,
    /// vertices may stand below faces
    AnyOrderTaken,
    /// a face may name a vertex that stands below it
    LaterVertexTaken,
    /// start and end change places
    Exchanged,
}

use Wrong::*;

pub const WRONG: [Wrong; 38] = [
    MinusNothingRefused, OneDigitAsHundredths, PartLeftOut, InDoubles, ZerosInFrontRefused, TenDigitsTaken, ThirdDigitCutOff,
    EdgesBothWays, EdgesSorted, EdgesInOtherOrder, LastSideLeftOut, EdgeBeforeTwice, EdgesLeftOut, EdgeTooSoon, CornersSorted,
    FacesInAnyOrder, CountsNotCompared, DifferBeforeEnd, DifferInEnd, SkippedNotCounted, LinesFromNought, EndFirst, LongEndLate,
    LinesOfBoth, EndNotChecked, NoughtIsUnknown, ZeroInFrontOfVertex, FourthCornerLeftOut, SlashesTaken, CarriageReturnTaken,
    EndWithoutLineFeed, SkippedWithoutLineFeed, AnyOtherVertexSkipped, NamesSkipped, SpacesTaken, AnyOrderTaken,
    LaterVertexTaken, Exchanged,
];

/// What a line says.
#[derive(Clone, Copy, Debug, PartialEq, Eq)]
pub enum Line {
    Skipped,
    /// In hundredths.
    Vertex([i64; 3]),
    /// Vertex numbers from 1, as written.
    Face([usize; 3]),
}

/// Nothing for a line that is not of the form.
pub fn line(line: &[u8], wrong: Wrong) -> Option<Line> {
    let line = if wrong == CarriageReturnTaken { line.strip_suffix(b"\r").unwrap_or(line) } else { line };
    if line.is_empty() || is_skipped(line, wrong) {
        return Some(Line::Skipped);
    }
    let mut fields: Vec<&[u8]> = line.split(|&byte| byte == b' ').collect();
    if wrong == SpacesTaken {
        fields.retain(|field| !field.is_empty());
    }
    if wrong == FourthCornerLeftOut && fields.first() == Some(&&b"f"[..]) {
        fields.truncate(4);
    }
    let [word, first, second, third] = fields[..] else { return None };
    match word {
        b"v" => Some(Line::Vertex([decimal(first, wrong)?, decimal(second, wrong)?, decimal(third, wrong)?])),
        b"f" => Some(Line::Face([corner(first, wrong)?, corner(second, wrong)?, corner(third, wrong)?])),
        _ => None,
    }
}

fn is_skipped(line: &[u8], wrong: Wrong) -> bool {
    let begins = |fronts: &[&str]| fronts.iter().any(|front| line.starts_with(front.as_bytes()));
    match wrong {
        AnyOtherVertexSkipped => begins(&["#", "vt", "vn", "vp"]),
        NamesSkipped => begins(&["#", "vt ", "vn ", "o ", "g ", "s ", "usemtl ", "mtllib "]),
        _ => begins(&["#", "vt ", "vn "]),
    }
}

fn are_digits(field: &[u8], most: usize) -> bool {
    (1..=most).contains(&field.len()) && field.iter().all(u8::is_ascii_digit)
}

fn value(digits: &[u8]) -> i64 {
    std::str::from_utf8(digits).unwrap().parse().unwrap()
}

/// A minus or none, one to nine digits, then nothing or a point and one or two digits: as hundredths. The digits of the part are filled up to two
/// and set behind the others.
pub fn decimal(field: &[u8], wrong: Wrong) -> Option<i64> {
    let (size, sign) = match field.strip_prefix(b"-") {
        Some(size) => (size, -1),
        None => (field, 1),
    };
    let mut parts = size.split(|&byte| byte == b'.');
    let (whole, part) = (parts.next()?, parts.next());
    let formed = are_digits(whole, if wrong == TenDigitsTaken { 12 } else { 9 })
        && part.is_none_or(|part| are_digits(part, if wrong == ThirdDigitCutOff { 3 } else { 2 }))
        && parts.next().is_none();
    if !formed || (wrong == ZerosInFrontRefused && whole.len() > 1 && whole[0] == b'0') {
        return None;
    }
    if wrong == InDoubles {
        return Some((std::str::from_utf8(field).ok()?.parse::<f64>().ok()? * 100.0) as i64);
    }
    let mut hundredths = part.unwrap_or(b"").to_vec();
    if wrong == PartLeftOut {
        hundredths.clear();
    }
    match wrong {
        OneDigitAsHundredths if hundredths.len() == 1 => hundredths.insert(0, b'0'),
        _ => hundredths.resize(2, b'0'),
    }
    let value = value(&[whole, &hundredths].concat());
    if wrong == MinusNothingRefused && value == 0 && sign < 0 {
        return None;
    }
    Some(sign * value)
}

/// A plain positive number.
fn corner(field: &[u8], wrong: Wrong) -> Option<usize> {
    let field = if wrong == SlashesTaken { field.split(|&byte| byte == b'/').next()? } else { field };
    let nought = field.first() == Some(&b'0');
    let taken = match wrong {
        NoughtIsUnknown => field == b"0",
        ZeroInFrontOfVertex => field.len() > 1 && value_of(field) > 0,
        _ => false,
    };
    (are_digits(field, 9) && (!nought || taken)).then(|| value(field) as usize)
}

fn value_of(field: &[u8]) -> i64 {
    if are_digits(field, 9) {
        value(field)
    } else {
        0
    }
}

/// The mesh of one file; vertices count from 0.
#[derive(Clone, Debug, Default, PartialEq, Eq)]
pub struct Mesh {
    pub places: Vec<[i64; 3]>,
    pub faces: Vec<[usize; 3]>,
    pub edges: Vec<[usize; 2]>,
    /// The same, to be found.
    known: HashSet<[usize; 2]>,
}

impl Mesh {
    /// The edges that a face adds: each of its sides that is not yet there, either way round.
    fn new_edges(&self, [a, b, c]: [usize; 3], wrong: Wrong) -> Vec<[usize; 2]> {
        let sides = if wrong == EdgesInOtherOrder { [[a, b], [a, c], [b, c]] } else { [[a, b], [b, c], [c, a]] };
        let mut added: Vec<[usize; 2]> = Vec::new();
        for [from, to] in sides.into_iter().take(if wrong == LastSideLeftOut { 2 } else { 3 }) {
            let there = |edge: [usize; 2]| self.known.contains(&edge) || added.contains(&edge);
            if !there([from, to]) && (wrong == EdgesBothWays || !there([to, from])) {
                added.push(if wrong == EdgesSorted { [from.min(to), from.max(to)] } else { [from, to] });
            }
        }
        added
    }

    fn add(&mut self, line: Line, wrong: Wrong) {
        match line {
            Line::Skipped => {}
            Line::Vertex(place) => self.places.push(place),
            Line::Face(corners) => {
                let face = corners.map(|corner| corner - 1);
                let mut added = self.new_edges(face, wrong);
                if wrong == EdgesLeftOut {
                    added.truncate(EDGE_LIMIT - self.edges.len());
                }
                self.known.extend(&added);
                self.edges.extend(added);
                self.faces.push(face);
            }
        }
    }
}

/// What may be wrong with a line, in the order in which it is looked for.
#[derive(Clone, Copy, Debug, PartialEq, Eq, PartialOrd, Ord)]
pub enum Fault {
    BadLine,
    OutOfOrder,
    RecordTooMany,
    OutOfRange,
    NoSuchVertex,
    VertexTwice,
    EdgeTooMany,
}

pub const FAULTS: [Fault; 7] = [
    Fault::BadLine,
    Fault::OutOfOrder,
    Fault::RecordTooMany,
    Fault::OutOfRange,
    Fault::NoSuchVertex,
    Fault::VertexTwice,
    Fault::EdgeTooMany,
];

impl Fault {
    pub fn number(self) -> u64 {
        match self {
            Fault::BadLine => BAD_LINE,
            Fault::OutOfOrder => OUT_OF_ORDER,
            Fault::RecordTooMany | Fault::EdgeTooMany => ONE_TOO_MANY,
            Fault::OutOfRange => OUT_OF_RANGE,
            Fault::NoSuchVertex => NO_SUCH_VERTEX,
            Fault::VertexTwice => VERTEX_TWICE,
        }
    }
}

/// Every fault of a line below this mesh, in their order.
pub fn faults_of(mesh: &Mesh, line: Option<Line>, wrong: Wrong) -> Vec<Fault> {
    let mut found = Vec::new();
    let mut add = |holds: bool, fault: Fault| found.extend(holds.then_some(fault));
    match line {
        None => add(true, Fault::BadLine),
        Some(Line::Skipped) => {}
        Some(Line::Vertex(place)) => {
            add(wrong != AnyOrderTaken && !mesh.faces.is_empty(), Fault::OutOfOrder);
            add(mesh.places.len() >= VERTEX_LIMIT, Fault::RecordTooMany);
            add(!place.into_iter().all(in_range), Fault::OutOfRange);
        }
        Some(Line::Face(corners)) => {
            let limit = if wrong == LaterVertexTaken { VERTEX_LIMIT } else { mesh.places.len() };
            let unknown = corners.iter().any(|&corner| corner == 0 || corner > limit);
            add(mesh.faces.len() >= TRIANGLE_LIMIT, Fault::RecordTooMany);
            add(unknown, Fault::NoSuchVertex);
            add(text::any_twice(&corners), Fault::VertexTwice);
            let edges = mesh.edges.len() + mesh.new_edges(corners.map(|corner| corner.wrapping_sub(1)), wrong).len();
            let most = EDGE_LIMIT - (wrong == EdgeTooSoon) as usize;
            add(wrong != EdgesLeftOut && edges > most, Fault::EdgeTooMany);
        }
    }
    if wrong == EdgeBeforeTwice && found.ends_with(&[Fault::VertexTwice, Fault::EdgeTooMany]) {
        found.swap_remove(found.len() - 2);
    }
    found
}

/// The lines of a text without their LF; nothing for a last line that has none.
fn lines(text: &[u8], wrong: Wrong) -> Vec<Option<&[u8]>> {
    let ended = |line: &[u8]| match wrong {
        EndWithoutLineFeed => true,
        SkippedWithoutLineFeed => is_skipped(line, wrong),
        _ => false,
    };
    let split = text.split_inclusive(|&byte| byte == b'\n');
    split.map(|line| line.strip_suffix(b"\n").or(ended(line).then_some(line))).collect()
}

/// The mesh of a file, or the first fault and its line.
pub fn read(text: &[u8], wrong: Wrong) -> Result<Mesh, (Fault, u64)> {
    let mut mesh = Mesh::default();
    let mut number = if wrong == LinesFromNought { 0 } else { 1 };
    for bytes in lines(text, wrong) {
        let said = bytes.and_then(|bytes| line(bytes, wrong));
        if let Some(&fault) = faults_of(&mesh, said, wrong).first() {
            return Err((fault, number));
        }
        let said = said.expect("a line without a fault says something");
        number += (wrong != SkippedNotCounted || said != Line::Skipped) as u64;
        mesh.add(said, wrong);
    }
    Ok(mesh)
}

/// 14: vertex counts, the faces and their order.
fn differ(first: &Mesh, second: &Mesh, wrong: Wrong) -> bool {
    let faces = |mesh: &Mesh| {
        let mut faces = mesh.faces.clone();
        if wrong == CornersSorted {
            faces.iter_mut().for_each(|face| face.sort());
        }
        if wrong == FacesInAnyOrder {
            faces.sort();
        }
        faces
    };
    (wrong != CountsNotCompared && first.places.len() != second.places.len()) || faces(first) != faces(second)
}

const DIFFER: Refused = Refused { number: FILES_DIFFER, third: 0, file: None };

/// The scene of two files, or the refusal.
pub fn import_with(start: &[u8], end: &[u8], wrong: Wrong) -> Result<Scene, Refused> {
    let long = |file: File, text: &[u8]| match text.len() > TEXT_LIMIT {
        true => Err(Refused::in_file(TEXT_TOO_LONG, 0, file)),
        false => Ok(()),
    };
    let in_file = |file: File| move |(fault, line): (Fault, u64)| Refused::in_file(fault.number(), line, file);
    long(File::Start, start)?;
    if wrong != LongEndLate {
        long(File::End, end)?;
    }
    let above = start.split(|&byte| byte == b'\n').count() as u64 - 1;
    let (first, second) = (read(start, wrong), read(end, wrong));
    if wrong == EndFirst {
        second.clone().map_err(in_file(File::End))?;
    }
    let first = first.map_err(in_file(File::Start))?;
    long(File::End, end)?;
    let second = match second {
        Err((_, _)) if wrong == DifferBeforeEnd && differ(&first, &as_far_as_read(end), wrong) => return Err(DIFFER),
        Err((fault, _)) if wrong == EndNotChecked && fault != Fault::BadLine => return Err(DIFFER),
        Err((fault, line)) if wrong == LinesOfBoth => return Err(in_file(File::End)((fault, above + line))),
        other => other.map_err(in_file(File::End))?,
    };
    if differ(&first, &second, wrong) {
        return Err(if wrong == DifferInEnd { Refused { file: Some(File::End), ..DIFFER } } else { DIFFER });
    }
    let (first, second) = if wrong == Exchanged { (second, first) } else { (first, second) };
    let places = first.places.iter().zip(&second.places);
    Ok(Scene {
        vertices: places.map(|(from, to)| [from[0], from[1], from[2], to[0], to[1], to[2]]).collect(),
        edges: first.edges,
        triangles: first.faces,
        seams: vec![],
    })
}

/// The mesh of the lines that have no fault.
pub fn as_far_as_read(text: &[u8]) -> Mesh {
    let mut mesh = Mesh::default();
    for bytes in lines(text, Wrong::Nothing) {
        let said = bytes.and_then(|bytes| line(bytes, Wrong::Nothing));
        if let (Some(said), true) = (said, faults_of(&mesh, said, Wrong::Nothing).is_empty()) {
            mesh.add(said, Wrong::Nothing);
        }
    }
    mesh
}

pub fn import(start: &[u8], end: &[u8]) -> Result<Scene, Refused> {
    import_with(start, end, Wrong::Nothing)
}

/// The same where the scene goes to lent buffers of these lengths, the boxes in the last.
pub fn import_lent(start: &[u8], end: &[u8], lengths: [usize; 4], boxes: usize) -> Result<Scene, Refused> {
    if boxes < crate::calls::stored::BOX_NUMBERS
        || lengths.into_iter().zip(text::LENT_LENGTHS).any(|(length, least)| length < least)
    {
        return Err(Refusal::bare(LENT_TOO_SHORT).into());
    }
    import(start, end)
}

pub fn refused_line(Refused { number, third, file }: Refused) -> String {
    let file = file.map_or(String::new(), |file| format!("\t{}", file.word()));
    format!("refused\t{number}\t{third}{file}\n")
}

/// What the program `obj` prints: the report of the imported scene.
pub fn reported(imported: &Result<Scene, Refused>) -> String {
    match imported {
        Ok(scene) => report::written(&report::judged_scene(scene, REPORT_ROOM)),
        Err(refused) => refused_line(*refused),
    }
}

/// What the program `import` prints: the imported scene as text.
pub fn saved(imported: &Result<Scene, Refused>) -> String {
    match imported {
        Ok(scene) => Some(text::write(scene))
            .filter(|text| text.len() <= TEXT_LIMIT)
            .unwrap_or_else(|| refused_line(Refusal::bare(TEXT_TOO_LONG).into())),
        Err(refused) => refused_line(*refused),
    }
}
