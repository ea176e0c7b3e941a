//! A Wavefront OBJ file, as exporters write it.

use crate::cutting;
use crate::fault::Fault;
use crate::fields::{corner, fields, place, shown, Wrong};
use crate::names::{Behind, Names};
use crate::plain;
use crate::work::in_order;
use std::fs::File;
use std::io::{self, Read};

#[derive(Debug, Default, PartialEq)]
pub struct Obj {
    pub places: Vec<[f64; 3]>,
    pub triangles: Vec<[u32; 3]>,
    /// The line of the face that each triangle is of.
    pub lines: Vec<u64>,
    pub noted: Noted,
    pub names: Names,
    /// Where the body's own file begins, once it is joined.
    pub behind: Option<Behind>,
}

/// What was cut or passed over, to be told.
#[derive(Clone, Copy, Debug, Default, PartialEq, Eq)]
pub struct Noted {
    pub quads: u64,
    pub larger: u64,
    /// `l` and `p`: lines and points that are no part of a face.
    pub loose: u64,
}

impl Noted {
    fn join(&mut self, other: Noted) {
        self.quads += other.quads;
        self.larger += other.larger;
        self.loose += other.loose;
    }
}

/// Statements without a corner of a face: materials, texture, normals, how it is shown.
const PASSED: [&[u8]; 17] = [
    b"s", b"mg", b"vt", b"vn", b"vp", b"usemtl", b"mtllib", b"usemap", b"maplib", b"lod", b"bevel", b"c_interp", b"d_interp",
    b"shadow_obj", b"trace_obj", b"ctech", b"stech",
];

/// Statements of numbers, which alone may go on in a further line: a name that ends in a backslash is a name.
const OF_NUMBERS: [&[u8]; 6] = [b"v", b"f", b"l", b"p", b"vt", b"vn"];

/// This name is that of standard input.
pub const STANDARD_INPUT: &str = "-";

/// What a file is called where something is told of it.
pub fn shown_name(name: &str) -> &str {
    if name == STANDARD_INPUT {
        "standard input"
    } else {
        name
    }
}

pub fn read_file(name: &str) -> Result<Obj, Fault> {
    read_on(name, 1)
}

/// On so many threads.
pub fn read_on(name: &str, threads: usize) -> Result<Obj, Fault> {
    of_bytes_on(shown_name(name), &bytes_of(name)?, threads)
}

/// All of a file, or of standard input.
pub fn bytes_of(name: &str) -> Result<Vec<u8>, Fault> {
    let told = |error: io::Error| Fault::of_file(shown_name(name), &error);
    if name == STANDARD_INPUT {
        return all_of(io::stdin().lock()).map_err(told);
    }
    File::open(name).and_then(all_of).map_err(told)
}

fn all_of(mut input: impl Read) -> io::Result<Vec<u8>> {
    let mut bytes = Vec::new();
    input.read_to_end(&mut bytes)?;
    Ok(bytes)
}

pub fn read(name: &str, input: impl Read) -> Result<Obj, Fault> {
    of_bytes(name, &all_of(input).map_err(|error| Fault::of_file(name, &error))?)
}

/// All of a file at once: its lines are looked at where they stand, and none is copied.
pub fn of_bytes(name: &str, bytes: &[u8]) -> Result<Obj, Fault> {
    of_bytes_on(name, bytes, 1)
}

/// Bytes that are read in one piece, where there are several threads.
const PIECE: usize = 1 << 20;

/// On so many threads, a piece of the file each.
pub fn of_bytes_on(name: &str, bytes: &[u8], threads: usize) -> Result<Obj, Fault> {
    in_pieces(name, bytes, if threads > 1 { PIECE } else { bytes.len() }, threads)
}

/// The same in pieces of about this length; one piece alone is read in its turn.
pub fn in_pieces(name: &str, bytes: &[u8], length: usize, threads: usize) -> Result<Obj, Fault> {
    let bytes = bytes.strip_prefix(b"\xef\xbb\xbf").unwrap_or(bytes);
    let (mut obj, mut line) = (Obj::default(), 0);
    let pieces = pieces(bytes, length);
    let alone = |at: usize| if pieces.len() > 1 { Piece::read(pieces[at]) } else { None };
    in_order(pieces.len(), threads.min(pieces.len()), alone, |at, piece| {
        line = match piece {
            Some(piece) if piece.fits(&obj) => obj.join_piece(piece, line),
            _ => obj.lines_behind(name, pieces[at], line)?,
        };
        Ok(())
    })?;
    obj.names.face(obj.triangles.len());
    obj.known_corners(name)?;
    Ok(obj)
}

/// The file in pieces of about this length, each up to the end of a line with which a statement ends.
fn pieces(bytes: &[u8], length: usize) -> Vec<&[u8]> {
    let (mut out, mut rest) = (Vec::new(), bytes);
    while !rest.is_empty() {
        let behind = (length.min(rest.len())..rest.len()).find(|&at| ends_statement(&rest[..at]));
        let (piece, behind) = rest.split_at(behind.unwrap_or(rest.len()));
        out.push(piece);
        rest = behind;
    }
    out
}

/// A line that ends in a backslash may go on; one that ends in CR alone may have LF behind it.
fn ends_statement(bytes: &[u8]) -> bool {
    let line = bytes.strip_suffix(b"\n").map(|line| line.strip_suffix(b"\r").unwrap_or(line));
    line.is_some_and(|line| line.last() != Some(&b'\\'))
}

/// A piece of a file that was read without what stands before it: its lines count from 1, and what it says of names is kept, to be said in its turn.
struct Piece {
    obj: Obj,
    /// Statements `o` and `g`, each with the count of triangles before it.
    said: Vec<(usize, Vec<u8>)>,
    lines: u64,
}

impl Piece {
    /// Nothing where it must be read in its turn: a line is at fault, or counts vertices backwards.
    fn read(bytes: &[u8]) -> Option<Piece> {
        let (mut piece, mut lines) = (Piece { obj: Obj::default(), said: Vec::new(), lines: 0 }, Lines::of(bytes, 0));
        let mut corners = Vec::new();
        while lines.at < bytes.len() {
            if let Some(end) = piece.obj.plain_line(bytes, lines.at, lines.last + 1) {
                lines.pass_to(end);
                continue;
            }
            let (line, first) = lines.statement();
            match fields(line).next() {
                Some(b"o" | b"g") => piece.said.push((piece.obj.triangles.len(), line.to_vec())),
                Some(b"f") if line.contains(&b'-') => return None,
                _ => piece.obj.statement(line, first, &mut corners).ok()?,
            }
        }
        piece.lines = lines.last;
        Some(piece)
    }

    /// Whether 32 bits count the vertices with these before them.
    fn fits(&self, before: &Obj) -> bool {
        before.places.len() + self.obj.places.len() <= u32::MAX as usize
    }
}

impl Obj {
    /// A vertex of three decimals, or a face of three or four corners that all differ, as nearly every line of an export is; hands back where the line
    /// ends. Of any other line nothing is taken: it is read by fields.
    #[inline]
    fn plain_line(&mut self, bytes: &[u8], at: usize, line: u64) -> Option<usize> {
        match bytes[at..] {
            [b'v', b' ', ..] if self.places.len() < u32::MAX as usize => {
                let (place, end) = plain::place(bytes, at + 2)?;
                self.places.push(place);
                Some(end)
            }
            [b'f', b' ', ..] => {
                let (corners, count, end) = plain::corners(bytes, at + 2)?;
                self.triangles.extend(cutting::plain(corners, count));
                self.noted.quads += (count == 4) as u64;
                self.lines.resize(self.triangles.len(), line);
                Some(end)
            }
            _ => None,
        }
    }

    fn statement(&mut self, line: &[u8], number: u64, corners: &mut Vec<u32>) -> Result<(), Wrong> {
        let mut rest = fields(line);
        match rest.next() {
            None => Ok(()),
            Some(b"v") => self.vertex(rest),
            Some(b"f") => self.face(rest, number, corners),
            Some(b"l" | b"p") => {
                self.noted.loose += 1;
                Ok(())
            }
            Some(b"o" | b"g") => {
                self.named(line);
                Ok(())
            }
            Some(word) if PASSED.contains(&word) => Ok(()),
            Some(word) => Err(unknown(word)),
        }
    }

    /// A name begins; the faces up to here have those before it.
    fn named(&mut self, line: &[u8]) {
        self.names.face(self.triangles.len());
        let mut rest = fields(line);
        match rest.next() {
            Some(b"o") => self.names.object(line),
            _ => self.names.groups(rest),
        }
    }

    fn vertex<'a>(&mut self, fields: impl Iterator<Item = &'a [u8]>) -> Result<(), Wrong> {
        if self.places.len() == u32::MAX as usize {
            return Err("more vertices than 32 bits count".into());
        }
        self.places.push(place(fields)?);
        Ok(())
    }

    fn face<'a>(&mut self, fields: impl Iterator<Item = &'a [u8]>, line: u64, corners: &mut Vec<u32>) -> Result<(), Wrong> {
        corners.clear();
        for field in fields {
            corners.push(counted(corner(field)?, self.places.len())?);
        }
        match corners.len() {
            0..=2 => return Err(format!("a face has three corners or more; here are {}", corners.len())),
            3 => {}
            4 => self.noted.quads += 1,
            _ => self.noted.larger += 1,
        }
        all_different(corners)?;
        self.triangles.extend(cutting::triangles(corners));
        self.lines.resize(self.triangles.len(), line);
        Ok(())
    }

    /// Lines that stand behind this many, in their turn; hands back the number of the last.
    fn lines_behind(&mut self, name: &str, bytes: &[u8], before: u64) -> Result<u64, Fault> {
        let (mut lines, mut corners) = (Lines::of(bytes, before), Vec::new());
        while lines.at < bytes.len() {
            if let Some(end) = self.plain_line(bytes, lines.at, lines.last + 1) {
                lines.pass_to(end);
                continue;
            }
            let (line, first) = lines.statement();
            self.statement(line, first, &mut corners).map_err(|wrong| Fault::in_line(name, first, wrong))?;
        }
        Ok(lines.last)
    }

    /// A piece that was read by itself, behind this many lines; hands back the number of its last.
    fn join_piece(&mut self, piece: Piece, before: u64) -> u64 {
        let triangles = self.triangles.len();
        let Obj { places, triangles: faces, lines, noted, .. } = piece.obj;
        self.noted.join(noted);
        self.places.extend(places);
        for (behind, statement) in piece.said {
            self.triangles.extend(&faces[self.triangles.len() - triangles..behind]);
            self.named(&statement);
        }
        self.triangles.extend(&faces[self.triangles.len() - triangles..]);
        self.lines.extend(lines.iter().map(|line| before + line));
        before + piece.lines
    }

    /// The body's mesh, from a file of its own, behind this one's.
    pub fn join_body(&mut self, file: &str, body: Obj) -> Result<(), Fault> {
        let (vertices, triangles) = (self.places.len(), self.triangles.len());
        if vertices + body.places.len() > u32::MAX as usize {
            return Err(Fault::new(format!("{file}: more vertices than 32 bits count, with those of the cloth")));
        }
        self.places.extend(body.places);
        self.triangles.extend(body.triangles.iter().map(|corners| corners.map(|corner| corner + vertices as u32)));
        self.lines.extend(body.lines);
        let behind = Behind { file: file.to_string(), vertices, triangles };
        self.names.join(&body.names, behind.clone());
        self.behind = Some(behind);
        Ok(())
    }

    /// The body's own file, where it has this triangle.
    pub fn behind_at(&self, triangle: usize) -> Option<&Behind> {
        self.behind.as_ref().filter(|behind| triangle >= behind.triangles)
    }

    /// Asked at the end, since a face may name a vertex that comes after it.
    fn known_corners(&self, name: &str) -> Result<(), Fault> {
        let count = self.places.len();
        let unknown = |corners: &[u32; 3]| corners.iter().find(|&&corner| corner as usize >= count).copied();
        for (corners, &line) in self.triangles.iter().zip(&self.lines) {
            if let Some(corner) = unknown(corners) {
                return Err(Fault::in_line(
                    name,
                    line,
                    format!("there is no vertex {}: the file has {count}", corner as u64 + 1),
                ));
            }
        }
        Ok(())
    }
}

/// A corner's vertex counted from 0; one that is written backwards is counted from the vertices that stand above it.
fn counted(written: i64, above: usize) -> Result<u32, Wrong> {
    let number = if written > 0 { written - 1 } else { above as i64 + written };
    match u32::try_from(number) {
        Ok(vertex) if vertex < u32::MAX => Ok(vertex),
        _ => Err(format!("there is no vertex {written}: {above} stand above this line")),
    }
}

fn all_different(corners: &[u32]) -> Result<(), Wrong> {
    let mut sorted = corners.to_vec();
    sorted.sort_unstable();
    match sorted.windows(2).find(|two| two[0] == two[1]) {
        Some(two) => Err(format!("vertex {} stands twice in one face", two[0] as u64 + 1)),
        None => Ok(()),
    }
}

fn unknown(word: &[u8]) -> Wrong {
    const CURVED: [&[u8]; 13] =
        [b"cstype", b"deg", b"bmat", b"step", b"curv", b"curv2", b"surf", b"parm", b"trim", b"hole", b"scrv", b"con", b"end"];
    if CURVED.contains(&word) {
        return format!("{}: curves and curved surfaces are not read; export polygons", shown(word));
    }
    if word.starts_with(b"\xff\xfe") || word.starts_with(b"\xfe\xff") || word.contains(&0) {
        return "this is no text of single bytes; export plain OBJ (ASCII or UTF-8)".into();
    }
    format!("{} begins no statement that is known", shown(word))
}

/// Lines that end in LF, in CR LF or in CR; a statement of numbers whose line ends in a backslash goes on in the next.
struct Lines<'a> {
    bytes: &'a [u8],
    /// A statement of several lines.
    joined: Vec<u8>,
    /// Where the next line begins.
    at: usize,
    /// The line in which a statement begins, and the last that was read.
    first: u64,
    last: u64,
}

impl<'a> Lines<'a> {
    /// Of a piece of a file, behind this many lines.
    fn of(bytes: &'a [u8], before: u64) -> Lines<'a> {
        Lines { bytes, joined: Vec::new(), at: 0, first: before, last: before }
    }
}

impl Lines<'_> {
    /// The next statement, with the line that it begins in.
    fn statement(&mut self) -> (&[u8], u64) {
        self.first = self.last + 1;
        let line = self.next();
        if !goes_on(line) {
            return (line, self.first);
        }
        let mut joined = std::mem::take(&mut self.joined);
        joined.clear();
        joined.extend_from_slice(line);
        while goes_on(&joined) {
            *joined.last_mut().expect("it has a last byte") = b' ';
            if self.at == self.bytes.len() {
                break;
            }
            joined.extend_from_slice(self.next());
        }
        self.joined = joined;
        (&self.joined, self.first)
    }
}

impl<'a> Lines<'a> {
    /// The next line of the file, without its end.
    fn next(&mut self) -> &'a [u8] {
        let rest = &self.bytes[self.at..];
        let length = rest.iter().position(|&byte| byte == b'\n' || byte == b'\r').unwrap_or(rest.len());
        self.pass_to(self.at + length);
        &rest[..length]
    }

    /// The line that ends here is read.
    fn pass_to(&mut self, end: usize) {
        self.at = match self.bytes[end..] {
            [b'\r', b'\n', ..] => end + 2,
            [] => end,
            _ => end + 1,
        };
        self.last += 1;
    }
}

/// A backslash at the end of a comment belongs to the comment.
fn goes_on(line: &[u8]) -> bool {
    line.last() == Some(&b'\\') && !line.contains(&b'#') && fields(line).next().is_some_and(|word| OF_NUMBERS.contains(&word))
}
