//! How files were read, edges made and lines written before: line by line and field by field, by sorting, digit after digit. What is done now is held to
//! it, and timed beside it.

use garment::cutting;
use garment::edges::sides_of;
use garment::fault::Fault;
use garment::fields::{corner, fields, place, shown, Wrong};
use garment::obj::Obj;
use garment::pairs::Pair;
use garment::report::Form;
use makhnodri::Settled;
use std::io::{self, BufRead};

/// Statements without a corner of a face: materials, texture, normals, how it is shown.
const PASSED: [&[u8]; 17] = [
    b"s", b"mg", b"vt", b"vn", b"vp", b"usemtl", b"mtllib", b"usemap", b"maplib", b"lod", b"bevel", b"c_interp", b"d_interp",
    b"shadow_obj", b"trace_obj", b"ctech", b"stech",
];

/// Statements of numbers, which alone may go on in a further line: a name that ends in a backslash is a name.
const OF_NUMBERS: [&[u8]; 6] = [b"v", b"f", b"l", b"p", b"vt", b"vn"];

pub fn read(name: &str, input: impl BufRead) -> Result<Obj, Fault> {
    let mut lines = Lines { input, line: Vec::new(), first: 0, last: 0 };
    let mut obj = Obj::default();
    let mut corners = Vec::new();
    while lines.next().map_err(|error| Fault::of_file(name, &error))? {
        statement(&mut obj, &lines.line, lines.first, &mut corners).map_err(|wrong| Fault::in_line(name, lines.first, wrong))?;
    }
    known_corners(&obj, name)?;
    Ok(obj)
}

fn statement(obj: &mut Obj, line: &[u8], number: u64, corners: &mut Vec<u32>) -> Result<(), Wrong> {
    let mut rest = fields(line);
    match rest.next() {
        None => Ok(()),
        Some(b"v") => vertex(obj, rest),
        Some(b"f") => face(obj, rest, number, corners),
        Some(b"l" | b"p") => {
            obj.noted.loose += 1;
            Ok(())
        }
        Some(b"o") => {
            obj.names.object(line);
            Ok(())
        }
        Some(b"g") => {
            obj.names.groups(rest);
            Ok(())
        }
        Some(word) if PASSED.contains(&word) => Ok(()),
        Some(word) => Err(unknown(word)),
    }
}

fn vertex<'a>(obj: &mut Obj, fields: impl Iterator<Item = &'a [u8]>) -> Result<(), Wrong> {
    if obj.places.len() == u32::MAX as usize {
        return Err("more vertices than 32 bits count".into());
    }
    obj.places.push(place(fields)?);
    Ok(())
}

fn face<'a>(obj: &mut Obj, fields: impl Iterator<Item = &'a [u8]>, line: u64, corners: &mut Vec<u32>) -> Result<(), Wrong> {
    corners.clear();
    for field in fields {
        corners.push(counted(corner(field)?, obj.places.len())?);
    }
    match corners.len() {
        0..=2 => return Err(format!("a face has three corners or more; here are {}", corners.len())),
        3 => {}
        4 => obj.noted.quads += 1,
        _ => obj.noted.larger += 1,
    }
    all_different(corners)?;
    obj.triangles.extend(cutting::triangles(corners));
    obj.lines.resize(obj.triangles.len(), line);
    obj.names.face(obj.triangles.len());
    Ok(())
}

/// Asked at the end, since a face may name a vertex that comes after it.
fn known_corners(obj: &Obj, name: &str) -> Result<(), Fault> {
    let count = obj.places.len();
    let unknown = |corners: &[u32; 3]| corners.iter().find(|&&corner| corner as usize >= count).copied();
    for (corners, &line) in obj.triangles.iter().zip(&obj.lines) {
        if let Some(corner) = unknown(corners) {
            return Err(Fault::in_line(name, line, format!("there is no vertex {}: the file has {count}", corner as u64 + 1)));
        }
    }
    Ok(())
}

/// A corner's vertex counted from 0; one that is written backwards is counted from the vertices that stand above it.
fn counted(written: i64, above: usize) -> Result<u32, Wrong> {
    let number = if written > 0 { written - 1 } else { above as i64 + written };
    match u32::try_from(number) {
        Ok(vertex) if vertex < u32::MAX => Ok(vertex),
        _ => Err(format!("there is no vertex {written}: {above} stand above this line")),
    }
}

fn all_different(corners: &[u32]) -> Result<(), Wrong> {
    let mut sorted = corners.to_vec();
    sorted.sort_unstable();
    match sorted.windows(2).find(|two| two[0] == two[1]) {
        Some(two) => Err(format!("vertex {} stands twice in one face", two[0] as u64 + 1)),
        None => Ok(()),
    }
}

fn unknown(word: &[u8]) -> Wrong {
    const CURVED: [&[u8]; 13] =
        [b"cstype", b"deg", b"bmat", b"step", b"curv", b"curv2", b"surf", b"parm", b"trim", b"hole", b"scrv", b"con", b"end"];
    if CURVED.contains(&word) {
        return format!("{}: curves and curved surfaces are not read; export polygons", shown(word));
    }
    if word.starts_with(b"\xff\xfe") || word.starts_with(b"\xfe\xff") || word.contains(&0) {
        return "this is no text of single bytes; export plain OBJ (ASCII or UTF-8)".into();
    }
    format!("{} begins no statement that is known", shown(word))
}

/// Lines that end in LF, in CR LF or in CR; a statement of numbers whose line ends in a backslash goes on in the next.
struct Lines<R> {
    input: R,
    line: Vec<u8>,
    /// Where the statement begins, and where it ends.
    first: u64,
    last: u64,
}

impl<R: BufRead> Lines<R> {
    /// Whether there is a further one.
    fn next(&mut self) -> io::Result<bool> {
        self.line.clear();
        self.first = self.last + 1;
        if !self.append()? {
            return Ok(false);
        }
        if self.first == 1 && self.line.starts_with(b"\xef\xbb\xbf") {
            self.line.drain(..3);
        }
        while self.goes_on() {
            *self.line.last_mut().expect("it has a last byte") = b' ';
            if !self.append()? {
                break;
            }
        }
        Ok(true)
    }

    /// A backslash at the end of a comment belongs to the comment.
    fn goes_on(&self) -> bool {
        self.line.last() == Some(&b'\\')
            && !self.line.contains(&b'#')
            && fields(&self.line).next().is_some_and(|word| OF_NUMBERS.contains(&word))
    }

    /// The next line of the file behind what is there; whether there is one.
    fn append(&mut self) -> io::Result<bool> {
        let mut any = false;
        loop {
            let bytes = filled(&mut self.input)?;
            if bytes.is_empty() {
                self.last += any as u64;
                return Ok(any);
            }
            any = true;
            let end = bytes.iter().position(|&byte| byte == b'\n' || byte == b'\r');
            let (taken, carriage) = (end.unwrap_or(bytes.len()), end.is_some_and(|end| bytes[end] == b'\r'));
            self.line.extend_from_slice(&bytes[..taken]);
            self.input.consume(taken + end.is_some() as usize);
            if carriage && filled(&mut self.input)?.first() == Some(&b'\n') {
                self.input.consume(1);
            }
            if end.is_some() {
                self.last += 1;
                return Ok(true);
            }
        }
    }
}

/// What is read ahead; a read that was interrupted is asked for again.
fn filled(input: &mut impl BufRead) -> io::Result<&[u8]> {
    while let Err(error) = input.fill_buf() {
        if error.kind() != io::ErrorKind::Interrupted {
            return Err(error);
        }
    }
    input.fill_buf()
}

/// A line of a report.
pub fn line(form: &Form, pair: Pair, word: Settled, out: &mut Vec<u8>) {
    if !form.shown.contains(&word) {
        return;
    }
    out.extend_from_slice(pair.kind.letters().as_bytes());
    tab_and_number(pair.first, out);
    tab_and_number(pair.second, out);
    out.push(b'\t');
    out.extend_from_slice(word.word().as_bytes());
    out.push(b'\n');
}

fn tab_and_number(number: u32, out: &mut Vec<u8>) {
    let (mut digits, mut at, mut rest) = ([0; 10], 10, number);
    loop {
        at -= 1;
        digits[at] = b'0' + (rest % 10) as u8;
        rest /= 10;
        if rest == 0 {
            break;
        }
    }
    out.push(b'\t');
    out.extend_from_slice(&digits[at..]);
}

/// The edges of the triangles a b c: a b, b c, c a, each once, either way round, in the order and in the way in which it first appears.
pub fn edges_of(triangles: &[[u32; 3]]) -> Vec<[u32; 2]> {
    let mut all: Vec<([u32; 2], usize)> = Vec::with_capacity(3 * triangles.len());
    for &triangle in triangles {
        for [a, b] in sides_of(triangle) {
            all.push(([a.min(b), a.max(b)], all.len()));
        }
    }
    all.sort_unstable();
    all.dedup_by_key(|(ends, _)| *ends);
    all.sort_unstable_by_key(|&(_, appears)| appears);
    all.into_iter().map(|(_, appears)| sides_of(triangles[appears / 3])[appears % 3]).collect()
}

/// Vertices in one place, each with the lowest.
pub fn by_position(positions: &[[i32; 6]]) -> Vec<u32> {
    let mut order: Vec<u32> = (0..positions.len() as u32).collect();
    let place = |vertex: u32| positions[vertex as usize];
    order.sort_unstable_by_key(|&vertex| (place(vertex), vertex));
    let mut stands = vec![0; positions.len()];
    let mut first = 0;
    for (i, &vertex) in order.iter().enumerate() {
        if i == 0 || place(vertex) != place(first) {
            first = vertex;
        }
        stands[vertex as usize] = first;
    }
    stands
}
