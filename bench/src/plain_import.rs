//! Two OBJ files in plain safe Rust: each file a mesh with its edges, every check in its order, then the scene and the boxes of its parts. The edges are
//! looked for one by one among those that stand there, as the library does it, or found by a table.

use compare::calls::stored::BOX_NUMBERS;
use compare::obj::{File, Refused};
use compare::scene::refusal::*;
use compare::scene::{COORDINATE_LIMIT, EDGE_LIMIT, TEXT_LIMIT, TRIANGLE_LIMIT, VERTEX_LIMIT};

/// The lists of a scene without seams, and the boxes of its parts, each with room for the largest scene in front of which it stands.
pub struct Room {
    pub positions: Vec<i32>,
    pub edges: Vec<u16>,
    pub triangles: Vec<u16>,
    pub boxes: Vec<i32>,
    /// Vertices, edges, triangles.
    pub counts: [usize; 3],
}

impl Room {
    pub fn new() -> Room {
        Room {
            positions: vec![0; 6 * VERTEX_LIMIT],
            edges: vec![0; 2 * EDGE_LIMIT],
            triangles: vec![0; 3 * TRIANGLE_LIMIT],
            boxes: vec![0; BOX_NUMBERS],
            counts: [0; 3],
        }
    }
}

#[derive(Default)]
struct Mesh {
    places: Vec<[i32; 3]>,
    faces: Vec<[u16; 3]>,
    edges: Vec<[u16; 2]>,
    /// Two ways round, a bit each; empty where edges are looked for one by one.
    known: Vec<u64>,
}

enum Line {
    Skipped,
    Vertex([i64; 3]),
    Face([u32; 3]),
}

const WORDS: usize = VERTEX_LIMIT / 64;

impl Mesh {
    fn with_room(table: bool) -> Mesh {
        Mesh {
            places: Vec::with_capacity(VERTEX_LIMIT),
            faces: Vec::with_capacity(TRIANGLE_LIMIT),
            edges: Vec::with_capacity(EDGE_LIMIT),
            known: vec![0; if table { VERTEX_LIMIT * WORDS } else { 0 }],
        }
    }

    /// The side is there from now on; whether there was room for it.
    fn side(&mut self, a: u16, b: u16) -> bool {
        if self.known.is_empty() {
            if self.edges.iter().any(|&[x, y]| (x, y) == (a, b) || (x, y) == (b, a)) {
                return true;
            }
        } else {
            let (low, high) = (a.min(b) as usize, a.max(b) as usize);
            let (word, bit) = (&mut self.known[low * WORDS + high / 64], 1 << (high % 64));
            if *word & bit != 0 {
                return true;
            }
            *word |= bit;
        }
        self.edges.push([a, b]);
        self.edges.len() <= EDGE_LIMIT
    }

    fn take(&mut self, line: Line) -> Result<(), u64> {
        let refuse = |holds: bool, number: u64| if holds { Err(number) } else { Ok(()) };
        match line {
            Line::Skipped => {}
            Line::Vertex(place) => {
                refuse(!self.faces.is_empty(), OUT_OF_ORDER)?;
                refuse(self.places.len() == VERTEX_LIMIT, ONE_TOO_MANY)?;
                refuse(place.iter().any(|n| n.abs() > COORDINATE_LIMIT), OUT_OF_RANGE)?;
                self.places.push(place.map(|n| n as i32));
            }
            Line::Face([a, b, c]) => {
                refuse(self.faces.len() == TRIANGLE_LIMIT, ONE_TOO_MANY)?;
                refuse([a, b, c].iter().any(|&n| n as usize > self.places.len()), NO_SUCH_VERTEX)?;
                refuse(a == b || b == c || c == a, VERTEX_TWICE)?;
                let face = [a, b, c].map(|n| (n - 1) as u16);
                let [a, b, c] = face;
                refuse(!(self.side(a, b) && self.side(b, c) && self.side(c, a)), ONE_TOO_MANY)?;
                self.faces.push(face);
            }
        }
        Ok(())
    }
}

/// One to so many digits, and how many there are.
fn digits(field: &[u8], most: usize) -> Option<(u64, usize)> {
    let count = field.iter().take_while(|byte| byte.is_ascii_digit()).count();
    let value = field[..count.min(most)].iter().fold(0, |value, byte| 10 * value + (byte - b'0') as u64);
    (1..=most).contains(&count).then_some((value, count))
}

fn decimal(field: &[u8]) -> Option<i64> {
    let (minus, size) = field.strip_prefix(b"-").map_or((false, field), |size| (true, size));
    let (whole, count) = digits(size, 9)?;
    let part = match &size[count..] {
        [] => 0,
        [b'.', part @ ..] => match (digits(part, 2)?, part.len()) {
            ((tenths, 1), 1) => 10 * tenths,
            ((hundredths, 2), 2) => hundredths,
            _ => return None,
        },
        _ => return None,
    };
    let value = (100 * whole + part) as i64;
    Some(if minus { -value } else { value })
}

fn corner(field: &[u8]) -> Option<u32> {
    let (value, count) = digits(field, 9)?;
    (count == field.len() && field[0] != b'0').then_some(value as u32)
}

fn line(line: &[u8]) -> Option<Line> {
    if line.is_empty() || line[0] == b'#' || line.starts_with(b"vt ") || line.starts_with(b"vn ") {
        return Some(Line::Skipped);
    }
    let mut fields = line.split(|&byte| byte == b' ');
    let word = fields.next()?;
    let [first, second, third] = [fields.next()?, fields.next()?, fields.next()?];
    match (word, fields.next()) {
        (b"v", None) => Some(Line::Vertex([decimal(first)?, decimal(second)?, decimal(third)?])),
        (b"f", None) => Some(Line::Face([corner(first)?, corner(second)?, corner(third)?])),
        _ => None,
    }
}

fn read(text: &[u8], file: File, table: bool) -> Result<Mesh, Refused> {
    let mut mesh = Mesh::with_room(table);
    for (above, bytes) in text.split_inclusive(|&byte| byte == b'\n').enumerate() {
        let taken = bytes.strip_suffix(b"\n").and_then(line).ok_or(BAD_LINE).and_then(|line| mesh.take(line));
        taken.map_err(|number| Refused { number, third: above as u64 + 1, file: Some(file) })?;
    }
    Ok(mesh)
}

/// The scene of two files and its boxes, in front of the room.
pub fn import(start: &[u8], end: &[u8], table: bool, room: &mut Room) -> Result<(), Refused> {
    for (file, text) in [(File::Start, start), (File::End, end)] {
        if text.len() > TEXT_LIMIT {
            return Err(Refused { number: TEXT_TOO_LONG, third: 0, file: Some(file) });
        }
    }
    let (first, second) = (read(start, File::Start, table)?, read(end, File::End, table)?);
    if first.places.len() != second.places.len() || first.faces != second.faces {
        return Err(Refused { number: FILES_DIFFER, third: 0, file: None });
    }
    for ((six, from), to) in room.positions.chunks_exact_mut(6).zip(&first.places).zip(&second.places) {
        six[..3].copy_from_slice(from);
        six[3..].copy_from_slice(to);
    }
    room.edges.chunks_exact_mut(2).zip(&first.edges).for_each(|(two, edge)| two.copy_from_slice(edge));
    room.triangles.chunks_exact_mut(3).zip(&first.faces).for_each(|(three, face)| three.copy_from_slice(face));
    room.counts = [first.places.len(), first.edges.len(), first.faces.len()];
    let [vertices, edges, triangles] = room.counts;
    let mut boxes = room.boxes.chunks_exact_mut(6);
    let positions = &room.positions;
    (0..vertices).for_each(|vertex| put(boxes.next(), positions, &[vertex as u16]));
    room.edges.chunks_exact(2).take(edges).for_each(|edge| put(boxes.next(), positions, edge));
    room.triangles.chunks_exact(3).take(triangles).for_each(|corners| put(boxes.next(), positions, corners));
    Ok(())
}

/// The joint box of these vertices.
fn put(six: Option<&mut [i32]>, positions: &[i32], part: &[u16]) {
    let Some(six) = six else { return };
    for axis in 0..3 {
        let values = |vertex: u16| [positions[6 * vertex as usize + axis], positions[6 * vertex as usize + 3 + axis]];
        let [mut low, mut high] = [i32::MAX, i32::MIN];
        for value in part.iter().flat_map(|&vertex| values(vertex)) {
            low = low.min(value);
            high = high.max(value);
        }
        six[axis] = low;
        six[axis + 3] = high;
    }
}

/// Two files of all sizes at once: 512 vertices, 512 faces with 1,024 edges, and as many bytes as a file may have.
pub fn largest() -> [Vec<u8>; 2] {
    [0, 1].map(|file| {
        let mut text = String::new();
        for i in 0..VERTEX_LIMIT as i64 {
            let [x, y, z] = [7 * i + file, 523_000 - 11 * i, 300_000 + 13 * i - 99 * file];
            text += &format!("v {}.{:02} -{}.{:02} {}.{:02}\n", x / 100, x % 100, y / 100, y % 100, z / 100, z % 100);
        }
        // corners 1, 2 and 3 apart have no edge in common; one face more has one new edge, and the others have none
        (0..341).for_each(|i| text += &format!("f {} {} {}\n", i + 1, i + 2, i + 4));
        text += "f 1 2 3\n";
        (342..TRIANGLE_LIMIT).for_each(|i| text += &format!("f {} {} {}\n", i - 340, i - 341, i - 338));
        let rest = TEXT_LIMIT - text.len();
        (0..rest / 32).for_each(|_| text += "# a line that is skipped, it is\n");
        text += &"\n".repeat(rest % 32);
        text.into_bytes()
    })
}
