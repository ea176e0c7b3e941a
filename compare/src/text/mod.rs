//! Scene text, read by document 01's rules and those of document 02, §6, and written.

pub mod blame;
pub mod crossed;
pub mod damage;
pub mod faults;

use crate::scene::refusal::*;
use crate::scene::*;

pub enum Record {
    Vertex([i64; 6]),
    Edge([usize; 2]),
    Triangle([usize; 3]),
    Seam([usize; 2]),
}

pub fn read(text: &[u8]) -> Result<Scene, Refusal> {
    if text.len() > TEXT_LIMIT {
        return Err(Refusal::bare(TEXT_TOO_LONG));
    }
    let mut scene = Scene::default();
    let mut lines: Vec<&[u8]> = text.split(|&byte| byte == b'\n').collect();
    // what stands behind the last LF: nothing, or a last line without one
    let unended = lines.pop().filter(|line| !line.is_empty());
    let ended = lines.len();
    for (above, line) in lines.iter().enumerate() {
        take(&mut scene, line).map_err(|number| Refusal::new(number, above as u64 + 1))?;
    }
    match unended {
        Some(_) => Err(Refusal::new(BAD_LINE, ended as u64 + 1)),
        None => Ok(scene),
    }
}

/// The least lengths of the buffers that a scene is read into: positions, edges, triangles, seams.
pub const LENT_LENGTHS: [usize; 4] = [6 * VERTEX_LIMIT, 2 * EDGE_LIMIT, 3 * TRIANGLE_LIMIT, 2 * SEAM_LIMIT];

/// The same where the scene goes to lent buffers of these lengths.
pub fn read_lent(text: &[u8], lengths: [usize; 4]) -> Result<Scene, Refusal> {
    if lengths.into_iter().zip(LENT_LENGTHS).any(|(length, least)| length < least) {
        return Err(Refusal::bare(LENT_TOO_SHORT));
    }
    read(text)
}

/// The scene with one record more, or the number that the line is refused with.
pub fn take(scene: &mut Scene, line: &[u8]) -> Result<(), u64> {
    let record = record(line).ok_or(BAD_LINE)?;
    let no_seam_above = scene.seams.is_empty();
    let no_triangle_above = scene.triangles.is_empty() && no_seam_above;
    let no_edge_above = scene.edges.is_empty() && no_triangle_above;
    match record {
        Record::Vertex(vertex) => {
            refuse_unless(no_edge_above, OUT_OF_ORDER)?;
            refuse_unless(scene.vertices.len() < VERTEX_LIMIT, ONE_TOO_MANY)?;
            refuse_unless(vertex.into_iter().all(in_range), OUT_OF_RANGE)?;
            scene.vertices.push(vertex);
        }
        Record::Edge(edge) => {
            refuse_unless(no_triangle_above, OUT_OF_ORDER)?;
            refuse_unless(scene.edges.len() < EDGE_LIMIT, ONE_TOO_MANY)?;
            corners(&edge, scene.vertices.len())?;
            scene.edges.push(edge);
        }
        Record::Triangle(triangle) => {
            refuse_unless(no_seam_above, OUT_OF_ORDER)?;
            refuse_unless(scene.triangles.len() < TRIANGLE_LIMIT, ONE_TOO_MANY)?;
            corners(&triangle, scene.vertices.len())?;
            scene.triangles.push(triangle);
        }
        Record::Seam(seam) => {
            refuse_unless(scene.seams.len() < SEAM_LIMIT, ONE_TOO_MANY)?;
            refuse_unless(seam.iter().all(|&v| v < scene.vertices.len()), NO_SUCH_VERTEX)?;
            refuse_unless(!breaks(scene, seam), BROKEN_SEAM)?;
            refuse_unless(!makes_twice(scene, seam), VERTEX_TWICE)?;
            scene.seams.push(seam);
        }
    }
    Ok(())
}

fn refuse_unless(fine: bool, number: u64) -> Result<(), u64> {
    if fine {
        Ok(())
    } else {
        Err(number)
    }
}

/// Whether a seam below those of the scene breaks a rule: rising i, each i once, j below i, j not itself replaced; or its two positions
/// differ at either time.
pub fn breaks(scene: &Scene, [i, j]: [usize; 2]) -> bool {
    let rises = scene.seams.iter().all(|above| above[0] < i);
    let replaced = scene.seams.iter().any(|above| above[0] == j);
    let apart = match (scene.vertices.get(i), scene.vertices.get(j)) {
        (Some(here), Some(there)) => here != there,
        // what is not there is another matter
        _ => false,
    };
    !rises || j >= i || replaced || apart
}

/// Whether two corners of some part stand for one vertex with this seam, and did not without it.
pub fn makes_twice(scene: &Scene, seam: [usize; 2]) -> bool {
    let changed: Vec<&[usize]> = scene.parts().filter(|part| part.contains(&seam[0]) && !scene.any_twice(part)).collect();
    let mut sewn = Scene { seams: scene.seams.clone(), ..Scene::default() };
    sewn.seams.push(seam);
    changed.into_iter().any(|part| sewn.any_twice(part))
}

fn corners(numbers: &[usize], vertices: usize) -> Result<(), u64> {
    refuse_unless(numbers.iter().all(|&v| v < vertices), NO_SUCH_VERTEX)?;
    refuse_unless(!any_twice(numbers), VERTEX_TWICE)
}

pub fn any_twice(numbers: &[usize]) -> bool {
    (1..numbers.len()).any(|i| numbers[..i].contains(&numbers[i]))
}

/// Nothing for a line that is not of the form.
pub fn record(line: &[u8]) -> Option<Record> {
    let mut fields = line.split(|&byte| byte == b'\t');
    let kind = fields.next()?;
    let fields: Vec<&[u8]> = fields.collect();
    match kind {
        b"v" => Some(Record::Vertex(all(&fields, coordinate)?)),
        b"e" => Some(Record::Edge(all(&fields, number)?)),
        b"t" => Some(Record::Triangle(all(&fields, number)?)),
        b"w" => Some(Record::Seam(all(&fields, number)?)),
        _ => None,
    }
}

/// Exactly N fields, each of the form.
fn all<T, const N: usize>(fields: &[&[u8]], form: fn(&[u8]) -> Option<T>) -> Option<[T; N]> {
    let read: Option<Vec<T>> = fields.iter().map(|field| form(field)).collect();
    read?.try_into().ok()
}

/// One to nine digits, no leading zero except 0 itself.
fn number(field: &[u8]) -> Option<usize> {
    let zero_in_front = field.len() > 1 && field[0] == b'0';
    if !(1..=9).contains(&field.len()) || zero_in_front || !field.iter().all(u8::is_ascii_digit) {
        return None;
    }
    std::str::from_utf8(field).ok()?.parse().ok()
}

pub fn coordinate(field: &[u8]) -> Option<i64> {
    match field.strip_prefix(b"-") {
        Some(b"0") => None,
        Some(digits) => Some(-(number(digits)? as i64)),
        None => Some(number(field)? as i64),
    }
}

/// The text of a scene; whether it is accepted is not looked at, since texts that are refused are wanted too.
/// A scene whose text has so many bytes, of some 1,000 to 40,000: vertices, then edges, then triangles, and for the last bytes coordinates made longer.
pub fn as_long_as(bytes: usize) -> Scene {
    let mut scene = Scene { vertices: vec![[-100_001, 1, 100_003, -4, 500_005, -6]; 12], ..Scene::default() };
    let mut left = bytes - write(&scene).len();
    while scene.vertices.len() < VERTEX_LIMIT && left > 60 {
        let n = scene.vertices.len() as i64;
        let one =
            Scene { vertices: vec![[n - 400_000, 400_000 - n, 300_000 + n, -300_000 - n, 111_111, 222_222]], ..Scene::default() };
        left -= write(&one).len();
        scene.vertices.extend(one.vertices);
    }
    let last = scene.vertices.len() - 1;
    let edge = Scene { edges: vec![[last, last - 1]], ..Scene::default() };
    while scene.edges.len() < EDGE_LIMIT && left > 60 {
        left -= write(&edge).len();
        scene.edges.extend(&edge.edges);
    }
    let triangle = Scene { triangles: vec![[last, last - 2, last - 1]], ..Scene::default() };
    while scene.triangles.len() < TRIANGLE_LIMIT && left > 60 {
        left -= write(&triangle).len();
        scene.triangles.extend(&triangle.triangles);
    }
    // the second number of the first twelve has one digit, and may have six
    let mut short = left;
    for vertex in scene.vertices.iter_mut().take(12) {
        let more = short.min(5);
        vertex[1] = 10i64.pow(more as u32);
        short -= more;
    }
    assert_eq!(write(&scene).len(), bytes, "as long as it was asked for");
    scene
}

pub fn write(scene: &Scene) -> String {
    let mut out = String::new();
    let mut line = |kind: &str, numbers: Vec<String>| out.push_str(&format!("{kind}\t{}\n", numbers.join("\t")));
    scene.vertices.iter().for_each(|v| line("v", v.map(|n| n.to_string()).to_vec()));
    scene.edges.iter().for_each(|e| line("e", e.map(|n| n.to_string()).to_vec()));
    scene.triangles.iter().for_each(|t| line("t", t.map(|n| n.to_string()).to_vec()));
    scene.seams.iter().for_each(|w| line("w", w.map(|n| n.to_string()).to_vec()));
    out
}
