//! A scene as text in plain safe Rust: the checks of a scene, the length, the room, then the lines into a lent buffer. And as one would write it
//! with `write!`, with no look at the scene.

use crate::slices::Slices;
use compare::scene::refusal::*;
use compare::scene::{COORDINATE_LIMIT, EDGE_LIMIT, SEAM_LIMIT, TEXT_LIMIT, TRIANGLE_LIMIT, VERTEX_LIMIT};
use std::io::Write;

/// The text in front of `out`, and its length.
pub fn save(slices: &Slices, out: &mut [u8]) -> Result<usize, Refusal> {
    check(slices)?;
    let records = slices.positions.len() / 6 + slices.edges.len() / 2 + slices.triangles.len() / 3 + slices.seams.len() / 2;
    let lists = [&slices.edges, &slices.triangles, &slices.seams];
    let coordinates: usize = slices.positions.iter().map(|&n| 1 + (n < 0) as usize + digits(n.unsigned_abs())).sum();
    let numbers: usize = lists.into_iter().flatten().map(|&n| 1 + digits(n as u32)).sum();
    let length = coordinates + numbers + 2 * records;
    if length > TEXT_LIMIT {
        return Err(Refusal::new(TEXT_TOO_LONG, 0));
    }
    if length > out.len() {
        return Err(Refusal::new(NO_ROOM, length as u64));
    }
    let mut at = 0;
    for vertex in slices.positions.chunks_exact(6) {
        put(out, &mut at, b'v');
        for &n in vertex {
            put(out, &mut at, b'\t');
            if n < 0 {
                put(out, &mut at, b'-');
            }
            number(out, &mut at, n.unsigned_abs());
        }
        put(out, &mut at, b'\n');
    }
    for (letter, width, list) in [(b'e', 2, &slices.edges), (b't', 3, &slices.triangles), (b'w', 2, &slices.seams)] {
        for part in list.chunks_exact(width) {
            put(out, &mut at, letter);
            for &n in part {
                put(out, &mut at, b'\t');
                number(out, &mut at, n as u32);
            }
            put(out, &mut at, b'\n');
        }
    }
    Ok(length)
}

/// The same lines by the standard library's formatting.
pub fn formatted(slices: &Slices, mut out: &mut [u8]) -> std::io::Result<usize> {
    let room = out.len();
    for v in slices.positions.chunks_exact(6) {
        writeln!(out, "v\t{}\t{}\t{}\t{}\t{}\t{}", v[0], v[1], v[2], v[3], v[4], v[5])?;
    }
    for e in slices.edges.chunks_exact(2) {
        writeln!(out, "e\t{}\t{}", e[0], e[1])?;
    }
    for t in slices.triangles.chunks_exact(3) {
        writeln!(out, "t\t{}\t{}\t{}", t[0], t[1], t[2])?;
    }
    for w in slices.seams.chunks_exact(2) {
        writeln!(out, "w\t{}\t{}", w[0], w[1])?;
    }
    Ok(room - out.len())
}

fn digits(n: u32) -> usize {
    match n {
        0..=9 => 1,
        10..=99 => 2,
        100..=999 => 3,
        1_000..=9_999 => 4,
        10_000..=99_999 => 5,
        _ => 6,
    }
}

fn put(out: &mut [u8], at: &mut usize, byte: u8) {
    out[*at] = byte;
    *at += 1;
}

fn number(out: &mut [u8], at: &mut usize, mut n: u32) {
    let end = *at + digits(n);
    for byte in out[*at..end].iter_mut().rev() {
        *byte = b'0' + (n % 10) as u8;
        n /= 10;
    }
    *at = end;
}

/// 1, 2, 3, 15, 4, each over the whole scene.
fn check(s: &Slices) -> Result<(), Refusal> {
    let refuse = |holds: bool, number: u64| if holds { Err(Refusal::new(number, 0)) } else { Ok(()) };
    let sizes = [
        (s.positions.len(), 6, VERTEX_LIMIT),
        (s.edges.len(), 2, EDGE_LIMIT),
        (s.triangles.len(), 3, TRIANGLE_LIMIT),
        (s.seams.len(), 2, SEAM_LIMIT),
    ];
    refuse(sizes.iter().any(|&(length, width, limit)| length % width != 0 || length / width > limit), BAD_SHAPE)?;
    refuse(s.positions.iter().any(|n| n.unsigned_abs() > COORDINATE_LIMIT as u32), OUT_OF_RANGE)?;
    let count = s.positions.len() / 6;
    refuse([&s.edges, &s.triangles, &s.seams].into_iter().flatten().any(|&n| n as usize >= count), NO_SUCH_VERTEX)?;
    let mut stands: [u16; VERTEX_LIMIT] = std::array::from_fn(|v| v as u16);
    let mut least = 0;
    for seam in s.seams.chunks_exact(2) {
        let [i, j] = [seam[0] as usize, seam[1] as usize];
        let apart = s.positions[6 * i..6 * i + 6] != s.positions[6 * j..6 * j + 6];
        refuse(i < least || i <= j || stands[j] as usize != j || apart, BROKEN_SEAM)?;
        stands[i] = j as u16;
        least = i + 1;
    }
    let same = |a: u16, b: u16| stands[a as usize] == stands[b as usize];
    let twice = s.edges.chunks_exact(2).any(|e| same(e[0], e[1]))
        | s.triangles.chunks_exact(3).any(|t| same(t[0], t[1]) | same(t[0], t[2]) | same(t[1], t[2]));
    refuse(twice, VERTEX_TWICE)
}
