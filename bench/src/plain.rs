//! The library's own way in plain safe Rust: what the proofs are held to cost nothing beside.

use crate::slices::{entry, parts, Slices};
use compare::verdicts::verdict::Verdict;

pub type Vector = [i64; 3];

/// 0 at the start, 3 at the end.
pub type When = usize;
pub const START: When = 0;
pub const END: When = 3;

/// A vertex at one of the two times.
pub type Corner = (usize, When);

#[inline]
pub fn seen(positions: &[i32], vertex: usize, base: usize, when: When) -> Vector {
    [0, 1, 2].map(|axis| positions[6 * vertex + when + axis] as i64 - positions[6 * base + when + axis] as i64)
}

/// The three minors of two vectors.
#[inline]
pub fn minors(a: Vector, b: Vector) -> Vector {
    [a[1] * b[2] - a[2] * b[1], a[0] * b[2] - a[2] * b[0], a[0] * b[1] - a[1] * b[0]]
}

/// The determinant of a vector and the two that the minors are of.
#[inline]
pub fn with(a: Vector, minors: Vector) -> i64 {
    a[0] * minors[0] - a[1] * minors[1] + a[2] * minors[2]
}

/// The four signed volumes of four vectors, each of the other three.
#[inline]
pub fn volumes(v: [Vector; 4]) -> [i64; 4] {
    let (former, latter) = (minors(v[0], v[1]), minors(v[2], v[3]));
    [with(v[1], latter), -with(v[0], latter), with(v[3], former), -with(v[2], former)]
}

#[inline]
fn by_signs(sum: i64, weights: &[i64]) -> Verdict {
    let none_negative = weights.iter().fold(true, |all, &w| all & (w >= 0));
    let none_positive = weights.iter().fold(true, |all, &w| all & (w <= 0));
    if sum == 0 {
        Verdict::Degenerate
    } else if (sum > 0 && none_negative) || (sum < 0 && none_positive) {
        Verdict::Hit
    } else {
        Verdict::Miss
    }
}

#[inline]
pub fn joined(verdicts: impl Iterator<Item = Verdict>) -> Verdict {
    let mut out = Verdict::Miss;
    for verdict in verdicts {
        match verdict {
            Verdict::Hit => return Verdict::Hit,
            Verdict::Degenerate => out = Verdict::Degenerate,
            Verdict::Miss => {}
        }
    }
    out
}

/// The verdicts of the three pieces, corners in rising order; 10 determinants, each worked out once.
#[inline]
pub fn point_verdicts(positions: &[i32], point: usize, corners: [usize; 3]) -> [Verdict; 3] {
    let [a, b, c] = corners.map(|vertex| seen(positions, vertex, point, START));
    let [d, e, f] = corners.map(|vertex| seen(positions, vertex, point, END));
    let (ab, ad, cf, ef) = (minors(a, b), minors(a, d), minors(c, f), minors(e, f));
    let (abf, aef) = (with(f, ab), -with(a, ef));
    let pieces = [
        [with(b, cf), -with(a, cf), abf, -with(c, ab)],
        [with(b, ef), aef, abf, -with(e, ab)],
        [with(d, ef), aef, with(f, ad), -with(e, ad)],
    ];
    pieces.map(|volumes| by_signs(volumes.iter().sum(), &volumes))
}

/// The verdicts of the four pieces; 12 determinants, each worked out once. Starts are seen from the first edge's lower end, ends from its
/// higher end.
#[inline]
pub fn edge_verdicts(positions: &[i32], first: [usize; 2], second: [usize; 2]) -> [Verdict; 4] {
    let [low, high] = first;
    let [r, g, h] = [high, second[0], second[1]].map(|vertex| seen(positions, vertex, low, START));
    let [s, k, l] = [low, second[0], second[1]].map(|vertex| seen(positions, vertex, high, END));
    let (rg, sg, hl, kl) = (minors(r, g), minors(s, g), minors(h, l), minors(k, l));
    let (ghl, gkl, rgl, sgl) = (with(g, hl), with(g, kl), with(l, rg), with(l, sg));
    let pieces = [
        ([ghl, -with(r, hl), rgl, -with(h, rg)], [false, false, false, true]),
        ([gkl, -with(r, kl), rgl, -with(k, rg)], [false, false, true, true]),
        ([ghl, -with(s, hl), sgl, -with(h, sg)], [true, false, false, true]),
        ([gkl, -with(s, kl), sgl, -with(k, sg)], [true, false, true, true]),
    ];
    pieces.map(|(v, ends)| {
        let at = |end: bool| (0..4).map(|i| if ends[i] == end { v[i] } else { 0 }).sum::<i64>();
        by_signs(v[1] + v[2] + v[3], &[-v[0], v[1], v[2], v[3], at(false), at(true)])
    })
}

/// The verdict of an entry of the list.
#[inline]
pub fn judge(slices: &Slices, entry: u32) -> Verdict {
    let (kind, first, second) = parts(entry);
    if kind == 0 {
        joined(point_verdicts(&slices.positions, first, slices.corners(second)).into_iter())
    } else {
        joined(edge_verdicts(&slices.positions, slices.ends(first), slices.ends(second)).into_iter())
    }
}

pub type Box = [i32; 6];

fn joint(a: &Box, b: &Box) -> Box {
    [a[0].min(b[0]), a[1].min(b[1]), a[2].min(b[2]), a[3].max(b[3]), a[4].max(b[4]), a[5].max(b[5])]
}

#[inline]
pub fn meet(a: &Box, b: &Box) -> bool {
    (0..3).all(|axis| a[axis] <= b[axis + 3] && b[axis] <= a[axis + 3])
}

/// Boxes worked out once.
pub struct Boxes {
    pub vertices: Vec<Box>,
    pub edges: Vec<Box>,
    pub triangles: Vec<Box>,
}

impl Boxes {
    pub fn of(slices: &Slices) -> Boxes {
        let at = |v: &[i32]| [0, 1, 2, 3, 4, 5].map(|i| if i < 3 { v[i].min(v[i + 3]) } else { v[i - 3].max(v[i]) });
        let vertices: Vec<Box> = slices.positions.chunks_exact(6).map(at).collect();
        let of = |places: &[u16]| places.iter().map(|&v| vertices[v as usize]).reduce(|a, b| joint(&a, &b)).unwrap();
        let edges = slices.edges.chunks_exact(2).map(of).collect();
        let triangles = slices.triangles.chunks_exact(3).map(of).collect();
        Boxes { vertices, edges, triangles }
    }
}

/// Every listed pair in order.
#[inline]
fn each_listed(slices: &Slices, boxes: &Boxes, mut take: impl FnMut(u32, usize, usize)) {
    for (vertex, one) in boxes.vertices.iter().enumerate() {
        for (triangle, other) in boxes.triangles.iter().enumerate() {
            if meet(one, other) && !slices.corners_stand(triangle).contains(&slices.stands_for(vertex)) {
                take(0, vertex, triangle);
            }
        }
    }
    for (first, one) in boxes.edges.iter().enumerate() {
        let [a, b] = slices.ends_stand(first);
        for (second, other) in boxes.edges.iter().enumerate().skip(first + 1) {
            if meet(one, other) {
                let [c, d] = slices.ends_stand(second);
                if a != c && a != d && b != c && b != d {
                    take(1, first, second);
                }
            }
        }
    }
}

/// Counts, then writes. Nothing is written where there is no room; the count is handed back all the same.
pub fn list(slices: &Slices, room: &mut [u32]) -> usize {
    let boxes = Boxes::of(slices);
    let mut count = 0;
    each_listed(slices, &boxes, |_, _, _| count += 1);
    if count <= room.len() {
        let mut entries = room.iter_mut();
        each_listed(slices, &boxes, |kind, first, second| *entries.next().unwrap() = entry(kind, first, second));
    }
    count
}
