//! The piece verdicts as document 01 tells them, straightforwardly, in 128-bit whole numbers: each of the six weights
//! is a signed determinant of the other five points. Three words: what is degenerate it leaves undecided.

use crate::plain::joined;
use crate::slices::{parts, Slices};
use compare::verdicts::verdict::Verdict;

/// x, y, z and the time.
type Point = [i128; 4];

fn point(positions: &[i32], vertex: usize, end: bool) -> Point {
    let at = 6 * vertex + if end { 3 } else { 0 };
    [positions[at] as i128, positions[at + 1] as i128, positions[at + 2] as i128, end as i128]
}

fn of_five(points: [Point; 5]) -> i128 {
    let first = |time: i128| points.iter().position(|p| p[3] == time).unwrap();
    let (start, end) = (first(0), first(1));
    let mut rows = [[0; 3]; 3];
    let mut row = 0;
    for (place, p) in points.iter().enumerate() {
        if place != start && place != end {
            let base = points[if p[3] == 0 { start } else { end }];
            rows[row] = [p[0] - base[0], p[1] - base[1], p[2] - base[2]];
            row += 1;
        }
    }
    let [a, b, c] = rows;
    let volume = a[0] * (b[1] * c[2] - b[2] * c[1]) - a[1] * (b[0] * c[2] - b[2] * c[0]) + a[2] * (b[0] * c[1] - b[1] * c[0]);
    let end = if end > start { end - 1 } else { end };
    if (start + end).is_multiple_of(2) {
        volume
    } else {
        -volume
    }
}

/// `first` of the six points belong to the first simplex.
fn piece(points: [Point; 6], first: usize) -> Verdict {
    let (mut none_negative, mut none_positive, mut sum) = (true, true, 0);
    for left_out in 0..6 {
        let mut others = [[0; 4]; 5];
        others[..left_out].copy_from_slice(&points[..left_out]);
        others[left_out..].copy_from_slice(&points[left_out + 1..]);
        let signed = if left_out.is_multiple_of(2) { of_five(others) } else { -of_five(others) };
        let weight = if left_out < first { signed } else { -signed };
        sum += if left_out < first { weight } else { 0 };
        none_negative &= weight >= 0;
        none_positive &= weight <= 0;
    }
    match sum {
        0 => Verdict::Degenerate,
        _ if (sum > 0 && none_negative) || (sum < 0 && none_positive) => Verdict::Hit,
        _ => Verdict::Miss,
    }
}

pub fn point_pieces(positions: &[i32], p: usize, corners: [usize; 3]) -> [Verdict; 3] {
    let [a, b, c] = corners.map(|v| point(positions, v, false));
    let [a1, b1, c1] = corners.map(|v| point(positions, v, true));
    let (start, end) = (point(positions, p, false), point(positions, p, true));
    [[a, b, c, c1], [a, b, b1, c1], [a, a1, b1, c1]].map(|[q, r, s, t]| piece([start, end, q, r, s, t], 2))
}

pub fn edge_pieces(positions: &[i32], first: [usize; 2], second: [usize; 2]) -> [Verdict; 4] {
    let halves = |ends: [usize; 2]| {
        let [a, b] = ends.map(|v| point(positions, v, false));
        let [a1, b1] = ends.map(|v| point(positions, v, true));
        [[a, b, b1], [a, a1, b1]]
    };
    let ([a, b], [c, d]) = (halves(first), halves(second));
    [(a, c), (a, d), (b, c), (b, d)].map(|(x, y)| piece([x[0], x[1], x[2], y[0], y[1], y[2]], 3))
}

/// The verdict of an entry of the list.
pub fn judge(slices: &Slices, entry: u32) -> Verdict {
    let (kind, first, second) = parts(entry);
    if kind == 0 {
        joined(point_pieces(&slices.positions, first, slices.corners(second)).into_iter())
    } else {
        joined(edge_pieces(&slices.positions, slices.ends(first), slices.ends(second)).into_iter())
    }
}
