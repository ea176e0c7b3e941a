//! The weights of a piece by Cramer's rule, in numbers of a kind to choose: exact ones, or doubles. This is how a
//! trainee's program goes about it; the comparison's own verdicts come from elimination.

use crate::numbers::equations::Point;
use crate::scene::pieces::Piece;
use std::ops::{Add, Mul, Neg, Sub};

pub trait Number:
    Copy + Default + PartialOrd + Add<Output = Self> + Sub<Output = Self> + Mul<Output = Self> + Neg<Output = Self>
{
    fn from_whole(n: i64) -> Self;
}

impl Number for i128 {
    fn from_whole(n: i64) -> i128 {
        n as i128
    }
}

impl Number for f64 {
    fn from_whole(n: i64) -> f64 {
        n as f64
    }
}

/// Expanded along the first row.
pub fn determinant<N: Number>(a: [N; 3], b: [N; 3], c: [N; 3]) -> N {
    a[0] * (b[1] * c[2] - b[2] * c[1]) - a[1] * (b[0] * c[2] - b[2] * c[0]) + a[2] * (b[0] * c[1] - b[1] * c[0])
}

/// The determinant of five points with rows x, y, z, at-start, at-end: that of the differences, start points to the
/// first start point and end points to the first end point, with the sign of the two places that go.
fn of_five<N: Number>(points: [&Point; 5]) -> N {
    let first = |time: i64| points.iter().position(|p| p[3] == time).expect("a piece has two points at each time");
    let (start, end) = (first(0), first(1));
    let mut rows = points.iter().enumerate().filter(|(place, _)| *place != start && *place != end).map(|(_, p)| {
        let base = points[if p[3] == 0 { start } else { end }];
        [0, 1, 2].map(|axis| N::from_whole(p[axis] - base[axis]))
    });
    let mut row = || rows.next().unwrap();
    let volume = determinant(row(), row(), row());
    let end = if end > start { end - 1 } else { end };
    if (start + end) % 2 == 0 {
        volume
    } else {
        -volume
    }
}

/// The six weights up to one common factor, first simplex first, and their sum over one simplex.
pub fn weights<N: Number>(piece: &Piece) -> ([N; 6], N) {
    let points: Vec<&Point> = piece.first.iter().chain(&piece.second).collect();
    let mut sum = N::default();
    let weights = [0, 1, 2, 3, 4, 5].map(|left_out| {
        let others: Vec<&Point> = (0..6).filter(|&i| i != left_out).map(|i| points[i]).collect();
        let volume: N = of_five(others.try_into().unwrap());
        let signed = if left_out % 2 == 0 { volume } else { -volume };
        if left_out < piece.first.len() {
            sum = sum + signed;
            signed
        } else {
            -signed
        }
    });
    (weights, sum)
}

/// Whether no weight is negative, or none is positive.
pub fn none_opposed<N: Number>(weights: &[N; 6]) -> bool {
    let zero = N::default();
    weights.iter().all(|&w| w >= zero) || weights.iter().all(|&w| w <= zero)
}
