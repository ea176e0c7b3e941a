//! A pair's word with its reasons: the pieces of each listed pair with their weights, and what doubles make of a volume.

use crate::list::listing;
use crate::scene::pieces::{corners, pieces, Corner, Piece};
use crate::scene::{Kind, Pair, Scene};
use crate::verdicts::settled::{of_pair, of_piece, Settled};
use crate::ways::search::{searched, Way};
use crate::ways::signs::{determinant, weights, Number};

pub fn explained(scene: &Scene) -> String {
    listing::listed(scene).into_iter().map(|pair| of_listed(scene, pair)).collect()
}

fn of_listed(scene: &Scene, pair: Pair) -> String {
    let kind = match pair.kind {
        Kind::PointTriangle => "pt",
        Kind::EdgeEdge => "ee",
    };
    let mut out = format!("{kind} {} {}: {}\n", pair.first, pair.second, of_pair(scene, pair).word());
    for (number, (piece, corners)) in pieces(scene, pair).iter().zip(corners(scene, pair)).enumerate() {
        out += &format!("  piece {number}: {}\n", of_one(piece, &corners));
    }
    if pair.kind == Kind::PointTriangle {
        let [a, b, c] = scene.triangles[pair.second];
        for (when, offset) in [("start", 0), ("end", 3)] {
            let position = |v: usize| [0, 1, 2].map(|axis| scene.vertices[v][offset + axis]);
            out += &volume(when, [position(a), position(b), position(c), position(pair.first)]);
        }
    }
    out
}

/// The weights as whole numbers without a common divisor, so signed that the sum is above 0, and the corners that they belong to.
fn of_one(piece: &Piece, corners: &[Vec<Corner>; 2]) -> String {
    let word = of_piece(piece);
    let (weights, sum) = match word {
        Settled::Apart => return "apart, the determinant is 0, no weights".to_string(),
        Settled::Touch => {
            let weights = searched(piece, Way::Library).0.expect("a piece that touches has weights");
            (weights, weights[..piece.first.len()].iter().sum())
        }
        Settled::Hit | Settled::Miss => weights::<i128>(piece),
    };
    let divisor = weights.iter().fold(sum, |a, &b| divisor(a, b)).abs() * sum.signum();
    let words: Vec<String> = weights.iter().map(|weight| (weight / divisor).to_string()).collect();
    let (first, second) = words.split_at(piece.first.len());
    let singular = if word == Settled::Touch { "the determinant is 0, " } else { "" };
    let [of_first, of_second] = corners.each_ref().map(|corners| corners.iter().map(|c| c.name()).collect::<Vec<_>>().join(" "));
    let (first, second) = (first.join(", "), second.join(", "));
    format!("{}, {singular}weights {first} of {of_first} against {second} of {of_second}", word.word())
}

fn divisor(a: i128, b: i128) -> i128 {
    if b == 0 {
        a
    } else {
        divisor(b, a % b)
    }
}

/// The volume of three points as seen from the fourth, and the same in doubles for each order of the four. Nothing is
/// said where every order is right.
fn volume(when: &str, points: [[i64; 3]; 4]) -> String {
    let exact = volume_of::<i128>(points, [0, 1, 2, 3]);
    let mut found: Vec<f64> = orders().into_iter().map(|(order, sign)| sign * volume_of::<f64>(points, order)).collect();
    found.sort_by(f64::total_cmp);
    // a volume of 0 is one volume
    found.iter_mut().for_each(|volume| *volume += 0.0);
    let mut different = found.clone();
    different.dedup();
    if different == [exact as f64] {
        return String::new();
    }
    let times = |volume: &f64| found.iter().filter(|other| *other == volume).count();
    let words: Vec<String> = different.iter().map(|volume| format!("{volume} ({} times)", times(volume))).collect();
    format!("  volume at the {when}: exactly {exact}; in doubles, over the 24 orders of the points: {}\n", words.join(", "))
}

fn volume_of<N: Number>(points: [[i64; 3]; 4], order: [usize; 4]) -> N {
    let [a, b, c, base] = order.map(|place| points[place]);
    let from_base = |p: [i64; 3]| [0, 1, 2].map(|axis| N::from_whole(p[axis] - base[axis]));
    determinant(from_base(a), from_base(b), from_base(c))
}

/// The orders of four, each with the sign that it gives a volume.
fn orders() -> Vec<([usize; 4], f64)> {
    let mut out = Vec::new();
    for code in 0..256 {
        let order = [code & 3, code >> 2 & 3, code >> 4 & 3, code >> 6];
        let falls = |i: usize, j: usize| i < j && order[i] > order[j];
        let all = (0..4).flat_map(|i| (0..4).map(move |j| (i, j)));
        if (0..4).all(|place| order.contains(&place)) {
            let turned = all.filter(|&(i, j)| falls(i, j)).count() % 2 == 1;
            out.push((order, if turned { -1.0 } else { 1.0 }));
        }
    }
    out
}
