//! Listed pairs judged wrongly.

use super::steps::{Mistake, Steps};
use crate::numbers::equations::Solutions;
use crate::scene::pieces::{pieces, Piece};
use crate::scene::{Kind, Pair, Scene};
use crate::verdicts::settled::{decided, joined, of_pair, of_piece, of_pieces, Settled};
use crate::verdicts::verdict::{self, touches, Verdict};
use crate::ways::cubic;
use crate::ways::signs::{none_opposed, weights};

pub fn mistakes() -> Vec<Mistake> {
    let mut out: Vec<Mistake> = ["0", "1e-9", "1e-6", "1e-3"].map(by_cubic).into();
    out.extend([
        by_piece("doubles", "determinants in doubles", in_doubles),
        by_piece("zero-weight-degenerate", "a zero weight taken as degenerate, so that it is a touch", |piece| {
            of_zero_weight(piece, Settled::Touch)
        }),
        by_piece("zero-weight-miss", "a zero weight taken as a miss", |piece| of_zero_weight(piece, Settled::Miss)),
        by_piece("singular-hit", "a singular piece taken as a hit", |piece| of_singular(piece, Settled::Hit)),
        by_piece("singular-miss", "a singular piece taken as a miss", |piece| of_singular(piece, Settled::Miss)),
        by_piece(
            "signs-only",
            "signs without the determinant: a singular piece is a hit where no sign is negative, else a miss",
            by_signs_only,
        ),
        by_piece("sum-wraps", "all six weights added up in 64 bits, where twice the sum over one simplex wraps", by_wrapped_sum),
        by_pair(
            "volume-of-another-piece",
            "one volume of each piece taken from the piece in front of it",
            with_a_volume_of_another,
        ),
        by_pair("written-order", "corners in the order the scene writes them", in_written_order),
        by_pair("first-piece", "the first piece's word given for the pair", |scene, pair| of_pieces(scene, pair)[0]),
        by_pair("last-piece", "the last piece's word given for the pair", |scene, pair| *of_pieces(scene, pair).last().unwrap()),
        by_pair("every-piece", "a hit only where every piece is a hit", |scene, pair| {
            let words = of_pieces(scene, pair);
            if words.iter().all(|&word| word == Settled::Hit) {
                return Settled::Hit;
            }
            joined(&words.into_iter().filter(|&word| word != Settled::Hit).collect::<Vec<Settled>>())
        }),
        by_pair("degenerate-first", "a degenerate piece counted before a hit", |scene, pair| {
            let words = of_pieces(scene, pair);
            let degenerate = words.iter().any(|word| word.verdict() == Verdict::Degenerate);
            joined(&words.into_iter().filter(|&word| !degenerate || word != Settled::Hit).collect::<Vec<Settled>>())
        }),
    ]);
    out
}

pub fn by_pair(key: &str, says: &str, judge: fn(&Scene, Pair) -> Settled) -> Mistake {
    Mistake::new(key, says, Steps { judge: Some(Box::new(judge)), ..Steps::default() })
}

pub fn by_piece(key: &str, says: &str, judge: impl Fn(&Piece) -> Settled + 'static) -> Mistake {
    let joined_pieces =
        move |scene: &Scene, pair: Pair| joined(&pieces(scene, pair).iter().map(&judge).collect::<Vec<Settled>>());
    Mistake::new(key, says, Steps { judge: Some(Box::new(joined_pieces)), ..Steps::default() })
}

fn of_zero_weight(piece: &Piece, wrong: Settled) -> Settled {
    let solutions = Solutions::of(&piece.first, &piece.second);
    let zero_weight = !solutions.singular() && solutions.only().iter().any(|(numerator, _)| numerator.sign() == 0);
    match of_piece(piece) {
        Settled::Hit if zero_weight => wrong,
        right => right,
    }
}

fn of_singular(piece: &Piece, wrong: Settled) -> Settled {
    match verdict::of_piece(piece) {
        Verdict::Degenerate => wrong,
        other => decided(other, || unreachable!("not degenerate")),
    }
}

fn by_signs_only(piece: &Piece) -> Settled {
    if none_opposed(&weights::<i128>(piece).0) {
        Settled::Hit
    } else {
        Settled::Miss
    }
}

/// The sign of the determinant from the sum of all six weights, which is twice the sum over one simplex.
fn by_wrapped_sum(piece: &Piece) -> Settled {
    let (weights, _) = weights::<i128>(piece);
    let sum = weights.iter().fold(0i64, |sum, &weight| sum.wrapping_add(weight as i64));
    match sum {
        0 => decided(Verdict::Degenerate, || touches(piece)),
        _ if weights.iter().all(|weight| weight.signum() * sum.signum() as i128 >= 0) => Settled::Hit,
        _ => Settled::Miss,
    }
}

/// The volume without the first corner, of the piece in front of it; of what is singular, whether it touches is found exactly.
fn with_a_volume_of_another(scene: &Scene, pair: Pair) -> Settled {
    let all = pieces(scene, pair);
    let judged = |(place, piece): (usize, &Piece)| {
        let (mut own, sum) = weights::<i128>(piece);
        own[0] = weights::<i128>(&all[place.saturating_sub(1)]).0[0];
        match (sum == 0, none_opposed(&own)) {
            (true, _) => decided(Verdict::Degenerate, || touches(piece)),
            (false, true) => Settled::Hit,
            (false, false) => Settled::Miss,
        }
    };
    joined(&all.iter().enumerate().map(judged).collect::<Vec<Settled>>())
}

/// Of what is singular in doubles, whether it touches is found exactly.
fn in_doubles(piece: &Piece) -> Settled {
    let (weights, sum) = weights::<f64>(piece);
    match (sum == 0.0, none_opposed(&weights)) {
        (true, _) => decided(Verdict::Degenerate, || touches(piece)),
        (false, true) => Settled::Hit,
        (false, false) => Settled::Miss,
    }
}

/// The pair alone, its vertices numbered as the scene writes them.
fn in_written_order(scene: &Scene, pair: Pair) -> Settled {
    let (first, second) = pair.parts(scene);
    let vertices = first.iter().chain(second).map(|&v| scene.vertices[v]).collect();
    match pair.kind {
        Kind::PointTriangle => of_pair(&Scene { vertices, triangles: vec![[1, 2, 3]], ..Scene::default() }, Pair::pt(0, 0)),
        Kind::EdgeEdge => of_pair(&Scene { vertices, edges: vec![[0, 1], [2, 3]], ..Scene::default() }, Pair::ee(0, 1)),
    }
}

fn by_cubic(tolerance: &str) -> Mistake {
    let says = format!("a cubic in doubles, compared with {tolerance}; nothing is touch or apart");
    let tolerance_number: f64 = tolerance.parse().unwrap();
    let judge = move |scene: &Scene, pair: Pair| {
        let moving = |v: usize| {
            let v = scene.vertices[v].map(|n| n as f64);
            [[v[0], v[1], v[2]], [v[3], v[4], v[5]]]
        };
        let (first, second) = pair.parts(scene);
        let all: Vec<cubic::Moving> = first.iter().chain(second).map(|&v| moving(v)).collect();
        let hit = match pair.kind {
            Kind::PointTriangle => cubic::point_triangle(&all[0], [&all[1], &all[2], &all[3]], tolerance_number),
            Kind::EdgeEdge => cubic::edge_edge([&all[0], &all[1]], [&all[2], &all[3]], tolerance_number),
        };
        if hit {
            Settled::Hit
        } else {
            Settled::Miss
        }
    };
    Mistake::new(format!("cubic-{tolerance}"), says, Steps { judge: Some(Box::new(judge)), ..Steps::default() })
}
