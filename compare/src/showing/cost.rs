//! What deciding singular pieces takes, by the sketch of the library's search: counted on many, and at most on any.

use crate::making::still::{alone, only_pair};
use crate::numbers::equations::Point;
use crate::scene::pieces::{pieces, Piece};
use crate::scene::*;
use crate::verdicts::verdict::{of_piece, Verdict};
use crate::ways::search::{searched, Cost, Way};

impl Cost {
    fn add(&mut self, other: Cost) {
        self.calls += other.calls;
        self.asked += other.asked;
        self.determinants += other.determinants;
    }

    /// Each of the three by itself, not all of one piece.
    fn raise(&mut self, other: Cost) {
        self.calls = self.calls.max(other.calls);
        self.asked = self.asked.max(other.asked);
        self.determinants = self.determinants.max(other.determinants);
    }
}

#[derive(Clone, Copy, Debug, Default)]
pub struct Tally {
    pub pieces: u64,
    pub touch: u64,
    pub sum: Cost,
    /// The most of one piece, and of the pieces of one pair together.
    pub most: Cost,
    pub most_of_a_pair: Cost,
}

impl Tally {
    /// Of the pieces, only the singular ones are searched.
    pub fn take(&mut self, pieces: &[Piece]) {
        let mut together = Cost::default();
        for piece in pieces.iter().filter(|piece| of_piece(piece) == Verdict::Degenerate) {
            let (found, cost) = searched(piece, Way::Library);
            self.pieces += 1;
            self.touch += found.is_some() as u64;
            self.sum.add(cost);
            self.most.raise(cost);
            together.add(cost);
        }
        self.most_of_a_pair.raise(together);
    }

    pub fn join(&mut self, other: &Tally) {
        self.pieces += other.pieces;
        self.touch += other.touch;
        self.sum.add(other.sum);
        self.most.raise(other.most);
        self.most_of_a_pair.raise(other.most_of_a_pair);
    }
}

/// At most this many pairs of one scene.
const MOST_PAIRS: usize = 400;

pub fn of_scene(tally: &mut Tally, scene: &Scene) {
    let pairs = all_pairs(scene).into_iter().filter(|pair| !pair.shares_a_vertex(scene));
    pairs.take(MOST_PAIRS).for_each(|pair| tally.take(&pieces(scene, pair)));
}

pub const KINDS: [Kind; 2] = [Kind::PointTriangle, Kind::EdgeEdge];

/// Every pair of a kind whose vertices stand at 0 to `last` on one axis, at either time: with 3, every order that they
/// can have, places in common too.
pub fn on_a_line(kind: Kind, last: i64) -> Tally {
    let mut tally = Tally::default();
    for axis in 0..3 {
        for steps in sequences(8, last + 1) {
            let four = [0, 1, 2, 3].map(|vertex| {
                let mut place = [0; 6];
                (place[axis], place[3 + axis]) = (steps[2 * vertex], steps[2 * vertex + 1]);
                place
            });
            tally.take(&pieces(&alone(&four, kind), only_pair(kind)));
        }
    }
    tally
}

/// Every piece of a kind whose differences to the first corner of their time have two coordinates, each up to `reach` in
/// size, and a third of 0.
pub fn in_a_plane(kind: Kind, reach: i64) -> Tally {
    let mut tally = Tally::default();
    for shape in shapes(kind) {
        for normal in 0..3 {
            for steps in sequences(8, 2 * reach + 1) {
                let mut steps = steps.iter().map(|step| step - reach);
                let mut seen = [false; 2];
                let mut at = |time: i64| -> Point {
                    if !std::mem::replace(&mut seen[time as usize], true) {
                        return [0, 0, 0, time];
                    }
                    [0, 1, 2, 3].map(|axis| match axis {
                        3 => time,
                        _ if axis == normal => 0,
                        _ => steps.next().unwrap(),
                    })
                };
                let first: Vec<Point> = shape.ends[..shape.first].iter().map(|&end| at(end as i64)).collect();
                let second: Vec<Point> = shape.ends[shape.first..].iter().map(|&end| at(end as i64)).collect();
                tally.take(&[Piece { first, second }]);
            }
        }
    }
    tally
}

/// Every sequence of so many numbers from 0, each below `below`.
fn sequences(length: u32, below: i64) -> impl Iterator<Item = Vec<i64>> {
    (0..below.pow(length)).map(move |code| (0..length).map(|place| code / below.pow(place) % below).collect())
}

/// Which corners of a piece are at the end, and how many are the first simplex's.
#[derive(Clone, Debug, PartialEq, Eq)]
pub struct Shape {
    pub ends: [bool; 6],
    pub first: usize,
}

/// The shapes of a kind's pieces, in their order.
pub fn shapes(kind: Kind) -> Vec<Shape> {
    let shape = |piece: &Piece| {
        let ends: Vec<bool> = piece.first.iter().chain(&piece.second).map(|point| point[3] == 1).collect();
        Shape { ends: ends.try_into().unwrap(), first: piece.first.len() }
    };
    pieces(&alone(&[[0; 6]; 4], kind), only_pair(kind)).iter().map(shape).collect()
}

/// At most this, whatever the six places are. A leaf with one difference left, or none, decides in its first turn, and any
/// other is taken to be open after all three; nothing is ever found.
pub fn at_most(shape: &Shape) -> Cost {
    let mut cost = Cost::default();
    count(shape, true, [true; 6], false, &mut cost);
    cost
}

fn count(shape: &Shape, of_first: bool, left: [bool; 6], tried: bool, cost: &mut Cost) {
    cost.calls += 1;
    if !tried {
        let at = |end: bool| (0..6).filter(|&i| left[i] && shape.ends[i] == end).count();
        let differences = at(false).saturating_sub(1) + at(true).saturating_sub(1);
        cost.asked += 1;
        cost.determinants += if differences < 2 { 4 } else { 12 };
        if differences < 2 {
            return;
        }
    }
    for i in if of_first { 0..shape.first } else { shape.first..6 } {
        if left[i] {
            let mut less = left;
            less[i] = false;
            count(shape, !of_first, less, false, cost);
        }
    }
    if !tried {
        count(shape, !of_first, left, true, cost);
    }
}

/// At most this for the pieces of a pair together.
pub fn at_most_of_a_pair(kind: Kind) -> Cost {
    let mut cost = Cost::default();
    shapes(kind).iter().for_each(|shape| cost.add(at_most(shape)));
    cost
}

#[cfg(test)]
mod tests {
    use super::*;

    /// By counting orders in which corners are left out. All six left, then five, then four: 1 + 6 + 30 leaves, at worst
    /// all open. Three left: 120, of which one time has none left in 24 (or 12, where the times have three corners each);
    /// those are open at worst, and each leaves 3 with two corners, which decide. Every open leaf is handed over once.
    #[test]
    fn the_bound_is_what_counting_gives() {
        for shape in KINDS.into_iter().flat_map(shapes) {
            let ends = shape.ends.iter().filter(|&&end| end).count();
            let emptied = if ends == 3 { 12 } else { 24 };
            let (open, decided) = (1 + 6 + 30 + emptied, 120 - emptied + 3 * emptied);
            let wanted = Cost { calls: 2 * open + decided, asked: open + decided, determinants: 12 * open + 4 * decided };
            assert_eq!(at_most(&shape), wanted, "{shape:?}");
        }
    }

    #[test]
    fn nothing_that_is_tried_takes_more_than_the_bound() {
        for kind in KINDS {
            for tally in [on_a_line(kind, 1), in_a_plane(kind, 1)] {
                let bound = shapes(kind).iter().map(at_most).max_by_key(|cost| cost.calls).unwrap();
                let (most, pair) = (tally.most, at_most_of_a_pair(kind));
                assert!(most.calls <= bound.calls && most.asked <= bound.asked && most.determinants <= bound.determinants);
                assert!(tally.most_of_a_pair.calls <= pair.calls && tally.most_of_a_pair.determinants <= pair.determinants);
                assert!(tally.pieces > 500 && tally.touch > 100, "{tally:?}");
            }
        }
    }
}
