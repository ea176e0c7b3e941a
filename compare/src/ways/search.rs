//! A sketch of how the library decides a singular piece (crates/resting, after the note on cloth at rest): corners are
//! left out until volumes decide. Nothing here is judged by it; it is there to be counted, and to be done wrong on
//! purpose, so that scenes can be found on which a wrong search shows.

use crate::scene::pieces::Piece;
use crate::ways::signs::determinant;

/// Which of the six corners are left, in the piece's order, first simplex first.
type Left = [bool; 6];

/// A number for each corner.
pub type Numbers = [i128; 6];

#[derive(Clone, Copy, Debug, PartialEq, Eq)]
pub enum Way {
    /// As the library does it.
    Library,
    /// The two simplices strictly in turn: points are never handed over as they are.
    StrictTurn,
    /// No corner of the second simplex is left out.
    FirstSimplex,
    /// Volumes that are all 0 pass for weights.
    ZeroWeights,
    /// Axes stand in for corners left out in one turn only, not in three.
    OneTurn,
}

#[derive(Clone, Copy, Debug, Default, PartialEq, Eq)]
pub struct Cost {
    /// How often one of the two steps was entered.
    pub calls: u64,
    /// How often the volumes were asked.
    pub asked: u64,
    /// 3 by 3 determinants.
    pub determinants: u64,
}

#[derive(Clone, Copy)]
enum Leaf {
    Yes(Numbers),
    No,
    Open,
}

struct Search {
    at: [[i128; 3]; 6],
    ends: [bool; 6],
    first: usize,
    way: Way,
    cost: Cost,
}

/// The weights that it finds, up to one common factor, and what that took.
pub fn searched(piece: &Piece, way: Way) -> (Option<Numbers>, Cost) {
    let points: Vec<_> = piece.first.iter().chain(&piece.second).collect();
    let mut search = Search {
        at: [0, 1, 2, 3, 4, 5].map(|i| [0, 1, 2].map(|axis| points[i][axis] as i128)),
        ends: [0, 1, 2, 3, 4, 5].map(|i| points[i][3] == 1),
        first: piece.first.len(),
        way,
        cost: Cost::default(),
    };
    let found = search.step(true, [true; 6], false);
    (found, search.cost)
}

pub fn touches(piece: &Piece, way: Way) -> bool {
    searched(piece, way).0.is_some()
}

impl Search {
    /// The library's two functions in one: tries the corners of the first simplex, or of the second, and hands over.
    fn step(&mut self, of_first: bool, left: Left, tried: bool) -> Option<Numbers> {
        self.cost.calls += 1;
        // points that were handed over as they are were open, and are not asked again
        match if tried { Leaf::Open } else { self.ask(left) } {
            Leaf::Yes(weights) => return Some(weights),
            Leaf::No => return None,
            Leaf::Open => {}
        }
        let other = if self.way == Way::FirstSimplex { of_first } else { !of_first };
        for i in if of_first { 0..self.first } else { self.first..6 } {
            if left[i] {
                let mut less = left;
                less[i] = false;
                if let Some(weights) = self.step(other, less, false) {
                    return Some(weights);
                }
            }
        }
        if tried || matches!(self.way, Way::StrictTurn | Way::FirstSimplex) {
            return None;
        }
        self.step(other, left, true)
    }

    fn ask(&mut self, left: Left) -> Leaf {
        self.cost.asked += 1;
        let (start, end) = (self.base(left, false), self.base(left, true));
        let turns = if self.way == Way::OneTurn { 1 } else { 3 };
        for axis in 0..turns {
            let answer = self.turn(left, start, end, axis);
            if !matches!(answer, Leaf::Open) {
                return answer;
            }
        }
        Leaf::Open
    }

    /// The first corner left at that time; where none is left, one that has that time in every piece.
    fn base(&self, left: Left, end: bool) -> usize {
        let none = if end { 5 } else { 0 };
        (0..6).find(|&i| left[i] && self.ends[i] == end).unwrap_or(none)
    }

    fn turn(&mut self, left: Left, start: usize, end: usize, mut axis: usize) -> Leaf {
        let others: Vec<usize> = (0..6).filter(|&i| i != start && i != end).collect();
        let arrows: Vec<[i128; 3]> = others.iter().map(|&i| self.arrow(left, start, end, i, &mut axis)).collect();
        let [a, b, c, d] = [0, 1, 2, 3].map(|slot| arrows[slot]);
        self.cost.determinants += 4;
        let volumes = [determinant(b, c, d), -determinant(a, c, d), determinant(a, b, d), -determinant(a, b, c)];
        let mut numbers = [0; 6];
        for (&i, volume) in others.iter().zip(volumes) {
            numbers[i] = volume;
            // a base has minus the sum over its time
            numbers[if self.ends[i] { end } else { start }] -= volume;
        }
        self.judged(left, others, numbers)
    }

    fn arrow(&self, left: Left, start: usize, end: usize, i: usize, axis: &mut usize) -> [i128; 3] {
        if left[i] {
            let base = self.at[if self.ends[i] { end } else { start }];
            return [0, 1, 2].map(|k| self.at[i][k] - base[k]);
        }
        let own = *axis % 3;
        *axis += 1;
        [0, 1, 2].map(|k| (k == own) as i128)
    }

    fn judged(&self, left: Left, others: Vec<usize>, numbers: Numbers) -> Leaf {
        if others.iter().all(|&i| numbers[i] == 0) && self.way != Way::ZeroWeights {
            return Leaf::Open;
        }
        let out = others.iter().all(|&i| left[i] || numbers[i] == 0);
        let signed = [0, 1, 2, 3, 4, 5].map(|i| if i < self.first { numbers[i] } else { -numbers[i] });
        if out && signed.iter().all(|&n| n >= 0) {
            Leaf::Yes(signed)
        } else if out && signed.iter().all(|&n| n <= 0) {
            Leaf::Yes(signed.map(|n| -n))
        } else {
            Leaf::No
        }
    }
}
