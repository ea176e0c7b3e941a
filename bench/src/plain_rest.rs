//! The library's own way to decide what is degenerate, in plain safe Rust: corners are left out, of either simplex, until
//! volumes decide.

use crate::plain::{edge_verdicts, judge, point_verdicts, volumes, Corner, Vector, END, START};
use crate::slices::{parts, Slices};
use compare::verdicts::settled::Settled;
use compare::verdicts::verdict::Verdict;

/// Which of the six corners are left, those of the first simplex first.
type Left = [bool; 6];

/// The six corners of a piece, of which `first` are the first simplex's.
struct Six<'a> {
    positions: &'a [i32],
    corners: [Corner; 6],
    first: usize,
}

enum Leaf {
    Yes,
    No,
    Open,
}

/// The word of an entry of the list.
#[inline]
pub fn settle(slices: &Slices, entry: u32) -> Settled {
    match judge(slices, entry) {
        Verdict::Hit => Settled::Hit,
        Verdict::Miss => Settled::Miss,
        Verdict::Degenerate if touches(slices, entry) => Settled::Touch,
        Verdict::Degenerate => Settled::Apart,
    }
}

/// Whether a degenerate piece of a pair touches.
fn touches(slices: &Slices, entry: u32) -> bool {
    let (kind, first, second) = parts(entry);
    let positions = &slices.positions[..];
    let asked = |verdict: Verdict, corners: [Corner; 6], first: usize| {
        verdict == Verdict::Degenerate && Six { positions, corners, first }.step(true, [true; 6], false)
    };
    if kind == 0 {
        let corners = slices.corners(second);
        point_verdicts(positions, first, corners).into_iter().zip(point_pieces(first, corners)).any(|(v, six)| asked(v, six, 2))
    } else {
        let (first, second) = (slices.ends(first), slices.ends(second));
        edge_verdicts(positions, first, second).into_iter().zip(edge_pieces(first, second)).any(|(v, six)| asked(v, six, 3))
    }
}

fn point_pieces(point: usize, corners: [usize; 3]) -> [[Corner; 6]; 3] {
    let [a, b, c] = corners.map(|vertex| (vertex, START));
    let [a1, b1, c1] = corners.map(|vertex| (vertex, END));
    [[a, b, c, c1], [a, b, b1, c1], [a, a1, b1, c1]].map(|[q, r, s, t]| [(point, START), (point, END), q, r, s, t])
}

fn edge_pieces(first: [usize; 2], second: [usize; 2]) -> [[Corner; 6]; 4] {
    let halves = |ends: [usize; 2]| {
        let [[a, b], [a1, b1]] = [START, END].map(|when| ends.map(|vertex| (vertex, when)));
        [[a, b, b1], [a, a1, b1]]
    };
    let ([a, b], [c, d]) = (halves(first), halves(second));
    [(a, c), (a, d), (b, c), (b, d)].map(|(x, y)| [x[0], x[1], x[2], y[0], y[1], y[2]])
}

impl Six<'_> {
    /// Whether there are weights for the corners left: tries to leave out each of one simplex, and hands over to the other.
    fn step(&self, of_first: bool, left: Left, tried: bool) -> bool {
        match if tried { Leaf::Open } else { self.ask(left) } {
            Leaf::Yes => return true,
            Leaf::No => return false,
            Leaf::Open => {}
        }
        for i in if of_first { 0..self.first } else { self.first..6 } {
            let mut less = left;
            less[i] = false;
            if left[i] && self.step(!of_first, less, false) {
                return true;
            }
        }
        !tried && self.step(!of_first, left, true)
    }

    fn ask(&self, left: Left) -> Leaf {
        let base = |when: usize, none: usize| (0..6).find(|&i| left[i] && self.corners[i].1 == when).unwrap_or(none);
        let (start, end) = (base(START, 0), base(END, 5));
        for axis in 0..3 {
            let answer = self.turn(left, start, end, axis);
            if !matches!(answer, Leaf::Open) {
                return answer;
            }
        }
        Leaf::Open
    }

    fn turn(&self, left: Left, start: usize, end: usize, mut axis: usize) -> Leaf {
        let (mut others, mut vectors, mut slot) = ([0; 4], [[0; 3]; 4], 0);
        for i in (0..6).filter(|&i| i != start && i != end) {
            others[slot] = i;
            if left[i] {
                vectors[slot] = self.seen(i, if self.corners[i].1 == START { start } else { end });
            } else {
                vectors[slot][axis % 3] = 1;
                axis += 1;
            }
            slot += 1;
        }
        self.judged(left, start, end, others, volumes(vectors))
    }

    fn seen(&self, corner: usize, base: usize) -> Vector {
        let [at, from] = [corner, base].map(|i| 6 * self.corners[i].0 + self.corners[i].1);
        [0, 1, 2].map(|axis| self.positions[at + axis] as i64 - self.positions[from + axis] as i64)
    }

    fn judged(&self, left: Left, start: usize, end: usize, others: [usize; 4], volumes: [i64; 4]) -> Leaf {
        if volumes == [0; 4] {
            return Leaf::Open;
        }
        let mut numbers = [0; 6];
        for (i, volume) in others.into_iter().zip(volumes) {
            if !left[i] && volume != 0 {
                return Leaf::No;
            }
            numbers[i] = volume;
            numbers[if self.corners[i].1 == START { start } else { end }] -= volume;
        }
        let (first, second) = numbers.split_at(self.first);
        let up = first.iter().all(|&n| n >= 0) && second.iter().all(|&n| n <= 0);
        let down = first.iter().all(|&n| n <= 0) && second.iter().all(|&n| n >= 0);
        if up || down {
            Leaf::Yes
        } else {
            Leaf::No
        }
    }
}

/// What the library's call does for a whole scene: lists, and settles each pair.
pub fn settle_scene(slices: &Slices, list: &mut [u32], words: &mut [u8]) -> usize {
    let count = crate::plain::list(slices, list);
    for (&entry, word) in list.iter().zip(words).take(count) {
        *word = settle(slices, entry).byte();
    }
    count
}
