//! Rows cut into stretches while they are judged: each call over rows makes boxes and trees of the whole mesh anew, so there are few; and what is found in
//! one has room. How many pairs a row has is learned from those before it.

use std::ops::Range;

pub struct Cutter {
    rows: usize,
    /// Where the rows of the second kind begin, which have another count of pairs.
    border: usize,
    next: usize,
    /// The first stretch of a kind, and the longest of all.
    first: usize,
    longest: usize,
    /// How much of the room a stretch is to take.
    filled: f64,
    /// Of each kind how many rows the last stretch had that is known, and how much of the room a row took.
    known: [Option<(usize, f64)>; 2],
}

/// A stretch is as long as fills so much of the room, if its rows are like those before it; and so many times as long as the last at most.
const FILLED: f64 = 0.75;
const LONGER: usize = 64;
/// What several threads have found and not written yet lies side by side: each fills so much less of its room.
const SEVERAL: f64 = 4.0;
/// Fewer rows cost less than what each call begins with.
const FEWEST: usize = 256;
/// Stretches for each thread, so that all end at about the same time. One thread alone needs no more than one.
const FOR_A_THREAD: usize = 3;

impl Cutter {
    /// The first stretch is so short that what is found in it has room whatever it is.
    pub fn new(rows: usize, border: usize, first: usize, threads: usize) -> Cutter {
        let longest = if threads > 1 { rows.div_ceil(FOR_A_THREAD * threads).max(FEWEST) } else { rows };
        Cutter {
            rows,
            border,
            next: 0,
            first: first.max(FEWEST),
            longest,
            filled: if threads > 1 { FILLED / SEVERAL } else { FILLED },
            known: [None; 2],
        }
    }

    /// Of the rows of a stretch, how much of the room they took.
    pub fn learn(&mut self, rows: &Range<usize>, filled: f64) {
        self.known[(rows.start >= self.border) as usize] = Some((rows.len(), filled / rows.len().max(1) as f64));
    }

    fn length(&self, second: bool) -> usize {
        match self.known[second as usize] {
            None => self.first,
            Some((last, each)) => {
                ((self.filled / each.max(1e-12)) as usize).min(LONGER * last.max(self.first)).max(FEWEST).min(self.longest)
            }
        }
    }
}

impl Iterator for Cutter {
    type Item = Range<usize>;

    fn next(&mut self) -> Option<Range<usize>> {
        let (begin, second) = (self.next, self.next >= self.border);
        let end = if second { self.rows } else { self.border.min(self.rows) };
        let (length, left) = (self.length(second), end - begin);
        // two of equal length rather than one that is full and a few rows
        let length = if left > length && left < 2 * length { left.div_ceil(2) } else { length.min(left) };
        self.next = begin + length;
        (begin < self.rows).then_some(begin..self.next)
    }
}
