//! Pairs found and judged as they were, by the grid and by scenes of 128 pairs, beside the library's rows: processor time of one thread, a stretch of rows
//! after the other, each way in turn, so that whatever else the machine does is in both.

use crate::clocks::taken;
use crate::grid::Finder;
use garment::judge::{Judge, Question, Which};
use garment::judging::{Packed, TOGETHER};
use garment::mesh::Mesh;
use makhnodri::{RowsRefusal, Scratch, Wanted};
use std::hint::black_box;
use std::ops::Range;

/// Seconds of each way, and the counts of pairs.
#[derive(Clone, Copy, Debug, Default)]
pub struct Beside {
    pub listed: u64,
    pub near: u64,
    /// Boxes put into cells and pairs found by them.
    pub grid: f64,
    /// These pairs, 128 a call.
    pub packed: f64,
    /// Rows listed, and rows listed and judged.
    pub list: f64,
    pub settle: f64,
    /// Near rows listed and judged; and hits and touches kept of them.
    pub near_settle: f64,
    pub near_keep: f64,
    /// A call for no rows: what each call does before its first row.
    pub call: f64,
    /// Edges through a triangle at the start, all rows in one call.
    pub pierced: f64,
}

impl Beside {
    /// Of each way the shorter time.
    pub fn shortest(self, other: Beside) -> Beside {
        Beside {
            grid: self.grid.min(other.grid),
            packed: self.packed.min(other.packed),
            list: self.list.min(other.list),
            settle: self.settle.min(other.settle),
            near_settle: self.near_settle.min(other.near_settle),
            near_keep: self.near_keep.min(other.near_keep),
            call: self.call.min(other.call),
            pierced: self.pierced.min(other.pierced),
            ..self
        }
    }

    pub fn find(&self) -> f64 {
        self.list / self.grid
    }

    pub fn judge(&self) -> f64 {
        (self.settle - self.list) / self.packed
    }

    pub fn near(&self) -> f64 {
        self.near_settle / (self.grid + self.packed)
    }

    pub fn kept(&self) -> f64 {
        self.near_keep / (self.grid + self.packed)
    }
}

/// What the library works in and writes to.
#[derive(Default)]
struct Lent {
    scratch: Scratch,
    list: Vec<u64>,
    words: Vec<u8>,
}

/// All rows, so many at a time: listed rows, and near ones, of which more are asked for in one call, since they have fewer pairs.
pub fn measured(mesh: &Mesh, judge: &Judge, length: usize, near_length: usize) -> Beside {
    let mut out = Beside::default();
    let finder = timed(&mut out.grid, || Finder::new(mesh));
    let (mut lent, mut packed) = (Lent::default(), Packed::default());
    for rows in stretches(judge, length) {
        let pairs = timed(&mut out.grid, || finder.in_rows(rows.clone()));
        timed(&mut out.packed, || {
            let of_some = |some| packed.settle(mesh, some).expect("words").map(|word| word as u64).sum::<u64>();
            black_box(pairs.chunks(TOGETHER).map(of_some).sum::<u64>())
        });
        let count = pairs.len();
        out.listed += count as u64;
        lent.fit(count);
        drop(pairs);
        let listed = timed(&mut out.list, || lent.list(judge, Which::Listed, rows.clone()));
        timed(&mut out.settle, || lent.settle(judge, Which::Listed, rows.clone()));
        assert_eq!(listed, count as u64, "rows {rows:?}");
    }
    for rows in stretches(judge, near_length) {
        let count = lent.count(judge, rows.clone());
        lent.fit(count);
        out.near += timed(&mut out.near_settle, || lent.settle(judge, Which::Near, rows.clone()));
        timed(&mut out.near_keep, || lent.keep(judge, rows.clone()));
    }
    timed(&mut out.call, || lent.list(judge, Which::Listed, 0..0));
    timed(&mut out.pierced, || judge.pierced(0..judge.edge_rows(), None).expect("decided").len());
    out
}

/// All rows, so many at a time, and those of vertices apart from those of edges, as the program asks for them.
pub fn stretches<'a>(judge: &'a Judge, length: usize) -> impl Iterator<Item = Range<usize>> + 'a {
    let begins = move |begin: usize| (begin < judge.rows()).then(|| begin..judge.end_of_kind(begin).min(begin + length));
    std::iter::successors(begins(0), move |rows| begins(rows.end))
}

impl Lent {
    fn fit(&mut self, pairs: usize) {
        self.list.resize(self.list.len().max(pairs), 0);
        self.words.resize(self.words.len().max(pairs), 0);
    }

    /// How many near pairs rows have.
    fn count(&mut self, judge: &Judge, rows: Range<usize>) -> usize {
        judge.lent(rows.start).count_rows(&mut self.scratch, Which::Near, rows).expect("they are counted") as usize
    }

    fn list(&mut self, judge: &Judge, which: Which, rows: Range<usize>) -> u64 {
        judge.lent(rows.start).list_rows(&mut self.scratch, which, rows, &mut self.list).expect("it is listed")
    }

    fn settle(&mut self, judge: &Judge, which: Which, rows: Range<usize>) -> u64 {
        judge.lent(rows.start).settle_rows(&mut self.scratch, which, rows, &mut self.list, &mut self.words).expect("it is judged")
    }

    fn keep(&mut self, judge: &Judge, rows: Range<usize>) -> u64 {
        let wanted = Wanted { hits: true, touches: true, ..Wanted::default() };
        match judge.lent(rows.start).keep_rows(&mut self.scratch, Which::Near, rows, wanted, &mut self.list, &mut self.words) {
            Ok(kept) => kept.count,
            Err(RowsRefusal::NoRoom { needed }) => panic!("{needed} are kept of fewer"),
            Err(refusal) => panic!("{refusal}"),
        }
    }
}

/// How many pairs there are, and the seconds of judging them all in the calls in which the program asks for them on one thread.
pub fn as_asked(judge: &Judge) -> (u64, f64) {
    let question = Question { which: Which::Listed, choice: None, wanted: [true; 4], contacts: false };
    let (mut cutter, mut pairs, mut seconds) = (judge.cutter(1), 0, 0.0);
    while let Some(rows) = cutter.next() {
        let judged = timed(&mut seconds, || judge.each(rows.clone(), &question, |found| _ = black_box(found.words)));
        let counts = judged.expect("they are judged");
        cutter.learn(&rows, counts.filled);
        pairs += counts.tally.listed();
    }
    (pairs, seconds)
}

/// How many pairs there are, and the seconds of finding them by the grid and by rows with the orders that are lent, so many at a time: in turns, of each way
/// the shortest of so many rounds. Then those without orders, which take long: once, and of small meshes alone.
pub fn in_order(mesh: &Mesh, judge: &Judge, length: usize, rounds: usize, bare: bool) -> (u64, [f64; 2], Option<f64>) {
    let (mut best, mut count) = ([f64::MAX; 2], 0);
    let (mut scratch, mut list) = (Scratch::default(), Vec::new());
    let mut listed = |ordered: bool, count: usize| {
        list.resize(count, 0);
        let mut seconds = 0.0;
        let all: u64 = stretches(judge, length)
            .map(|some| {
                let lent = judge.lent(some.start);
                let bare = lent.clone().ordered(&[], &[]);
                let asked = if ordered { lent } else { &bare };
                timed(&mut seconds, || asked.list_rows(&mut scratch, Which::Listed, some, &mut list)).expect("they are listed")
            })
            .sum();
        assert_eq!(all, count as u64);
        seconds
    };
    for _ in 0..rounds {
        let mut grid = 0.0;
        count = timed(&mut grid, || {
            let finder = Finder::new(mesh);
            finder.in_rows(0..finder.rows()).len()
        });
        best = [best[0].min(grid), best[1].min(listed(true, count))];
    }
    let bare = bare.then(|| listed(false, count));
    (count as u64, best, bare)
}

fn timed<T>(seconds: &mut f64, work: impl FnOnce() -> T) -> T {
    let began = taken();
    let result = black_box(work());
    *seconds += (taken() - began).as_secs_f64();
    result
}
