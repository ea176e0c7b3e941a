//! From floats onto the grid: one step for all axes and both times, and one shift, so that the mesh lies in the middle of the room.

use crate::fault::Fault;
use crate::seams;
use crate::work::{both, in_order, stretch};
use makhnodri::{CONTACT_UNIT, COORDINATE_LIMIT};
use std::convert::Infallible;

pub type Place = [f64; 3];

#[derive(Debug, PartialEq)]
pub struct Rounded {
    /// Start x, y, z, end x, y, z, in steps.
    pub positions: Vec<[i32; 6]>,
    pub step: f64,
    /// The place that the whole numbers count from, in steps.
    pub middle: [i64; 3],
    /// How many coordinates did not lie on the grid, and how far the farthest of them was moved, in steps.
    pub moved: u64,
    pub farthest: f64,
    /// How many vertices came to stand in one place with another from which they were apart.
    pub fallen: u64,
    /// The least step that would be chosen for this mesh; nothing where there is none.
    pub least: Option<f64>,
}

/// The way back from whole numbers to the unit of the files.
#[derive(Clone, Copy, Debug, PartialEq)]
pub struct Grid {
    pub step: f64,
    pub middle: [i64; 3],
}

impl Grid {
    /// The step that is wanted, or the least with which all fits; and its middle.
    pub fn of(bounds: &Bounds, wanted: Option<f64>, limit: i32) -> Result<Grid, Fault> {
        let step = match wanted {
            Some(step) => step,
            None => least_step(bounds, limit)?,
        };
        Ok(Grid { step, middle: middle(bounds, step)? })
    }

    /// All places of one time on the grid; nothing where one is beyond the limit.
    pub fn frame(&self, places: &[Place], limit: i32) -> Option<Frame> {
        let mut out = Frame { places: Vec::with_capacity(places.len()), moved: 0, farthest: 0.0 };
        for place in places {
            let mut number = [0; 3];
            for axis in 0..3 {
                number[axis] = out.coordinate(place[axis], self.step, self.middle[axis], limit)?;
            }
            out.places.push(number);
        }
        Some(out)
    }

    /// A place that is given in 2^20ths of a step, in the files' unit, rounded to a hundredth of a step or finer.
    pub fn written(&self, place: [i64; 3]) -> [String; 3] {
        let decimals = (2.0 - self.step.log10()).ceil().max(0.0) as usize;
        [0, 1, 2].map(|axis| {
            let steps = self.middle[axis] as f64 + place[axis] as f64 / f64::from(CONTACT_UNIT);
            unsigned_zero(format!("{:.decimals$}", steps * self.step))
        })
    }
}

fn unsigned_zero(text: String) -> String {
    match text.strip_prefix('-') {
        Some(zero) if zero.bytes().all(|byte| byte == b'0' || byte == b'.') => zero.to_string(),
        _ => text,
    }
}

/// What is off the grid by less stood on it: its decimals are no sum of halves, and so it comes out of a division a little aside.
const ON_THE_GRID: f64 = 1e-6;

/// Beyond this a double counts no single steps.
const COUNTED: f64 = (1u64 << 53) as f64;

/// Each coordinate becomes the whole number of steps nearest to it, less the middle's. The middle is a whole number of steps too, so what
/// lies on the grid stays on it, and another middle shifts all places alike. No coordinate may come out larger in size than `limit`.
pub fn onto_grid(start: &[Place], end: &[Place], wanted: Option<f64>, limit: i32) -> Result<Rounded, Fault> {
    onto_grid_on(1, start, end, wanted, limit)
}

/// The same on so many threads.
pub fn onto_grid_on(threads: usize, start: &[Place], end: &[Place], wanted: Option<f64>, limit: i32) -> Result<Rounded, Fault> {
    let (of_start, of_end) = both(threads, || Bounds::of(start), || Bounds::of(end));
    let bounds = of_start.with(&of_end);
    let grid = Grid::of(&bounds, wanted, limit)?;
    let mut all = Some(Steps { positions: Vec::with_capacity(start.len()), ..Steps::default() });
    let rounded = |piece: usize| {
        let some = stretch(piece, TOGETHER, start.len());
        grid.steps(&start[some.clone()], &end[some], limit)
    };
    let Ok(()) = in_order(start.len().div_ceil(TOGETHER), threads, rounded, |_, some| {
        all = all.take().zip(some).map(|(all, some)| all.with(some));
        Ok::<(), Infallible>(())
    });
    let Steps { positions, moved, farthest } = all.ok_or_else(|| too_fine(grid.step, &bounds, limit))?;
    let fallen = if moved > 0 { fallen(start, end, &positions, threads) } else { 0 };
    let least = least_step_for(bounds.widest(), limit);
    Ok(Rounded { positions, step: grid.step, middle: grid.middle, moved, farthest, fallen, least })
}

/// Vertices that are rounded in one piece.
const TOGETHER: usize = 1 << 15;

/// Some vertices at both times on the grid.
#[derive(Default)]
struct Steps {
    positions: Vec<[i32; 6]>,
    moved: u64,
    farthest: f64,
}

impl Steps {
    fn with(mut self, behind: Steps) -> Steps {
        self.positions.extend(behind.positions);
        Steps { positions: self.positions, moved: self.moved + behind.moved, farthest: self.farthest.max(behind.farthest) }
    }
}

impl Grid {
    fn steps(&self, start: &[Place], end: &[Place], limit: i32) -> Option<Steps> {
        let (from, to) = (self.frame(start, limit)?, self.frame(end, limit)?);
        let positions = from.places.iter().zip(&to.places).map(|(&[a, b, c], &[d, e, f])| [a, b, c, d, e, f]).collect();
        Some(Steps { positions, moved: from.moved + to.moved, farthest: from.farthest.max(to.farthest) })
    }
}

/// One time on the grid.
#[derive(Debug, PartialEq)]
pub struct Frame {
    pub places: Vec<[i32; 3]>,
    /// How many coordinates did not lie on the grid, and how far the farthest of them was moved, in steps.
    pub moved: u64,
    pub farthest: f64,
}

fn fallen(start: &[Place], end: &[Place], positions: &[[i32; 6]], threads: usize) -> u64 {
    let apart = |a: usize, b: usize| start[a] != start[b] || end[a] != end[b];
    let lowest = seams::by_position_on(positions, threads);
    lowest.iter().enumerate().filter(|&(vertex, &lowest)| apart(vertex, lowest as usize)).count() as u64
}

impl Frame {
    fn coordinate(&mut self, value: f64, step: f64, middle: i64, limit: i32) -> Option<i32> {
        let steps = value / step;
        let nearest = steps.round();
        let off = (steps - nearest).abs();
        self.moved += (off > ON_THE_GRID) as u64;
        self.farthest = self.farthest.max(off);
        let number = nearest as i64 - middle;
        (number.abs() <= i64::from(limit)).then_some(number as i32)
    }
}

/// The smallest and the largest coordinate of each axis; nothing where there is no vertex.
#[derive(Clone, Copy, Debug, Default, PartialEq)]
pub struct Bounds([Option<(f64, f64)>; 3]);

impl Bounds {
    pub fn of(places: &[Place]) -> Bounds {
        let mut bounds = Bounds::default();
        for place in places {
            for (bound, &value) in bounds.0.iter_mut().zip(place) {
                let (low, high) = bound.unwrap_or((value, value));
                *bound = Some((low.min(value), high.max(value)));
            }
        }
        bounds
    }

    /// Of both.
    pub fn with(&self, other: &Bounds) -> Bounds {
        let both = |axis: usize| match (self.0[axis], other.0[axis]) {
            (Some((a, b)), Some((c, d))) => Some((a.min(c), b.max(d))),
            (one, other) => one.or(other),
        };
        Bounds([0, 1, 2].map(both))
    }

    fn widest(&self) -> f64 {
        self.0.iter().flatten().map(|(low, high)| high - low).fold(0.0, f64::max)
    }
}

/// The smallest of 1, 2, 5, 10, 20 and so on, up and down the powers of ten, with which the mesh fits: decimals of an export then mostly lie
/// on the grid. A step is kept free for the middle's own rounding. A mesh in one place takes 1.
pub fn least_step_for(width: f64, limit: i32) -> Option<f64> {
    let least = width / (2.0 * (limit - 1) as f64);
    if least == 0.0 {
        return Some(1.0);
    }
    let power = least.log10().floor() as i32;
    let steps = (power - 1..=power + 1).flat_map(|power| [1, 2, 5].map(|digit| format!("{digit}e{power}")));
    steps.filter_map(|text| text.parse().ok()).find(|&step: &f64| step >= least && step.is_normal())
}

/// The largest of 1, 2, 5 times a power of ten that is no larger than this length: on a grid of such steps what is so far apart stays apart.
pub fn parting_step(length: f64) -> Option<f64> {
    if !length.is_normal() {
        return None;
    }
    let power = length.log10().floor() as i32;
    let steps = (power - 1..=power + 1).rev().flat_map(|power| [5, 2, 1].map(|digit| format!("{digit}e{power}")));
    steps.filter_map(|text| text.parse().ok()).find(|&step: &f64| step <= length && step.is_normal())
}

pub fn least_step(bounds: &Bounds, limit: i32) -> Result<f64, Fault> {
    least_step_for(bounds.widest(), limit)
        .ok_or_else(|| Fault::new("the vertices are too far apart, or too near each other, for a step to be chosen"))
}

fn middle(bounds: &Bounds, step: f64) -> Result<[i64; 3], Fault> {
    let mut middle = [0; 3];
    for (at, bound) in middle.iter_mut().zip(bounds.0) {
        let (low, high) = bound.unwrap_or((0.0, 0.0));
        if (low / step).abs() >= COUNTED || (high / step).abs() >= COUNTED {
            return Err(Fault::new(format!(
                "from {low} to {high} is too far from 0 for steps of {step}: a double no longer tells them apart; take a larger --step, or \
                 move the mesh"
            )));
        }
        *at = ((low / step).round() as i64 + (high / step).round() as i64).div_euclid(2);
    }
    Ok(middle)
}

pub fn too_fine(step: f64, bounds: &Bounds, limit: i32) -> Fault {
    let width = bounds.widest();
    let room = 2 * limit;
    let fitting = least_step_for(width, limit).map_or(String::new(), |least| format!("; {least} is enough"));
    let why = if limit < COORDINATE_LIMIT { "; contacts have less room than words, and are refused beyond it (16)" } else { "" };
    Fault::new(format!("the mesh is {width} wide, and the room is {room} steps of {step}: take a larger --step{fitting}{why}"))
}
