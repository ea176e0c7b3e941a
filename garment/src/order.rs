//! An order of parts by their places, where that in which they stand scatters them: a hint for who goes over runs of neighbours.

use crate::boxes::Swept;
use crate::curve;

/// Parts of a run.
const RUN: usize = 16;
/// A run of a sheet's parts, row by row, is some eight to sixteen times as long as one of them. One of parts that stand in any order is as long as the mesh.
const SCATTERED: i64 = 20;
/// Runs that are looked at, spread over all.
const LOOKED_AT: usize = 4_096;

/// The parts along Hilbert's curve, by the middle of each; nothing where they stand well as they are.
pub fn lent<const N: usize>(positions: &[[i32; 6]], parts: &[[u32; N]]) -> Vec<u32> {
    if !is_scattered(positions, parts) {
        return Vec::new();
    }
    let far = |part| curve::along(middle(&Swept::of_part(positions, part)));
    let mut along: Vec<(u64, u32)> = parts.iter().zip(0..).map(|(part, number)| (far(part), number)).collect();
    along.sort_unstable();
    along.into_iter().map(|(_, part)| part).collect()
}

/// Whether runs are much longer than their parts.
fn is_scattered<const N: usize>(positions: &[[i32; 6]], parts: &[[u32; N]]) -> bool {
    let (mut of_parts, mut of_runs) = (0, 0);
    for run in parts.chunks(RUN).step_by((parts.len() / RUN / LOOKED_AT).max(1)) {
        let boxes = run.iter().map(|part| Swept::of_part(positions, part));
        of_parts += boxes.clone().map(|one| length(&one)).sum::<i64>();
        of_runs += boxes.reduce(Swept::joined).map_or(0, |run| RUN as i64 * length(&run));
    }
    of_runs > SCATTERED * of_parts
}

/// Along all three axes; a part that is nothing but a point counts for one.
fn length(one: &Swept) -> i64 {
    1 + (0..3).map(|axis| i64::from(one.high[axis]) - i64::from(one.low[axis])).sum::<i64>()
}

fn middle(one: &Swept) -> [i32; 3] {
    [0, 1, 2].map(|axis| one.low[axis] + (one.high[axis] - one.low[axis]) / 2)
}
