//! Edges and triangles drawn for vertices that are there.

use crate::numbers::random::Random;
use crate::scene::Scene;

/// Some numbers below `vertices`, no two alike, in any order.
pub fn some<const N: usize>(random: &mut Random, vertices: usize) -> [usize; N] {
    let mut all: Vec<usize> = (0..vertices).collect();
    [0; N].map(|_| all.swap_remove(random.below(all.len())))
}

pub fn with_parts(random: &mut Random, vertices: Vec<[i64; 6]>, edges: usize, triangles: usize) -> Scene {
    let count = vertices.len();
    let (edges, triangles) = (if count < 2 { 0 } else { edges }, if count < 3 { 0 } else { triangles });
    Scene {
        vertices,
        edges: (0..edges).map(|_| some(random, count)).collect(),
        triangles: (0..triangles).map(|_| some(random, count)).collect(),
        seams: vec![],
    }
}
