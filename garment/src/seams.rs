//! Seams by position: vertices that stand in one place of the grid at the start, and in one at the end, are one vertex.

use crate::work::in_order;
use std::convert::Infallible;

/// For each vertex the one that it stands for, the lowest in its place; its own number where it is alone.
pub fn by_position(positions: &[[i32; 6]]) -> Vec<u32> {
    by_position_on(positions, 1)
}

/// The same on so many threads, each with the vertices of some keys.
pub fn by_position_on(positions: &[[i32; 6]], threads: usize) -> Vec<u32> {
    let mut stands: Vec<u32> = (0..positions.len() as u32).collect();
    let Ok(()) = in_order(
        threads,
        threads,
        |piece| sewn(positions, piece, threads),
        |_, sewn| {
            sewn.into_iter().for_each(|[vertex, lowest]| stands[vertex as usize] = lowest);
            Ok::<(), Infallible>(())
        },
    );
    stands
}

/// Of the vertices with one of so many parts of all keys those that are not alone, and the lowest in their place.
fn sewn(positions: &[[i32; 6]], part: usize, parts: usize) -> Vec<[u32; 2]> {
    let own = |key: u64| parts == 1 || (key * parts as u64) >> 32 == part as u64;
    let keys = positions.iter().zip(0..).map(|(position, vertex)| (key(position), vertex));
    let mut keys: Vec<u64> = keys.filter(|&(key, _)| own(key)).map(|(key, vertex)| key << 32 | vertex).collect();
    keys.sort_unstable();
    let mut sewn = Vec::new();
    for alike in keys.chunk_by(|one, other| one >> 32 == other >> 32).filter(|alike| alike.len() > 1) {
        sew(alike, positions, &mut sewn);
    }
    sewn
}

/// Half a number of its position: alike where that is, and nearly always only there.
fn key(position: &[i32; 6]) -> u64 {
    position.iter().fold(0u64, |key, &number| (key.rotate_left(13) ^ number as u32 as u64).wrapping_mul(0x9e37_79b9_7f4a_7c15))
        >> 32
}

/// Vertices with one key, in rising order: those of one place stand for the lowest of them.
fn sew(alike: &[u64], positions: &[[i32; 6]], sewn: &mut Vec<[u32; 2]>) {
    let mut vertices: Vec<u32> = alike.iter().map(|&key| key as u32).collect();
    let place = |vertex: u32| positions[vertex as usize];
    vertices.sort_unstable_by_key(|&vertex| (place(vertex), vertex));
    for one_place in vertices.chunk_by(|&one, &other| place(one) == place(other)) {
        sewn.extend(one_place[1..].iter().map(|&vertex| [vertex, one_place[0]]));
    }
}
