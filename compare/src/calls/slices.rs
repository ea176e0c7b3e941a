//! A scene lent as slices, and a pair or a piece asked for. The numbers are as wide as Rust's widest, so that
//! whatever width a caller has, what lies outside the rules can be said.

use crate::list::listing;
use crate::scene::refusal::*;
use crate::scene::*;
use crate::verdicts::settled::{self, Settled};
use crate::verdicts::verdict::{self, Verdict};

#[derive(Clone, Copy)]
pub struct Slices<'a> {
    pub positions: &'a [i64],
    pub edges: &'a [u64],
    pub triangles: &'a [u64],
    pub seams: &'a [u64],
}

/// Refusals 1, 2, 3, 15, 4, each over the whole scene before the next.
pub fn scene(slices: Slices) -> Result<Scene, Refusal> {
    within(slices, [VERTEX_LIMIT, EDGE_LIMIT, TRIANGLE_LIMIT, SEAM_LIMIT])
}

/// The same with other sizes: so many vertices, edges, triangles and seams at most.
pub fn within(slices: Slices, limits: [usize; 4]) -> Result<Scene, Refusal> {
    let Slices { positions, edges, triangles, seams } = slices;
    let lengths = [positions.len(), edges.len(), triangles.len(), seams.len()];
    let shaped = |((length, step), limit): ((usize, usize), usize)| length.is_multiple_of(step) && length / step <= limit;
    if !lengths.into_iter().zip([6, 2, 3, 2]).zip(limits).all(shaped) {
        return Err(Refusal::bare(BAD_SHAPE));
    }
    if !positions.iter().all(|&coordinate| in_range(coordinate)) {
        return Err(Refusal::bare(OUT_OF_RANGE));
    }
    let vertices = positions.len() as u64 / 6;
    if edges.iter().chain(triangles).chain(seams).any(|&vertex| vertex >= vertices) {
        return Err(Refusal::bare(NO_SUCH_VERTEX));
    }
    let place = |vertex: &u64| *vertex as usize;
    let scene = Scene {
        vertices: positions.chunks(6).map(|chunk| chunk.try_into().unwrap()).collect(),
        edges: edges.chunks(2).map(|chunk| [0, 1].map(|i| place(&chunk[i]))).collect(),
        triangles: triangles.chunks(3).map(|chunk| [0, 1, 2].map(|i| place(&chunk[i]))).collect(),
        seams: seams.chunks(2).map(|chunk| [0, 1].map(|i| place(&chunk[i]))).collect(),
    };
    if any_broken(&scene) {
        return Err(Refusal::bare(BROKEN_SEAM));
    }
    if scene.parts().any(|part| scene.any_twice(part)) {
        return Err(Refusal::bare(VERTEX_TWICE));
    }
    Ok(scene)
}

/// 15, said of the whole list: i rises, and each j is below its i, is not itself replaced, and stands in the same places.
fn any_broken(scene: &Scene) -> bool {
    let rising = scene.seams.windows(2).all(|two| two[0][0] < two[1][0]);
    let sewn = |&[i, j]: &[usize; 2]| {
        let replaced = scene.seams.iter().any(|other| other[0] == j);
        j < i && !replaced && scene.vertices[i] == scene.vertices[j]
    };
    !rising || !scene.seams.iter().all(sewn)
}

fn asked(scene: &Scene, kind: Kind, first: u64, second: u64) -> Result<Pair, Refusal> {
    let (firsts, seconds) = match kind {
        Kind::PointTriangle => (scene.vertices.len(), scene.triangles.len()),
        Kind::EdgeEdge => (scene.edges.len(), scene.edges.len()),
    };
    if first >= firsts as u64 || second >= seconds as u64 {
        return Err(Refusal::bare(NOT_THERE));
    }
    Ok(Pair { kind, first: first as usize, second: second as usize })
}

fn unshared(scene: &Scene, pair: Pair) -> Result<(), Refusal> {
    if pair.shares_a_vertex(scene) {
        return Err(Refusal::bare(SHARES_A_VERTEX));
    }
    Ok(())
}

/// The scene and a pair of it that may be asked for.
pub fn a_pair(slices: Slices, kind: Kind, first: u64, second: u64) -> Result<(Scene, Pair), Refusal> {
    let scene = scene(slices)?;
    let pair = asked(&scene, kind, first, second)?;
    unshared(&scene, pair)?;
    Ok((scene, pair))
}

/// The scene, a pair of it and a piece of that, which may be asked for.
pub fn a_piece(slices: Slices, kind: Kind, first: u64, second: u64, piece: u64) -> Result<(Scene, Pair, usize), Refusal> {
    let scene = scene(slices)?;
    let pair = asked(&scene, kind, first, second)?;
    let pieces = match kind {
        Kind::PointTriangle => 3,
        Kind::EdgeEdge => 4,
    };
    if piece >= pieces {
        return Err(Refusal::bare(NOT_THERE));
    }
    unshared(&scene, pair)?;
    Ok((scene, pair, piece as usize))
}

pub fn pair_verdict(slices: Slices, kind: Kind, first: u64, second: u64) -> Result<Verdict, Refusal> {
    a_pair(slices, kind, first, second).map(|(scene, pair)| verdict::of_pair(&scene, pair))
}

pub fn piece_verdict(slices: Slices, kind: Kind, first: u64, second: u64, piece: u64) -> Result<Verdict, Refusal> {
    a_piece(slices, kind, first, second, piece).map(|(scene, pair, piece)| verdict::of_pieces(&scene, pair)[piece])
}

pub fn pair_settled(slices: Slices, kind: Kind, first: u64, second: u64) -> Result<Settled, Refusal> {
    a_pair(slices, kind, first, second).map(|(scene, pair)| settled::of_pair(&scene, pair))
}

pub fn piece_settled(slices: Slices, kind: Kind, first: u64, second: u64, piece: u64) -> Result<Settled, Refusal> {
    a_piece(slices, kind, first, second, piece).map(|(scene, pair, piece)| settled::of_pieces(&scene, pair)[piece])
}

/// An entry of the list in bits: the kind, then ten for the first place and ten for the second.
pub fn entry(pair: Pair) -> u32 {
    let kind = match pair.kind {
        Kind::PointTriangle => "0",
        Kind::EdgeEdge => "1",
    };
    u32::from_str_radix(&format!("{kind}{:010b}{:010b}", pair.first, pair.second), 2).expect("21 bits")
}

/// The list as its entries.
pub fn list(slices: Slices, room: usize) -> Result<Vec<u32>, Refusal> {
    let scene = scene(slices)?;
    Ok(listing::list(&scene, room)?.into_iter().map(entry).collect())
}

/// A scene as the numbers that a caller lends.
pub fn flat(scene: &Scene) -> Flat {
    let numbers = |places: &[usize]| places.iter().map(|&v| v as u64).collect::<Vec<u64>>();
    Flat {
        positions: scene.vertices.concat(),
        edges: numbers(&scene.edges.concat()),
        triangles: numbers(&scene.triangles.concat()),
        seams: numbers(&scene.seams.concat()),
    }
}

#[derive(Clone, Debug, Default, PartialEq, Eq)]
pub struct Flat {
    pub positions: Vec<i64>,
    pub edges: Vec<u64>,
    pub triangles: Vec<u64>,
    pub seams: Vec<u64>,
}

impl Flat {
    pub fn slices(&self) -> Slices<'_> {
        Slices { positions: &self.positions, edges: &self.edges, triangles: &self.triangles, seams: &self.seams }
    }
}
