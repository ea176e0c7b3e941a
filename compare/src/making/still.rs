//! Scenes of cloth at rest or nearly so, full of singular pieces: what document 02, §1, decides.

use crate::making::parts::with_parts;
use crate::numbers::random::Random;
use crate::scene::pieces::pieces;
use crate::scene::*;
use crate::verdicts::settled::{of_pieces, Settled};
use crate::verdicts::verdict::Verdict;
use crate::ways::search::{touches, Way};

type Place = [i64; 3];

fn place(random: &mut Random, reach: i64) -> Place {
    [0; 3].map(|_| random.between(-reach, reach))
}

fn moving(start: Place, end: Place) -> [i64; 6] {
    [start[0], start[1], start[2], end[0], end[1], end[2]]
}

fn scene_of(random: &mut Random, vertices: Vec<[i64; 6]>) -> Scene {
    let (edges, triangles) = (2 + random.below(5), 1 + random.below(4));
    with_parts(random, vertices, edges, triangles)
}

/// Nothing moves, or everything moves alike. Some vertices rest in the middle of an edge or of a face, or a step beside.
pub fn at_rest(random: &mut Random) -> Scene {
    let reach = random.pick(&[1, 1, 2, 4, 9_000]);
    // halves and thirds of these are whole
    let mut starts: Vec<Place> = (0..random.between(5, 9)).map(|_| place(random, reach).map(|n| 6 * n)).collect();
    for i in 3..starts.len() {
        let [a, b, c] = [0; 3].map(|_| starts[random.below(i)]);
        starts[i] = match random.below(4) {
            0 => [0, 1, 2].map(|axis| (a[axis] + b[axis]) / 2),
            1 => [0, 1, 2].map(|axis| (a[axis] + b[axis] + c[axis]) / 3),
            _ => continue,
        };
        if random.chance(4) {
            starts[i][random.below(3)] += random.pick(&[1, -1]);
        }
    }
    let shift = random.pick(&[[0; 3], [0; 3], [1, 0, -2], [100, 100, 100]]);
    let vertices = starts.into_iter().map(|at| moving(at, [0, 1, 2].map(|axis| at[axis] + shift[axis]))).collect();
    scene_of(random, vertices)
}

/// Everything slides in one plane, in any direction, near the limit at times.
pub fn sliding(random: &mut Random) -> Scene {
    let scale = random.pick(&[1, 1, 100, 20_000]);
    let (across, along) = (place(random, 2).map(|n| scale * n), place(random, 2).map(|n| scale * n));
    let steps = random.between(1, 3);
    let mut at = || {
        let (i, j) = (random.between(-steps, steps), random.between(-steps, steps));
        [0, 1, 2].map(|axis| i * across[axis] + j * along[axis] + axis as i64)
    };
    let vertices = (0..8).map(|_| moving(at(), at())).collect();
    scene_of(random, vertices)
}

/// Everything stands on one line, and goes along it; at times to another line.
pub fn on_a_line(random: &mut Random) -> Scene {
    let scale = random.pick(&[1, 1, 30_000]);
    let along = [0; 3].map(|_| scale * random.between(-2, 2));
    let later = if random.chance(3) { place(random, 2) } else { along };
    let steps = random.between(1, 4);
    let mut on = |line: Place| {
        let step = random.between(-steps, steps);
        line.map(|n| step * n)
    };
    let vertices = (0..8).map(|_| moving(on(along), on(later))).collect();
    scene_of(random, vertices)
}

/// All starts in one place, and all ends in one; or only the ones or the others; and at times one vertex elsewhere.
pub fn in_one_place(random: &mut Random) -> Scene {
    let (start, end) = (place(random, 2), place(random, 2));
    let end = if random.chance(2) { start } else { end };
    let spread = random.below(4);
    let mut vertices: Vec<[i64; 6]> = (0..8)
        .map(|_| {
            let from = if spread == 1 { place(random, 1) } else { start };
            let to = if spread == 2 { place(random, 1) } else { end };
            moving(from, to)
        })
        .collect();
    if random.chance(2) {
        let (vertex, number) = (random.below(8), random.below(6));
        vertices[vertex][number] += random.pick(&[1, -1]);
    }
    scene_of(random, vertices)
}

/// Many vertices in few places, at either time.
pub fn coinciding(random: &mut Random) -> Scene {
    let reach = random.pick(&[1, 3, COORDINATE_LIMIT]);
    let places: Vec<Place> = (0..random.between(2, 4)).map(|_| place(random, reach)).collect();
    let stays = random.chance(3);
    let vertices = (0..9).map(|_| {
        let from = random.pick(&places);
        moving(from, if stays { from } else { random.pick(&places) })
    });
    let vertices = vertices.collect();
    scene_of(random, vertices)
}

/// How often a pair is drawn before what was found is enough.
const MOST_DRAWN: usize = 20_000;

/// Pairs that touch, where a search which takes corners of the two simplices strictly in turn finds nothing.
pub fn out_of_turn(random: &mut Random) -> Scene {
    let mut scene = Scene::default();
    let mut found = 0;
    for _ in 0..MOST_DRAWN {
        let four = four_in_a_plane(random);
        let kind = random.pick(&[Kind::PointTriangle, Kind::EdgeEdge]);
        if lost_in_turn(&alone(&four, kind), only_pair(kind)) {
            add(&mut scene, &four, kind);
            found += 1;
        }
        if found == 3 {
            break;
        }
    }
    scene
}

fn four_in_a_plane(random: &mut Random) -> [[i64; 6]; 4] {
    let (on_a_line, reach) = (random.chance(2), random.between(1, 2));
    [0; 4].map(|_| {
        let mut at = || [random.between(-reach, reach), if on_a_line { 0 } else { random.between(-reach, reach) }, 0];
        moving(at(), at())
    })
}

pub fn alone(four: &[[i64; 6]; 4], kind: Kind) -> Scene {
    let mut scene = Scene::default();
    add(&mut scene, four, kind);
    scene
}

pub fn only_pair(kind: Kind) -> Pair {
    Pair { kind, first: 0, second: (kind == Kind::EdgeEdge) as usize }
}

/// The point before the triangle's corners, the first edge before the second.
fn add(scene: &mut Scene, four: &[[i64; 6]; 4], kind: Kind) {
    let base = scene.vertices.len();
    scene.vertices.extend(four);
    match kind {
        Kind::PointTriangle => scene.triangles.push([base + 1, base + 2, base + 3]),
        Kind::EdgeEdge => scene.edges.extend([[base, base + 1], [base + 2, base + 3]]),
    }
}

/// Whether the pair is a touch that is apart where corners are taken strictly in turn.
fn lost_in_turn(scene: &Scene, pair: Pair) -> bool {
    let (pieces, words) = (pieces(scene, pair), of_pieces(scene, pair));
    let degenerate = words.iter().all(|word| word.verdict() == Verdict::Degenerate);
    degenerate && words.contains(&Settled::Touch) && !pieces.iter().any(|piece| touches(piece, Way::StrictTurn))
}
