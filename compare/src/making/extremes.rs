//! Scenes at an edge of the rules: everything in one plane or on one line, boxes that only touch, the largest sums of
//! determinants, lists of just the room and one more, texts of just the length and one more.

use crate::making::sewing::gathered;
use crate::numbers::random::Random;
use crate::scene::*;
use crate::text::write;

/// Everything in one plane, or on one line, at each of the two times; often the same one.
pub fn flat(random: &mut Random) -> Scene {
    let slope = |random: &mut Random| [0; 3].map(|_| random.between(-2, 2));
    let start = slope(random);
    let end = if random.chance(2) { start } else { slope(random) };
    let on_a_line = random.chance(3);
    let place = |random: &mut Random, [a, b, c]: [i64; 3]| {
        let (x, y) = (random.between(-4, 4), random.between(-4, 4));
        let y = if on_a_line { b } else { y };
        [x, y, a * x + b * y + c]
    };
    let mut scene = Scene::default();
    for _ in 0..random.between(4, 12) {
        let (from, to) = (place(random, start), place(random, end));
        scene.vertices.push([from[0], from[1], from[2], to[0], to[1], to[2]]);
    }
    let last = scene.vertices.len() - 1;
    scene.edges = (0..last).map(|v| [v, v + 1]).collect();
    scene.triangles = (0..last - 1).map(|v| random.pick(&[[v, v + 1, v + 2], [v + 2, v, v + 1]])).collect();
    scene
}

/// Two groups of parts whose boxes share a border on some axes, overlap on others and, at times, are one step apart.
pub fn touching_boxes(random: &mut Random) -> Scene {
    let size = random.pick(&[1, 2, 7, COORDINATE_LIMIT / 2]);
    let shift = [0; 3].map(|_| random.pick(&[size, size, size, -size, size / 2, size + 1]));
    let mut scene = Scene::default();
    for group in 0..2 {
        for _ in 0..4 {
            let mut axis = 0;
            let place = [0; 6].map(|_| {
                let low = if group == 0 { -size / 2 } else { -size / 2 + shift[axis % 3] };
                axis += 1;
                random.pick(&[low, low, low + size, low + size, low + size / 2])
            });
            scene.vertices.push(place.map(|n| n.clamp(-COORDINATE_LIMIT, COORDINATE_LIMIT)));
        }
        let [a, b, c, d] = [0, 1, 2, 3].map(|v| 4 * group + v);
        scene.edges.extend([[a, b], [d, c]]);
        scene.triangles.extend([[a, b, c], [d, c, b]]);
    }
    scene
}

/// Six points of a piece at corners of a cube, for which the sum over one simplex is the largest there is, five times
/// the cube of the side (a test tries every choice of corners). Those of a moving point: its start and end, then the
/// four of the tetrahedron, for each piece. Those of two edges: the three of each triangle, for each piece.
const POINT_CORNERS: [[[i64; 3]; 6]; 3] = [
    [[-1, -1, -1], [1, 1, 1], [-1, 1, 1], [1, -1, 1], [1, 1, -1], [-1, -1, -1]],
    [[-1, 1, -1], [1, -1, 1], [-1, 1, 1], [1, -1, -1], [1, 1, -1], [-1, -1, -1]],
    [[1, -1, -1], [-1, 1, 1], [-1, 1, 1], [1, -1, 1], [1, 1, -1], [-1, -1, -1]],
];

/// Which vertex, and at which time, each of the six points is: the point is vertex 3, the triangle 0 1 2.
const POINT_PLACES: [[(usize, usize); 6]; 3] = [
    [(3, 0), (3, 3), (0, 0), (1, 0), (2, 0), (2, 3)],
    [(3, 0), (3, 3), (0, 0), (1, 0), (1, 3), (2, 3)],
    [(3, 0), (3, 3), (0, 0), (0, 3), (1, 3), (2, 3)],
];

/// The base's start and end, the other point of the first triangle, then the three of the second.
const EDGE_CORNERS: [[[i64; 3]; 6]; 4] = [
    [[-1, -1, 1], [1, 1, 1], [-1, 1, -1], [-1, 1, 1], [1, -1, -1], [-1, -1, -1]],
    [[-1, 1, 1], [1, -1, 1], [1, -1, -1], [1, -1, 1], [1, 1, -1], [-1, -1, -1]],
    [[-1, -1, -1], [1, -1, 1], [1, 1, -1], [-1, 1, 1], [1, -1, -1], [-1, -1, -1]],
    [[-1, 1, -1], [-1, 1, 1], [1, -1, -1], [1, -1, 1], [1, 1, -1], [-1, -1, -1]],
];

/// The edges are 0 1 and 2 3: AA, AB, BA, BB.
const EDGE_PLACES: [[(usize, usize); 6]; 4] = [
    [(1, 0), (1, 3), (0, 0), (2, 0), (3, 0), (3, 3)],
    [(1, 0), (1, 3), (0, 0), (2, 0), (2, 3), (3, 3)],
    [(0, 0), (0, 3), (1, 3), (2, 0), (3, 0), (3, 3)],
    [(0, 0), (0, 3), (1, 3), (2, 0), (2, 3), (3, 3)],
];

/// Every coordinate at the limit, and one piece whose sum of determinants is the largest there is: of a point and a
/// triangle, or of two edges. At times one number is a step less.
pub fn largest_sums(random: &mut Random) -> Scene {
    let far = COORDINATE_LIMIT;
    let mut scene = Scene { edges: vec![[0, 1], [2, 3]], triangles: vec![[0, 1, 2]], ..Scene::default() };
    scene.vertices = (0..4).map(|_| [0; 6].map(|_| random.pick(&[far, -far]))).collect();
    let (corners, places) = match random.below(7) {
        piece @ 0..3 => (POINT_CORNERS[piece], POINT_PLACES[piece]),
        piece => (EDGE_CORNERS[piece - 3], EDGE_PLACES[piece - 3]),
    };
    // a cube's corners, turned and mirrored
    let axes = random.pick(&[[0, 1, 2], [0, 2, 1], [1, 0, 2], [1, 2, 0], [2, 0, 1], [2, 1, 0]]);
    let sides = [0; 3].map(|_| random.pick(&[far, -far]));
    for (corner, (vertex, time)) in corners.into_iter().zip(places) {
        for axis in 0..3 {
            scene.vertices[vertex][time + axis] = sides[axis] * corner[axes[axis]];
        }
    }
    if random.chance(3) {
        let (vertex, place) = (random.below(4), random.below(6));
        scene.vertices[vertex][place] -= scene.vertices[vertex][place].signum();
    }
    scene
}

/// 3,071, 3,072 or 3,073 listed pairs: every box has the origin in it.
pub fn just_the_room(random: &mut Random) -> Scene {
    let (points, triangles) = random.pick(&[(37, 83), (32, 96), (96, 32), (32, 96)]);
    let edges = random.pick(&[&[][..], &[[0, 1], [1, 2]], &[[0, 1], [3, 2]]]);
    let through = |random: &mut Random| {
        let mut v = [0; 6];
        for axis in 0..3 {
            let far = random.between(0, 9);
            (v[axis], v[axis + 3]) = random.pick(&[(-far, 1), (far, -1), (0, far)]);
        }
        v
    };
    let vertices = (0..points + 3).map(|_| through(random)).collect();
    let scene = Scene { vertices, edges: edges.to_vec(), triangles: vec![[1, 2, 0]; triangles], ..Scene::default() };
    // a vertex that is replaced keeps its own pairs, so that the count stays
    if random.chance(2) {
        gathered(random, scene, 8, 4)
    } else {
        scene
    }
}

/// A text of just the length that is taken, one byte less, or one more: a wide sheet, whose heights stand at 9999 or
/// 10000 as the length needs it.
pub fn just_the_length(random: &mut Random) -> Scene {
    let (columns, rows) = (32, VERTEX_LIMIT / 32);
    let mut scene = Scene::default();
    for i in 0..VERTEX_LIMIT {
        let (x, y) = (10_000 + 2_500 * (i % columns) as i64, 10_000 + 2_500 * (i / columns) as i64);
        scene.vertices.push([x, y, 9_999, x + random.between(-9, 9).max(0), y, 9_999]);
        let beside = if i % columns + 1 < columns { i + 1 } else { i - 1 };
        let above = if i / columns + 1 < rows { i + columns } else { i - columns };
        scene.edges.extend([[i, beside], [above, i]]);
        scene.triangles.push([beside, above, i]);
    }
    if random.chance(2) {
        scene = gathered(random, scene, 300, 64);
    }
    let wanted = TEXT_LIMIT + random.pick(&[0, 0, 1]) - random.below(2);
    let mut length = write(&scene).len();
    while length > wanted {
        let last = Scene { triangles: scene.triangles.pop().into_iter().collect(), ..Scene::default() };
        length -= write(&last).len();
    }
    for byte in 0..wanted - length {
        scene.vertices[byte / 2][[2, 5][byte % 2]] = 10_000;
    }
    scene
}

#[cfg(test)]
mod tests {
    use super::*;
    use crate::list::listing::list;
    use crate::scene::pieces::pieces;
    use crate::ways::signs::weights;

    /// The largest sum over one simplex, in cubes of the largest difference.
    fn largest(scene: &Scene, pair: Pair) -> i128 {
        let side = 2 * COORDINATE_LIMIT as i128;
        let sums = pieces(scene, pair).into_iter().map(|piece| weights::<i128>(&piece).1.abs());
        sums.max().unwrap() / (side * side * side)
    }

    /// Five cubes are reached by the corners above, of each piece, and passed by no choice of corners.
    #[test]
    fn no_sum_is_larger() {
        let far = COORDINATE_LIMIT;
        let of = |vertices: Vec<[i64; 6]>| Scene {
            vertices,
            edges: vec![[0, 1], [2, 3]],
            triangles: vec![[0, 1, 2]],
            ..Scene::default()
        };
        let shapes = POINT_CORNERS.into_iter().zip(POINT_PLACES).map(|shape| (shape, Pair::pt(3, 0)));
        let shapes = shapes.chain(EDGE_CORNERS.into_iter().zip(EDGE_PLACES).map(|shape| (shape, Pair::ee(0, 1))));
        for ((corners, places), pair) in shapes {
            let mut vertices = vec![[far; 6]; 4];
            for (corner, (vertex, time)) in corners.into_iter().zip(places) {
                (0..3).for_each(|axis| vertices[vertex][time + axis] = far * corner[axis]);
            }
            assert_eq!(largest(&of(vertices), pair), 5, "{places:?}");
        }
        let mut random = Random::new(13);
        for _ in 0..20_000 {
            let scene = of((0..4).map(|_| [0; 6].map(|_| random.pick(&[far, -far]))).collect());
            assert!(largest(&scene, Pair::pt(3, 0)).max(largest(&scene, Pair::ee(0, 1))) <= 5);
        }
    }

    #[test]
    fn just_what_they_say() {
        let (mut lengths, mut counts) = (Vec::new(), Vec::new());
        for seed in 0..40 {
            lengths.push(write(&just_the_length(&mut Random::new(seed))).len());
            counts.push(list(&just_the_room(&mut Random::new(seed)), usize::MAX).unwrap().len());
        }
        for step in [-1, 0, 1] {
            assert!(lengths.contains(&((TEXT_LIMIT as i64 + step) as usize)), "{lengths:?}");
            assert!(counts.contains(&((REPORT_ROOM as i64 + step) as usize)), "{counts:?}");
        }
        assert!(lengths.iter().all(|&length| length.abs_diff(TEXT_LIMIT) < 2), "{lengths:?}");
    }
}
