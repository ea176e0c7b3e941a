//! The scenes that are timed.

use compare::numbers::random::Random;
use compare::scene::{Scene, EDGE_LIMIT, TRIANGLE_LIMIT, VERTEX_LIMIT};

/// Two layers of cloth as deep in each other as layers get: a sheet falls through another, both creased. Vertices and
/// triangles, or edges alone, so that only pairs of one kind are listed; small enough that most boxes meet.
pub fn layers(random: &mut Random, columns: usize, rows: usize, step: i64, with_edges: bool) -> Scene {
    let mut scene = Scene::default();
    for (start, end) in [(0, 0), (2 * step, -2 * step)] {
        let base = scene.vertices.len();
        let at = |column: usize, row: usize| base + row * (columns + 1) + column;
        for row in 0..=rows {
            for column in 0..=columns {
                let mut around = |n: i64| n + random.between(-2 * step, 2 * step);
                let (x, y) = (column as i64 * step, row as i64 * step);
                scene.vertices.push([around(x), around(y), around(start), around(x), around(y), around(end)]);
                if !with_edges && column > 0 && row > 0 {
                    let corner = [at(column - 1, row - 1), at(column, row - 1), at(column, row), at(column - 1, row)];
                    scene.triangles.push([corner[0], corner[1], corner[2]]);
                    scene.triangles.push([corner[2], corner[3], corner[0]]);
                }
                if with_edges && column > 0 {
                    scene.edges.push([at(column - 1, row), at(column, row)]);
                }
                if with_edges && row > 0 {
                    scene.edges.push([at(column, row - 1), at(column, row)]);
                }
            }
        }
    }
    scene
}

/// Parts anywhere, moving anywhere: hardly two pairs alike.
pub fn scattered(random: &mut Random, vertices: usize, reach: i64, with_edges: bool) -> Scene {
    let places = (0..vertices).map(|_| [0; 6].map(|_| random.between(-reach, reach))).collect();
    let mut scene = Scene { vertices: places, ..Scene::default() };
    for _ in 0..vertices {
        let first = random.below(vertices - 2);
        if with_edges {
            scene.edges.push([first, first + 1 + random.below(vertices - first - 1)]);
        } else {
            scene.triangles.push([first + 1, first, first + 2]);
        }
    }
    scene
}

/// 512 vertices, 1,024 edges, 512 triangles: a wide sheet in folds, which come near each other.
pub fn full_size(random: &mut Random, fold: usize) -> Scene {
    folds(random, fold, 60, 20)
}

/// The same sheet with 255 of its vertices brought to the place of others, no two in one part, and sewn to them.
pub fn sewn_sheet(random: &mut Random) -> Scene {
    let mut scene = full_size(random, 32);
    for vertex in (VERTEX_LIMIT - 255)..VERTEX_LIMIT {
        let other = vertex - 255;
        scene.vertices[vertex] = scene.vertices[other];
        scene.seams.push([vertex, other]);
    }
    scene
}

/// Every fold goes back over the one before, `thick` higher; no place is off by more than `creased`.
fn folds(random: &mut Random, fold: usize, thick: i64, creased: i64) -> Scene {
    let (columns, rows) = (32, VERTEX_LIMIT / 32);
    let mut scene = Scene::default();
    for i in 0..VERTEX_LIMIT {
        let (column, row) = (i % columns, i / columns);
        let (layer, along) = (column / fold, column % fold);
        let x = if layer.is_multiple_of(2) { along } else { fold - 1 - along } as i64;
        let place = [100 * x, 100 * row as i64, thick * layer as i64].map(|n| n + random.between(-creased, creased));
        let moved = place.map(|n| n + random.between(-40, 40));
        scene.vertices.push([place[0], place[1], place[2], moved[0], moved[1], moved[2]]);
        let beside = if column + 1 < columns { i + 1 } else { i - 1 };
        let above = if row + 1 < rows { i + columns } else { i - columns };
        scene.edges.extend([[i, beside], [above, i]]);
        scene.triangles.push([i, beside, above]);
    }
    assert_eq!((scene.edges.len(), scene.triangles.len()), (EDGE_LIMIT, TRIANGLE_LIMIT));
    scene
}

/// The same scene with its vertices numbered anew and its edges and triangles in other places: no part stands by its neighbours.
pub fn in_random_order(random: &mut Random, scene: Scene) -> Scene {
    let mut mixed = |length: usize| {
        let mut places: Vec<usize> = (0..length).collect();
        for place in 1..length {
            places.swap(place, random.below(place + 1));
        }
        places
    };
    let (vertices, edges, triangles) = (mixed(scene.vertices.len()), mixed(scene.edges.len()), mixed(scene.triangles.len()));
    let mut number = vec![0; vertices.len()];
    vertices.iter().enumerate().for_each(|(to, &from)| number[from] = to);
    Scene {
        vertices: vertices.iter().map(|&from| scene.vertices[from]).collect(),
        edges: edges.iter().map(|&from| scene.edges[from].map(|v| number[v])).collect(),
        triangles: triangles.iter().map(|&from| scene.triangles[from].map(|v| number[v])).collect(),
        seams: vec![],
    }
}

/// Every vertex starts and ends anywhere in one place, so that nearly all boxes meet: some 680,000 pairs.
pub fn in_one_place(random: &mut Random) -> Scene {
    let mut scene = full_size(random, 32);
    scene.vertices.iter_mut().flatten().for_each(|n| *n = random.between(-1_000, 1_000));
    scene
}

/// A scene that moves, and the same at rest: each end is its start.
fn and_at_rest(scene: Scene) -> [Scene; 2] {
    let mut rest = scene.clone();
    rest.vertices.iter_mut().for_each(|vertex| vertex.copy_within(..3, 3));
    [scene, rest]
}

type Maker<T> = fn(&mut Random) -> T;

/// Full-size scenes, each moving and at rest. In the flat ones all that is listed at rest lies in one plane.
pub const RESTING: [(&str, Maker<[Scene; 2]>); 5] = [
    ("a creased sheet", |random| and_at_rest(folds(random, 32, 60, 20))),
    ("creased folds of 8 columns", |random| and_at_rest(folds(random, 8, 60, 20))),
    ("a flat sheet", |random| and_at_rest(folds(random, 32, 0, 0))),
    ("flat folds of 8 columns, one on the other", |random| and_at_rest(folds(random, 8, 0, 0))),
    ("folds of 8 columns creased in one plane", |random| and_at_rest(flattened(folds(random, 8, 0, 20)))),
];

/// The same with every start in one plane.
fn flattened(mut scene: Scene) -> Scene {
    scene.vertices.iter_mut().for_each(|vertex| vertex[2] = 0);
    scene
}

/// Full-size flat scenes that move in their plane, so that every listed pair is singular and hardly one rests: as a whole, or each vertex its own
/// way; lying across z, across x, and askew.
pub const SLIDING: [(&str, Maker<Scene>); 5] = [
    ("a flat sheet, shifted in its plane", |random| shifted(folds(random, 32, 0, 0))),
    ("flat folds, each vertex its own way in the plane", |random| in_plane(folds(random, 8, 0, 0))),
    ("creased in one plane, each its own way in it", |random| in_plane(folds(random, 8, 0, 20))),
    ("the same, the plane across x", |random| mapped(in_plane(folds(random, 8, 0, 20)), |[x, y, z]| [z, x, y])),
    ("the same, the plane askew", |random| mapped(in_plane(folds(random, 8, 0, 20)), |[x, y, _]| [x, y, x + y])),
];

fn shifted(mut scene: Scene) -> Scene {
    scene.vertices.iter_mut().for_each(|v| *v = [v[0], v[1], v[2], v[0] + 30, v[1] - 20, v[2]]);
    scene
}

fn in_plane(mut scene: Scene) -> Scene {
    scene.vertices.iter_mut().for_each(|v| *v = [v[0], v[1], 0, v[3], v[4], 0]);
    scene
}

fn mapped(mut scene: Scene, map: fn([i64; 3]) -> [i64; 3]) -> Scene {
    for v in &mut scene.vertices {
        let ([a, b, c], [d, e, f]) = (map([v[0], v[1], v[2]]), map([v[3], v[4], v[5]]));
        *v = [a, b, c, d, e, f];
    }
    scene
}

/// A sheet of 160 vertices that is creased anew in every step, in a text that has just no room for a step more.
pub fn large_steps(random: &mut Random) -> compare::series::Series {
    let (columns, rows) = (16, 10);
    let mut scene = Scene::default();
    let place = |random: &mut Random, i: usize| [4 * (i % columns) as i64, 4 * (i / columns) as i64, random.between(0, 2)];
    for i in 0..columns * rows {
        let (start, end) = (place(random, i), place(random, i));
        scene.vertices.push([start[0], start[1], start[2], end[0], end[1], end[2]]);
        let beside = if i % columns + 1 < columns { i + 1 } else { i - 1 };
        let above = if i / columns + 1 < rows { i + columns } else { i - columns };
        scene.edges.extend([[i, beside], [above, i]]);
        scene.triangles.push([i, beside, above]);
    }
    let mut series = compare::series::Series { scene, blocks: vec![] };
    while compare::series::write(&series).len() <= compare::scene::TEXT_LIMIT {
        series.blocks.push((0..columns * rows).map(|i| place(random, i)).collect());
    }
    series.blocks.pop();
    series
}
