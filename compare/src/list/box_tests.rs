//! How many boxes the pt part of the list tests, by §12 of document 02: 'Group triangles in runs of 16 by place, keep each run's joint box,
//! and skip a run whose box misses the point's. Each vertex tests every run's box once, and each triangle's box once in a run that meets,
//! sharing a vertex or not.' Beside it counts that are wrong in one respect each, and scenes on which they differ.

use crate::list::listing;
use crate::scene::Scene;
use std::ops::Range;

/// The counts of triangles at which the runs change: none, one, a run less one, a run, a run and one, and all that there may be.
pub const SIZES: [usize; 6] = [0, 1, 15, 16, 17, 512];

/// A list that is longer than this is walked twice by the library.
pub const ONE_PASS: usize = 8_192;

/// On each axis the smallest and the largest value.
type Swept = [(i64, i64); 3];

fn swept(scene: &Scene, vertices: impl Iterator<Item = usize> + Clone) -> Swept {
    [0, 1, 2].map(|axis| {
        let values = vertices.clone().flat_map(|v| [scene.vertices[v][axis], scene.vertices[v][axis + 3]]);
        (values.clone().min().unwrap(), values.max().unwrap())
    })
}

fn meet(a: &Swept, b: &Swept) -> bool {
    a.iter().zip(b).all(|(a, b)| a.0 <= b.1 && b.0 <= a.1)
}

/// The joint box of the triangles in these places.
fn joint(scene: &Scene, places: Range<usize>) -> Swept {
    swept(scene, scene.triangles[places].iter().flatten().copied())
}

/// The walk: runs of so many triangles, each with a box, and the triangles that are counted in a run that meets.
fn walked(scene: &Scene, size: usize, run_box: impl Fn(Range<usize>) -> Swept, counted: impl Fn(usize, usize) -> bool) -> usize {
    let triangles = scene.triangles.len();
    let places = |run: usize| run * size..triangles.min(run * size + size);
    let runs: Vec<(Range<usize>, Swept)> = (0..triangles.div_ceil(size)).map(|run| (places(run), run_box(places(run)))).collect();
    let of_vertex = |vertex: usize| -> usize {
        let point = swept(scene, std::iter::once(vertex));
        let of_run = |(places, joint): &(Range<usize>, Swept)| {
            1 + if meet(&point, joint) { places.clone().filter(|&triangle| counted(vertex, triangle)).count() } else { 0 }
        };
        runs.iter().map(of_run).sum()
    };
    (0..scene.vertices.len()).map(of_vertex).sum()
}

pub fn of(scene: &Scene) -> usize {
    walked(scene, 16, |places| joint(scene, places), |_, _| true)
}

/// Vertices times (triangles + runs).
pub fn most(scene: &Scene) -> usize {
    scene.vertices.len() * (scene.triangles.len() + scene.triangles.len().div_ceil(16))
}

pub struct Wrong {
    pub name: &'static str,
    pub count: fn(&Scene) -> usize,
}

pub fn wrong() -> Vec<Wrong> {
    let wrong = |name, count| Wrong { name, count };
    vec![
        wrong("a last run that is not full has the box of the last 16 triangles", |scene| {
            walked(scene, 16, |places| joint(scene, places.end.saturating_sub(16)..places.end), |_, _| true)
        }),
        wrong("runs of 15", |scene| walked(scene, 15, |places| joint(scene, places), |_, _| true)),
        wrong("triangles that share the vertex are not counted", |scene| {
            walked(scene, 16, |places| joint(scene, places), |vertex, triangle| !scene.triangles[triangle].contains(&vertex))
        }),
        wrong("counted in both passes where the list is long", |scene| {
            of(scene) * if listing::listed(scene).len() > ONE_PASS { 2 } else { 1 }
        }),
        wrong("counted for counting and for writing", |scene| 2 * of(scene)),
        wrong("a run is skipped by its first triangle's box", |scene| {
            walked(scene, 16, |places| joint(scene, places.start..places.start + 1), |_, _| true)
        }),
        wrong("the last triangle of a run is left out of its box", |scene| {
            walked(scene, 16, |places| joint(scene, places.start..(places.end - 1).max(places.start + 1)), |_, _| true)
        }),
        wrong("a run is skipped by the box of the run in front of it", |scene| {
            walked(
                scene,
                16,
                |places| joint(scene, places.start.saturating_sub(16)..places.end.min(places.start.max(16))),
                |_, _| true,
            )
        }),
        wrong("no run is skipped", most),
        wrong("the tests of the runs' boxes are not counted", |scene| {
            of(scene) - scene.vertices.len() * scene.triangles.len().div_ceil(16)
        }),
    ]
}

/// A strip of so many triangles that waves as it goes along an axis; the last ones of 512 go back to its begin.
pub fn strip(triangles: usize) -> Scene {
    let vertices = (triangles + 2).min(512);
    let place = |v: usize| {
        let (x, y) = (10 * v as i64, 7 * (v % 2) as i64);
        let high = (v * v % 11) as i64 - 5;
        [x, y, high, x + 3 * high, y, -high]
    };
    Scene {
        vertices: (0..vertices).map(place).collect(),
        edges: (1..vertices).map(|v| [v - 1, v]).collect(),
        triangles: (0..triangles).map(|t| [t, t + 1, t + 2].map(|v| v % vertices)).collect(),
        seams: vec![],
    }
}

/// All of it in one place, so that no run is missed and the list is long.
pub fn heap(triangles: usize) -> Scene {
    let mut scene = strip(triangles);
    scene.vertices.iter_mut().for_each(|vertex| *vertex = [0; 6]);
    scene
}
