//! Scenes from seeds. Each kind is after something that a wrong program gets wrong.

use crate::making::extremes::{flat, just_the_length, just_the_room, largest_sums, touching_boxes};
use crate::making::parts::{some, with_parts};
use crate::making::sewing::{gathered, perhaps};
use crate::making::still::{at_rest, coinciding, in_one_place, on_a_line, out_of_turn, sliding};
use crate::numbers::random::Random;
use crate::scene::*;

type Maker = fn(&mut Random) -> Scene;

pub const KINDS: [(&str, Maker); 21] = [
    ("tiny", tiny),
    ("limit", limit),
    ("touching", touching),
    ("resting", resting),
    ("random", random_size),
    ("sheets", sheets),
    ("tiny again", tiny),
    ("repeated", repeated),
    ("touching again", touching),
    ("fan", fan),
    ("flat", flat),
    ("touching boxes", touching_boxes),
    ("at rest", at_rest),
    ("sliding", sliding),
    ("on a line", on_a_line),
    ("in one place", in_one_place),
    ("coinciding", coinciding),
    ("out of turn", out_of_turn),
    ("largest sums", largest_sums),
    ("sewn sheets", sewn_sheets),
    // last: tests that look at every pair leave the last kind out, since a crowd has hundreds of thousands
    ("crowd or sizes", crowd_or_sizes),
];

pub fn kind_name(seed: u64) -> &'static str {
    KINDS[(seed % KINDS.len() as u64) as usize].0
}

/// The kinds take turns, so that any run of seeds has them all. Two scenes in three of each kind have seams; the last kind has its own.
pub fn scene(seed: u64) -> Scene {
    let mut random = Random::new(seed);
    let kind = (seed % KINDS.len() as u64) as usize;
    let made = KINDS[kind].1(&mut random);
    if kind + 1 == KINDS.len() {
        return made;
    }
    perhaps(&mut Random::new(seed ^ 0x5ea4), made)
}

fn vertex(random: &mut Random, reach: i64) -> [i64; 6] {
    [0; 6].map(|_| random.between(-reach, reach))
}

/// So few places that flat, parallel and touching cases are common; now and then nothing moves.
fn tiny(random: &mut Random) -> Scene {
    let reach = random.between(0, 3);
    let vertices = (0..random.below(11)).map(|_| {
        let mut v = vertex(random, reach);
        if random.chance(6) {
            v.copy_within(..3, 3);
        }
        v
    });
    let vertices = vertices.collect();
    let (edges, triangles) = (random.below(8), random.below(6));
    with_parts(random, vertices, edges, triangles)
}

/// The largest numbers that are taken, where a sum that is too narrow would show.
fn limit(random: &mut Random) -> Scene {
    let far = COORDINATE_LIMIT;
    let vertices = (0..random.between(4, 12)).map(|_| {
        [0; 6].map(|_| match random.below(8) {
            0 => random.between(-1, 1),
            1 => random.between(-far, far),
            2 => random.pick(&[far - 1, 1 - far]),
            _ => random.pick(&[far, -far]),
        })
    });
    let vertices = vertices.collect();
    with_parts(random, vertices, 7, 5)
}

fn random_size(random: &mut Random) -> Scene {
    let reach = random.pick(&[4, 9, 99, 9_999, COORDINATE_LIMIT]);
    let vertices = (0..random.between(4, 24)).map(|_| vertex(random, reach)).collect();
    let (edges, triangles) = (random.below(20), random.below(16));
    with_parts(random, vertices, edges, triangles)
}

/// Two parts that meet halfway on the line from a start corner to an end corner of each, so that most weights are 0;
/// then, at times, one number off by 1. A zero weight, and the smallest step beyond it.
fn touching(random: &mut Random) -> Scene {
    let reach = random.pick(&[3, 50, COORDINATE_LIMIT / 3]);
    let mut scene = Scene { vertices: (0..8).map(|_| vertex(random, reach)).collect(), ..Scene::default() };
    let all: [usize; 8] = some(random, 8);
    scene.triangles.push([all[0], all[1], all[2]]);
    scene.edges.extend([[all[4], all[5]], [all[6], all[7]]]);
    // the point's end, or the second edge's, is set so that the two lines have one middle
    let (start_of, end_of) = (all[random.below(3)], all[random.below(3)]);
    join_middles(&mut scene, [start_of, end_of], [all[3], all[3]]);
    let (here, there) = (random.pick(&[[4, 5], [5, 4], [4, 4]]), random.pick(&[[6, 7], [7, 6], [7, 7]]));
    join_middles(&mut scene, here.map(|i| all[i]), there.map(|i| all[i]));
    if random.chance(2) {
        let (vertex, place) = (random.below(8), random.below(6));
        scene.vertices[vertex][place] += random.pick(&[1, -1]);
    }
    if random.chance(3) {
        scene.edges.swap(0, 1);
    }
    scene
}

/// Puts the end of `there[1]` where the middle from the start of `there[0]` to it is the middle of the other line.
fn join_middles(scene: &mut Scene, here: [usize; 2], there: [usize; 2]) {
    for axis in 0..3 {
        let twice = scene.vertices[here[0]][axis] + scene.vertices[here[1]][axis + 3];
        scene.vertices[there[1]][axis + 3] = twice - scene.vertices[there[0]][axis];
    }
}

/// A sheet of cloth: columns by rows of squares, each cut in two, its edges along the rows and columns.
fn add_sheet(random: &mut Random, scene: &mut Scene, columns: usize, rows: usize, place: &dyn Fn(i64, i64) -> [i64; 6]) {
    let base = scene.vertices.len();
    let at = |column: usize, row: usize| base + row * (columns + 1) + column;
    for row in 0..=rows {
        for column in 0..=columns {
            scene.vertices.push(place(column as i64, row as i64));
            if column > 0 {
                scene.edges.push([at(column - 1, row), at(column, row)]);
            }
            if row > 0 {
                scene.edges.push([at(column, row), at(column, row - 1)]);
            }
            if column > 0 && row > 0 {
                let corner = [at(column - 1, row - 1), at(column, row - 1), at(column, row), at(column - 1, row)];
                let turn = random.below(2);
                scene.triangles.push([corner[turn], corner[turn + 1], corner[turn + 2]]);
                scene.triangles.push([corner[turn + 2], corner[(turn + 3) % 4], corner[turn]]);
            }
        }
    }
}

/// Cloth that lies on cloth, at rest or carried along: singular everywhere, but for the few vertices that move.
fn resting(random: &mut Random) -> Scene {
    let mut scene = Scene::default();
    let carried = random.pick(&[0, 0, 3]);
    let still = |x: i64, y: i64, z: i64| [x, y, z, x + carried, y, z];
    let (columns, rows) = (1 + random.below(3), 1 + random.below(3));
    add_sheet(random, &mut scene, columns, rows, &|column, row| still(4 * column, 4 * row, 0));
    let (lift, aside) = (random.pick(&[0, 0, 1]), random.between(0, 3));
    let (columns, rows) = (1 + random.below(2), 1 + random.below(2));
    add_sheet(random, &mut scene, columns, rows, &|column, row| still(3 * column + aside, 3 * row + aside, lift));
    for _ in 0..random.below(3) {
        let (moved, place) = (random.below(scene.vertices.len()), random.below(6));
        scene.vertices[moved][place] += random.between(-2, 2);
    }
    scene
}

/// A sheet falls through another.
fn sheets(random: &mut Random) -> Scene {
    let mut scene = Scene::default();
    let step = random.pick(&[2, 10, 1000, 50_000]);
    let wobble = random.clone();
    let place = |height: i64, depth: i64| {
        let wobble = wobble.clone();
        move |column: i64, row: i64| {
            let mut own = Random::new(wobble.clone().next() ^ (column * 64 + row + height) as u64);
            let mut around = |n: i64| n + own.between(-step / 2, step / 2);
            [around(column * step), around(row * step), around(height), around(column * step), around(row * step), around(depth)]
        }
    };
    let (columns, rows) = (1 + random.below(4), 1 + random.below(4));
    add_sheet(random, &mut scene, columns, rows, &place(0, 0));
    let (columns, rows) = (1 + random.below(3), 1 + random.below(3));
    add_sheet(random, &mut scene, columns, rows, &place(step, -step));
    scene
}

/// A sheet falls through two others that have a border in common: sewn there from end to end, in places, or not at all.
fn sewn_sheets(random: &mut Random) -> Scene {
    let mut scene = Scene::default();
    let step = random.pick(&[2, 10, 1000, 50_000]);
    let wobble = random.next();
    let place = |height: i64, depth: i64, aside: i64| {
        move |column: i64, row: i64| {
            let column = column + aside;
            let mut own = Random::new(wobble ^ (column * 64 + row + height) as u64);
            let mut around = |n: i64| n + own.between(-step / 2, step / 2);
            [around(column * step), around(row * step), around(height), around(column * step), around(row * step), around(depth)]
        }
    };
    let (columns, beside, rows) = (1 + random.below(2), 1 + random.below(2), 1 + random.below(3));
    add_sheet(random, &mut scene, columns, rows, &place(0, 0, 0));
    let base = scene.vertices.len();
    add_sheet(random, &mut scene, beside, rows, &place(0, 0, columns as i64));
    let border = (0..=rows).map(|row| [base + row * (beside + 1), row * (columns + 1) + columns]);
    let seldom = random.pick(&[1, 1, 2, 1_000]);
    scene.seams = border.filter(|_| random.chance(seldom)).collect();
    let falling = random.below(3);
    add_sheet(random, &mut scene, falling.max(1), 1, &place(step, -step, columns as i64 - 1));
    scene
}

/// Edges and triangles that stand in the scene more than once, ends and corners in another order.
fn repeated(random: &mut Random) -> Scene {
    let mut scene = tiny(random);
    for _ in 0..random.below(6) {
        if !scene.edges.is_empty() {
            let [a, b] = random.pick(&scene.edges);
            scene.edges.push(random.pick(&[[a, b], [b, a]]));
        }
        if !scene.triangles.is_empty() {
            let [a, b, c] = random.pick(&scene.triangles);
            scene.triangles.push(random.pick(&[[a, b, c], [b, c, a], [c, b, a]]));
        }
    }
    scene
}

/// Triangles and edges around one vertex, which they all share, and some loose vertices.
fn fan(random: &mut Random) -> Scene {
    let around = random.between(3, 9) as usize;
    let mut scene = Scene { vertices: (0..around + 4).map(|_| vertex(random, 6)).collect(), ..Scene::default() };
    let hub = random.below(around + 1);
    let rim: Vec<usize> = (0..=around).filter(|&v| v != hub).collect();
    for (i, &v) in rim.iter().enumerate() {
        let next = rim[(i + 1) % rim.len()];
        scene.edges.extend([[hub, v], [v, next]]);
        scene.triangles.push(random.pick(&[[hub, v, next], [next, hub, v], [v, next, hub]]));
    }
    scene.edges.push([around + 1, around + 2]);
    scene
}

/// The scenes that take long to compare take their turn seldom.
fn crowd_or_sizes(random: &mut Random) -> Scene {
    match random.below(8) {
        0 => {
            let full = sizes(random);
            gathered(random, full, 64 + 8 * 32, 2 * 32)
        }
        1 => crowd(random),
        2 => just_the_room(random),
        3 => just_the_length(random),
        _ => {
            let sheets = sheets(random);
            perhaps(random, sheets)
        }
    }
}

/// Every box has the origin in it, so that all pairs without a shared vertex are listed; their number is near the
/// report's room, on either side of it.
fn crowd(random: &mut Random) -> Scene {
    let points = 30 + random.below(5);
    let through = |random: &mut Random| {
        let mut v = [0; 6];
        for axis in 0..3 {
            let ends = [-random.between(0, 9), random.between(0, 9)];
            let turn = random.below(2);
            (v[axis], v[axis + 3]) = (ends[turn], ends[1 - turn]);
        }
        v
    };
    let mut scene = Scene { vertices: (0..points + 3).map(|_| through(random)).collect(), ..Scene::default() };
    scene.triangles = vec![[2, 0, 1]; REPORT_ROOM / points];
    scene.edges = (0..random.below(12)).map(|_| some(random, points + 3)).collect();
    gathered(random, scene, 20, 15)
}

/// As many records as there may be, most of them far from each other: one wide sheet, creased a little.
pub fn sizes(random: &mut Random) -> Scene {
    let (columns, rows) = (32, VERTEX_LIMIT / 32);
    let mut scene = Scene::default();
    for i in 0..VERTEX_LIMIT {
        let (x, y) = (i % columns, i / columns);
        let place = [4 * x as i64, 4 * y as i64, random.between(0, 1)];
        let moved = place.map(|n| n + random.between(-1, 1));
        scene.vertices.push([place[0], place[1], place[2], moved[0], moved[1], moved[2]]);
        let beside = if x + 1 < columns { i + 1 } else { i - 1 };
        let above = if y + 1 < rows { i + columns } else { i - columns };
        scene.edges.extend([[i, beside], [above, i]]);
        scene.triangles.push(random.pick(&[[i, beside, above], [above, i, beside], [beside, i, above]]));
    }
    scene
}

/// The same scene with ends and corners written in another order, which must change nothing.
pub fn rewritten(random: &mut Random, scene: &Scene) -> Scene {
    let mut out = scene.clone();
    out.edges.iter_mut().for_each(|edge| edge.rotate_left(random.below(2)));
    for triangle in &mut out.triangles {
        triangle.rotate_left(random.below(3));
        if random.chance(2) {
            triangle.swap(0, 1);
        }
    }
    out
}
