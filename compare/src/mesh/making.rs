//! Meshes from seeds, small ones of every kind and some that no scene could be, and what is asked of them.

use super::answering::{Answering, ROW};
use super::lent::*;
use super::wrong::Wrong;
use crate::making::generate;
use crate::numbers::random::Random;
use crate::scene::refusal::*;
use crate::scene::*;

/// A mesh over the sizes of a scene comes with one seed in so many.
const SELDOM: u64 = 8;
/// Meshes with more parts are asked for words in short stretches alone.
const SMALL: usize = 60;

/// In what the words of a stretch are wanted, beside masks at random: none, each, all, and bits that stand for none.
const MASKS: [u64; 8] = [0, 1, 2, 8, 16, 27, 4, 0xffff_ffe4];

pub fn seeded(seed: u64) -> Vec<Ask> {
    let mut random = Random::new(seed ^ 0x3e54);
    let asks = about(&mut random, &drawn(seed));
    let mut out = with_rooms(&mut random, asks);
    if seed % SELDOM == 3 {
        let asks = about(&mut random, &large(&mut Random::new(seed)));
        out.extend(with_rooms(&mut random, asks));
    }
    out
}

/// Vertex numbers beyond 16 bits; parts that follow each other; a mesh of nothing; a mesh without edges, and one without triangles.
pub fn fixed() -> Vec<Ask> {
    let mut random = Random::new(0x3e55);
    let mut out = about_many_vertices(&mut random);
    let shown = generate::scene(0);
    for scene in [following(), Scene::default(), Scene { edges: vec![], ..shown.clone() }, Scene { triangles: vec![], ..shown }] {
        out.extend(about(&mut random, &scene));
    }
    out
}

/// Parts that move alike, one behind the other on all three axes: listed, and far.
fn following() -> Scene {
    let places = [[0, 0, 0], [3, 0, 1], [0, 3, 2], [9, 9, 9], [7, 9, 9]];
    let vertices = places.map(|[x, y, z]| [x, y, z, x + 20, y + 20, z + 20]).to_vec();
    Scene { vertices, edges: vec![[0, 1], [4, 3]], triangles: vec![[0, 1, 2]], seams: vec![] }
}

/// Scenes of every kind, with the edges as they were drawn, or with all sides of the triangles for edges.
pub fn drawn(seed: u64) -> Scene {
    let mut random = Random::new(seed ^ 0xd4a1);
    let scene = generate::scene(seed);
    let fits = scene.vertices.len() <= SMALL && scene.edges.len() <= SMALL && scene.triangles.len() <= SMALL;
    let scene = if fits { scene } else { generate::scene(seed % 4) };
    if random.chance(2) {
        closed(&mut random, scene)
    } else {
        scene
    }
}

/// The same with the sides of its triangles for edges, each once, either way round, in any order.
pub fn closed(random: &mut Random, scene: Scene) -> Scene {
    let mut edges: Vec<[usize; 2]> = Vec::new();
    for [a, b, c] in &scene.triangles {
        for side in [[*a, *b], [*b, *c], [*c, *a]] {
            if !edges.iter().any(|edge| *edge == side || *edge == [side[1], side[0]]) {
                edges.push(side);
            }
        }
    }
    edges.iter_mut().for_each(|edge| {
        if random.chance(2) {
            edge.swap(0, 1);
        }
    });
    shuffle(random, &mut edges);
    Scene { edges, ..scene }
}

fn shuffle<T>(random: &mut Random, numbers: &mut [T]) {
    for place in 1..numbers.len() {
        numbers.swap(place, random.below(place + 1));
    }
}

/// A sheet of more than 512 vertices that is bent, with a smaller one that falls through it, sewn along a border; vertices stand far apart, so
/// that few pairs are listed.
pub fn large(random: &mut Random) -> Scene {
    let (wide, step) = (24 + random.below(3), 1_000);
    let mut scene = Scene::default();
    sheet(random, &mut scene, [wide, 23], step, [0, 0]);
    sheet(random, &mut scene, [5, 4], step, [900, -900]);
    let (first, other) = (wide * 23, random.below(3));
    // one vertex of the small sheet stands for one of the large
    scene.vertices[first] = scene.vertices[other];
    scene.seams.push([first, other]);
    closed(random, scene)
}

/// Rows of vertices, two triangles a field, at a height that moves from one place to another.
fn sheet(random: &mut Random, scene: &mut Scene, [wide, deep]: [usize; 2], step: i64, heights: [i64; 2]) {
    let from = scene.vertices.len();
    for y in 0..deep as i64 {
        for x in 0..wide as i64 {
            let mut place = |height: i64| [step * x + random.between(-200, 200), step * y, height + random.between(-300, 300)];
            let (start, end) = (place(heights[0]), place(heights[1]));
            scene.vertices.push([start[0], start[1], start[2], end[0], end[1], end[2]]);
        }
    }
    for y in 0..deep - 1 {
        for x in 0..wide - 1 {
            let at = |dx: usize, dy: usize| from + wide * (y + dy) + x + dx;
            scene.triangles.extend([[at(0, 0), at(1, 0), at(0, 1)], [at(1, 1), at(0, 1), at(1, 0)]]);
        }
    }
}

/// A triangle, a point that goes through it and two edges that cross, all with numbers beyond 65,535; of the vertices below none is in a part.
fn about_many_vertices(random: &mut Random) -> Vec<Ask> {
    let mut scene = Scene { vertices: vec![[90_000; 6]; 66_000], ..Scene::default() };
    let places = [[0, 0, 0], [40, 0, 0], [0, 40, 0], [9, 9, 9], [9, -9, 9], [8, 8, 30], [9, 9, 9]];
    for (place, [x, y, z]) in places.into_iter().enumerate() {
        let down = if place < 3 { 0 } else { 2 * z };
        scene.vertices.push([x, y, z, x, y, z - down]);
    }
    let of = |places: &[usize]| places.iter().map(|place| 66_000 + place).collect::<Vec<usize>>();
    scene.triangles.push(of(&[0, 1, 2]).try_into().unwrap());
    scene.edges = [[0, 1], [3, 4], [5, 4]].map(|ends| of(&ends).try_into().unwrap()).to_vec();
    scene.seams.push([66_006, 66_003]);
    let rows = scene.vertices.len() + scene.edges.len();
    let mut out = vec![checked_mesh(&scene, 0), checked_mesh(&scene, 1)];
    for call in calls().into_iter().filter(|call| call.takes_rows()) {
        let end = if matches!(call, Call::Pierced(_)) { 3 } else { rows };
        out.push(ask_rows(random, call, &scene, [end - 3, end], 20));
        out.push(ask_rows(random, call, &scene, [0, end], 20));
    }
    out
}

/// Numbers that no call writes.
fn marks(length: usize) -> Vec<u32> {
    (0..length).map(|i| (i as u32).wrapping_mul(268_603_651) | 1 << 31).collect()
}

fn signed_marks(length: usize) -> Vec<i32> {
    marks(length).into_iter().map(|n| n as i32).collect()
}

/// Entries of a list rise, and these fall.
fn wide_marks(length: usize) -> Vec<u64> {
    (0..length as u64).map(|i| u64::MAX - 3 * i).collect()
}

/// The table as long as it must be, less some.
fn checked_mesh(scene: &Scene, less: usize) -> Ask {
    let mut lent = Lent::of_scene(scene);
    lent.table = marks(lent.table_room().saturating_sub(less));
    Ask { call: Call::CheckMesh, asked: [0; 3], lent }
}

/// More places than two for each entry of a small mesh.
const HELD: usize = 4_000;

/// Scratch of just the length for what is lent beside it; of places so many more, now and then, that the entries of a list are held there.
fn lend_scratch(random: &mut Random, lent: &mut Lent) {
    let more = random.pick(&[0, 0, 0, 1, 40]);
    lent.table = marks(lent.table_room() + more);
    lent.places = marks(lent.place_room() + if random.chance(4) { HELD } else { more });
    lent.boxes = signed_marks(lent.box_room() + more);
}

/// A stretch of rows, with room for so many pairs.
fn ask_rows(random: &mut Random, call: Call, scene: &Scene, [first, end]: [usize; 2], room: usize) -> Ask {
    let mut lent = Lent::of_scene(scene);
    lend_scratch(random, &mut lent);
    lend_room(call, &mut lent, [room; 3]);
    let wanted = if random.chance(2) { random.pick(&MASKS) } else { random.below(64) as u64 };
    Ask { call, asked: [first as u64, end as u64, if call.keeps() { wanted } else { 0 }], lent }
}

/// So many entries, words and rows of contacts, where the call takes them; and what is told.
fn lend_room(call: Call, lent: &mut Lent, [list, words, rows]: [usize; 3]) {
    lent.list = wide_marks(if call.lists() { list } else { 0 });
    lent.words = marks(if call.settles() { words } else { 0 }).into_iter().map(|n| n as u8 | 128).collect();
    lent.contacts = marks(if call.finds_contacts() { ROW * rows } else { 0 });
    lent.told = (0..call.told()).map(|place| u64::MAX - 7 * place as u64).collect();
}

/// Everything that is asked of one mesh.
fn about(random: &mut Random, scene: &Scene) -> Vec<Ask> {
    let mut out = vec![checked_mesh(scene, 0), checked_mesh(scene, 1)];
    out.extend(about_edges(random, scene));
    for call in calls().into_iter().filter(|call| call.takes_rows()) {
        for stretch in stretches(random, scene, call) {
            out.extend(about_stretch(random, scene, call, stretch));
        }
        out.extend(about_refusals(random, scene, call));
    }
    out
}

fn is_large(scene: &Scene) -> bool {
    scene.vertices.len() > SMALL || scene.edges.len() > SMALL
}

fn row_count(scene: &Scene, call: Call) -> usize {
    match call {
        Call::Pierced(_) => scene.edges.len(),
        _ => scene.vertices.len() + scene.edges.len(),
    }
}

/// All rows, none, those of the vertices, of the edges, and cuts at random; of a large mesh short ones where words are asked for.
fn stretches(random: &mut Random, scene: &Scene, call: Call) -> Vec<[usize; 2]> {
    let (rows, vertices) = (row_count(scene, call), scene.vertices.len());
    let mut cut = |most: usize| {
        let first = random.below(rows + 1);
        [first, first + random.below((rows - first).min(most) + 1)]
    };
    if is_large(scene) && (call.settles() || matches!(call, Call::Pierced(_))) {
        // the small sheet has the last vertices
        return vec![cut(12), [vertices.min(rows).saturating_sub(14), vertices.min(rows)], [rows.saturating_sub(9), rows]];
    }
    let mut out = vec![cut(rows), cut(3), [0, rows]];
    if random.chance(2) {
        let middle = vertices.min(rows);
        out = vec![[0, middle], [middle, rows], [middle.saturating_sub(1), rows.min(middle + 2)]];
    }
    out
}

/// With orders or without, room for all, for some, for none; rooms of the buffers that differ.
fn about_stretch(random: &mut Random, scene: &Scene, call: Call, stretch: [usize; 2]) -> Vec<Ask> {
    // how many pairs there are is not known here: rooms are tried, and those that are just enough are found from what is answered
    let rooms = if is_large(scene) { [random.below(400), 40_000] } else { [random.below(9), 2_000] };
    let mut out: Vec<Ask> = rooms.into_iter().map(|room| ask_rows(random, call, scene, stretch, room)).collect();
    for ask in &mut out {
        if random.chance(2) {
            lend_orders(random, &mut ask.lent);
        }
    }
    out
}

/// And some of them once more with just so much room as is needed, one less, and each of the buffers one short.
fn with_rooms(random: &mut Random, asks: Vec<Ask>) -> Vec<Ask> {
    let (mut answering, mut out) = (Answering::default(), Vec::new());
    for ask in asks {
        if ask.call.lists() && random.chance(3) {
            let (refused, left) = answering.answer(&ask, Wrong::Nothing);
            let known = [0, NO_ROOM].contains(&refused) && left.told[0] > 0;
            out.extend(known.then(|| with_room(random, &ask, left.told[0] as usize)));
        }
        out.push(ask);
    }
    out
}

/// With one of these rooms, where so many are needed.
fn with_room(random: &mut Random, ask: &Ask, count: usize) -> Ask {
    let less = count - 1;
    let rooms =
        random.pick(&[[count; 3], [count; 3], [less; 3], [less, count, count], [count, less, count], [count, count, less]]);
    let mut out = ask.clone();
    lend_room(ask.call, &mut out.lent, rooms);
    if ask.call.finds_contacts() {
        // a row that is not whole is no room
        out.lent.contacts.extend(marks(random.pick(&[0, 0, 4])));
    }
    out
}

fn order_of(random: &mut Random, parts: usize) -> Vec<u32> {
    let mut order: Vec<u32> = (0..parts as u32).collect();
    shuffle(random, &mut order);
    order
}

/// An order of the edges, one of the triangles, or both, and scratch for them.
fn lend_orders(random: &mut Random, lent: &mut Lent) {
    let [_, edges, triangles] = lent.counts();
    let which = random.below(3);
    if which != 1 {
        lent.edge_order = order_of(random, edges);
    }
    if which != 0 {
        lent.triangle_order = order_of(random, triangles);
    }
    lend_scratch(random, lent);
}

/// What is no order: a part twice, a number beyond, one too many, one too few.
fn spoil(random: &mut Random, order: &mut Vec<u32>) {
    let parts = order.len();
    let place = random.below(parts.max(1));
    match random.below(6) {
        0 if parts > 1 => order[place] = order[(place + 1) % parts],
        1 if parts > 0 => order[place] = parts as u32 + random.pick(&[0, 1, 1 << 16]),
        2 if parts > 0 => order[place] = u32::MAX,
        3 if parts > 1 => {
            order.pop();
        }
        4 => order.push(parts as u32),
        _ => order.push(0),
    }
}

/// Refusals, one alone or several at once.
fn about_refusals(random: &mut Random, scene: &Scene, call: Call) -> Vec<Ask> {
    let rows = row_count(scene, call) as u64;
    let faults = [LENT_TOO_SHORT, BAD_SHAPE, OUT_OF_RANGE, NO_SUCH_VERTEX, BROKEN_SEAM, VERTEX_TWICE, WRONG_ORDER, NOT_THERE];
    let mut sets: Vec<Vec<u64>> = faults.map(|fault| vec![fault]).to_vec();
    for _ in 0..6 {
        sets.push(vec![random.pick(&faults), random.pick(&faults)]);
    }
    if call.finds_contacts() {
        sets.extend(faults.map(|fault| vec![fault, BEYOND_OLD_RANGE]));
        sets.extend([vec![BEYOND_OLD_RANGE], vec![BEYOND_OLD_RANGE]]);
    }
    // a large mesh is refused as a small one is
    if is_large(scene) {
        sets.truncate(2);
    }
    let mut out = Vec::new();
    for set in sets {
        let room = random.pick(&[0, 0, 3, 900]);
        let mut ask = ask_rows(random, call, scene, [0, (rows as usize).min(8)], room);
        // 12 last, since the scratch goes by what is lent
        for fault in set.iter().copied().filter(|&fault| fault != LENT_TOO_SHORT) {
            harm(random, &mut ask, fault, rows);
        }
        lend_scratch(random, &mut ask.lent);
        if set.contains(&LENT_TOO_SHORT) {
            shorten(random, &mut ask.lent);
        }
        out.push(ask);
    }
    out
}

/// One of the three lists of the scratch one number short, or empty.
fn shorten(random: &mut Random, lent: &mut Lent) {
    let less = |random: &mut Random, room: usize| if random.chance(4) { 0 } else { room.saturating_sub(1) };
    match random.below(3) {
        0 if lent.table_room() > 0 => lent.table.truncate(less(random, lent.table_room())),
        1 if lent.place_room() > 0 => lent.places.truncate(less(random, lent.place_room())),
        _ => lent.boxes.truncate(less(random, lent.box_room())),
    }
}

/// Brings a fault in.
fn harm(random: &mut Random, ask: &mut Ask, fault: u64, rows: u64) {
    let lent = &mut ask.lent;
    let vertices = lent.counts()[0] as u32;
    let place = |random: &mut Random, length: usize| random.below(length.max(1));
    match fault {
        BAD_SHAPE => match random.below(4) {
            0 => lent.positions.push(0),
            1 => lent.edges.push(0),
            2 => lent.triangles.push(0),
            _ => lent.seams.push(0),
        },
        OUT_OF_RANGE | BEYOND_OLD_RANGE => {
            let limit = if fault == OUT_OF_RANGE { COORDINATE_LIMIT } else { FIRST_COORDINATE_LIMIT } as i32;
            let at = place(random, lent.positions.len());
            let beyond = random.pick(&[limit + 1, -limit - 1]);
            lent.positions.get_mut(at).into_iter().for_each(|coordinate| *coordinate = beyond);
        }
        NO_SUCH_VERTEX => {
            let unknown = random.pick(&[vertices, u32::MAX, vertices + (1 << 16)]);
            let list = match random.below(3) {
                0 => &mut lent.edges,
                1 => &mut lent.triangles,
                _ => &mut lent.seams,
            };
            let at = place(random, list.len());
            list.get_mut(at).into_iter().for_each(|vertex| *vertex = unknown);
        }
        BROKEN_SEAM => {
            let seam = random.pick(&[[0, 0], [0, 1], [1, 0], [2, 1]]);
            lent.seams.splice(0..0, seam);
        }
        VERTEX_TWICE => {
            let list = if random.chance(2) { &mut lent.edges } else { &mut lent.triangles };
            if let [first, second, ..] = &mut list[..] {
                *second = *first;
            }
        }
        WRONG_ORDER => {
            let [_, edges, triangles] = lent.counts();
            if random.chance(2) {
                lent.edge_order = order_of(random, edges);
                spoil(random, &mut lent.edge_order);
            } else {
                lent.triangle_order = order_of(random, triangles);
                spoil(random, &mut lent.triangle_order);
            }
        }
        _ => {
            let beyond = rows + random.pick(&[1, 2, 1 << 40]);
            [ask.asked[0], ask.asked[1]] =
                random.pick(&[[1, 0], [rows, rows.saturating_sub(1)], [0, beyond], [beyond, beyond], [beyond, 0]]);
        }
    }
}

/// A right certificate for the sides that have an edge, 0 for the others; then one that is damaged.
fn about_edges(random: &mut Random, scene: &Scene) -> Vec<Ask> {
    let mut out = Vec::new();
    for damages in [0, 0, 1, 1, 1, 2] {
        let mut made = scene.clone();
        if damages > 0 && random.chance(3) && !made.edges.is_empty() {
            // an edge a second time
            let again = random.pick(&made.edges);
            made.edges.push(if random.chance(2) { again } else { [again[1], again[0]] });
        }
        let mut lent = Lent::of_scene(&made);
        (lent.sides, lent.order) = certificate(&made);
        for _ in 0..damages {
            spoil_certificate(random, &mut lent);
        }
        lent.table = marks(lent.table_room());
        lent.places = marks(made.edges.len() + random.below(3));
        lent.told = vec![u64::MAX, 99];
        if damages == 2 {
            match random.below(3) {
                0 => lent.places.truncate(made.edges.len().saturating_sub(1)),
                1 => lent.table.truncate(lent.table_room().saturating_sub(1)),
                _ => lent.positions.push(5),
            }
        }
        out.push(Ask { call: Call::CheckEdges, asked: [0; 3], lent });
    }
    out
}

pub fn certificate(scene: &Scene) -> (Vec<u32>, Vec<u32>) {
    let rising = |&[a, b]: &[usize; 2]| (a.min(b), a.max(b));
    let sides = scene.triangles.iter().flat_map(|&[a, b, c]| [[a, b], [b, c], [c, a]]);
    let edge_of = |side: [usize; 2]| scene.edges.iter().position(|edge| rising(edge) == rising(&side)).unwrap_or(0) as u32;
    let mut order: Vec<u32> = (0..scene.edges.len() as u32).collect();
    order.sort_by_key(|&edge| rising(&scene.edges[edge as usize]));
    (sides.map(edge_of).collect(), order)
}

fn spoil_certificate(random: &mut Random, lent: &mut Lent) {
    let edges = lent.order.len();
    match random.below(6) {
        0 if !lent.sides.is_empty() => {
            let at = random.below(lent.sides.len());
            lent.sides[at] = random.pick(&[0, edges as u32, u32::MAX, (lent.sides[at] + 1) % edges.max(1) as u32]);
        }
        1 if edges > 1 => {
            let at = random.below(edges - 1);
            lent.order.swap(at, at + 1);
        }
        2 => spoil(random, &mut lent.order),
        3 => lent.sides.push(0),
        4 if !lent.sides.is_empty() => {
            lent.sides.pop();
        }
        _ if lent.triangles.len() > 2 => {
            // a corner moves to a vertex that may have no such side
            let at = random.below(lent.triangles.len());
            lent.triangles[at] = random.below(lent.positions.len() / 6) as u32;
        }
        _ => {}
    }
}
