//! The sorts of questions about a scene that keeps its boxes, beside those that every call with a scene has.

use super::expected;
use super::harm::{of_scene, stands_for, SCENE_CHECKS};
use super::question::*;
use crate::calls::stored::{self, Wrong, BOX_NUMBERS};
use crate::list::listing;
use crate::scene::refusal::*;
use crate::scene::*;

const KINDS: [&str; 3] = ["vertex", "edge", "triangle"];

/// What a move may be refused for beside the scene, in the order of the checks.
const MOVE_FAULTS: [(u64, &str); 3] = [
    (NOT_THERE, "a vertex that is not there"),
    (OUT_OF_RANGE, "new coordinates out of range"),
    (BROKEN_SEAM, "a seam that would come apart"),
];

pub fn all() -> Vec<String> {
    let mut out = Vec::new();
    for call in STORED_CALLS {
        let name = call.name();
        out.extend(
            ["12", "no boxes at all", "one box number too few", "boxes of just the length", "longer boxes"]
                .map(|sort| format!("{name}: {sort}")),
        );
        out.extend(
            ["fewer boxes than a scene may have", "12 for boxes that would do for this scene"]
                .map(|sort| format!("{name}: {sort}")),
        );
        out.extend(SCENE_CHECKS.map(|number| format!("{name}: 12 before {number}")));
        if call.looks_over_boxes() {
            out.extend(KINDS.into_iter().flat_map(|kind| (0..6).map(move |number| stale(call, kind, number))));
            out.extend(["17 of a part in no listed pair", "17 by one step", "17 by much"].map(|sort| format!("{name}: {sort}")));
            out.extend(SCENE_CHECKS.map(|number| format!("{name}: {number} before 17")));
        }
        if call.lists() {
            out.extend([LENT_TOO_SHORT, STALE_BOX].map(|number| format!("{name}: {number} before 7")));
        }
    }
    out.extend(of_moves().into_iter().map(|sort| format!("move_vertex: {sort}")));
    out
}

fn stale(call: Call, kind: &str, number: usize) -> String {
    format!("{}: 17, number {number} of the box of a {kind}", call.name())
}

fn of_moves() -> Vec<String> {
    let mut out: Vec<String> = MOVE_FAULTS.iter().map(|(number, fault)| format!("{number}, {fault}")).collect();
    out.extend((0..6).flat_map(|place| ["too low", "too high"].map(|side| format!("number {place} of six {side}"))));
    for (number, fault) in MOVE_FAULTS {
        out.extend(SCENE_CHECKS.map(|check| format!("{check} before {number}, {fault}")));
        out.push(format!("12 before {number}, {fault}"));
    }
    out.extend(["5 before 2", "2 before 15"].map(String::from));
    for side in ["the vertex replaced", "the one stood for"] {
        out.extend(["start", "end"].map(|time| format!("15, {side}, at the {time}")));
        out.push(format!("{side}, to its own place"));
    }
    out.extend(["first end", "second end", "first corner", "second corner", "third corner", "in no part"].map(String::from));
    out.extend(["a stale box of another part stays", "a stale box of its own is mended", "every box stale"].map(String::from));
    out.extend(["a box of its part grows", "a box of its part shrinks", "to its own place"].map(String::from));
    out
}

pub fn of(question: &Question, answer: &Answer) -> Vec<String> {
    let (call, lent, given) = (question.call, &question.lent, answer.refusal());
    let mut out = Vec::new();
    let mut add = |holds: bool, sort: String| out.extend(holds.then(|| format!("{}: {sort}", call.name())));
    let length = lent.boxes.len();
    let needed = lent.positions.len() + 6 * (lent.edges.len() / 2 + lent.triangles.len() / 3);
    let short = given == LENT_TOO_SHORT;
    let faults = of_scene(lent);
    add(short, "12".into());
    add(short && length == 0, "no boxes at all".into());
    add(short && length + 1 == BOX_NUMBERS, "one box number too few".into());
    add(short && length > 0, "fewer boxes than a scene may have".into());
    add(short && faults.is_empty() && length >= needed, "12 for boxes that would do for this scene".into());
    add(given == 0 && length == BOX_NUMBERS, "boxes of just the length".into());
    add(given == 0 && length > BOX_NUMBERS, "longer boxes".into());
    for (number, _) in faults.iter().filter(|_| short) {
        add(true, format!("12 before {number}"));
    }
    let refused_scene = SCENE_CHECKS.contains(&given) && !faults.is_empty();
    if call.looks_over_boxes() {
        add(refused_scene && first_is_stale(lent), format!("{given} before 17"));
        if given == STALE_BOX {
            out.extend(of_stale(question));
        }
    }
    let no_room = call.lists() && (lent.list.is_empty() || (call.settles_a_scene() && lent.words.is_empty()));
    let mut add = |holds: bool, sort: String| out.extend(holds.then(|| format!("{}: {sort}", call.name())));
    add(short && no_room, "12 before 7".into());
    let full = given == STALE_BOX && call.lists() && no_room && !listing::listed(&expected::scene(lent).unwrap()).is_empty();
    add(full, "17 before 7".into());
    if call == Call::MoveVertex {
        let moves = of_moving(question, answer);
        let later = of_move_faults(question);
        let before =
            later.iter().filter(|_| short || refused_scene).map(|(number, fault)| format!("{given} before {number}, {fault}"));
        out.extend(moves.into_iter().chain(before).map(|sort| format!("move_vertex: {sort}")));
    }
    out
}

/// Whether the first box is not that of the first vertex, looked at on its own.
fn first_is_stale(lent: &Lent) -> bool {
    let Some(place) = lent.positions.get(..6) else { return false };
    let right = [0, 1, 2, 3, 4, 5].map(|k: usize| if k < 3 { place[k].min(place[k + 3]) } else { place[k].max(place[k - 3]) });
    lent.boxes.get(..6) != Some(&right[..])
}

fn of_stale(question: &Question) -> Vec<String> {
    let (call, lent) = (question.call, &question.lent);
    let scene = expected::scene(lent).expect("17 is of a scene that is one");
    let right = stored::boxes(&scene, Wrong::None);
    let places: Vec<usize> = (0..right.len()).filter(|&place| lent.boxes[place] as i64 != right[place]).collect();
    let [place] = places[..] else { return vec![] };
    let part = place / 6;
    let (vertices, edges) = (scene.vertices.len(), scene.edges.len());
    let kind = KINDS[(part >= vertices) as usize + (part >= vertices + edges) as usize];
    let mut out = vec![stale(call, kind, place % 6)];
    let by = (lent.boxes[place] as i64 - right[place]).abs();
    let listed = |pair: &Pair| match pair.kind {
        Kind::PointTriangle => pair.first == part || vertices + edges + pair.second == part,
        Kind::EdgeEdge => vertices + pair.first == part || vertices + pair.second == part,
    };
    let mut add = |holds: bool, sort: &str| out.extend(holds.then(|| format!("{}: {sort}", call.name())));
    add(by == 1, "17 by one step");
    add(by > 1_000, "17 by much");
    add(vertices < 100 && !listing::listed(&scene).iter().any(listed), "17 of a part in no listed pair");
    out
}

/// What a move would be refused for beside its scene, whether or not the scene is one.
fn of_move_faults(question: &Question) -> Vec<(u64, &'static str)> {
    let (lent, vertex) = (&question.lent, question.asked[0]);
    let vertices = lent.positions.len() as u64 / 6;
    let limit = COORDINATE_LIMIT as i32;
    let there = |seam: &[u16]| seam.iter().all(|&v| (v as u64) < vertices);
    let place = |v: u16| lent.positions.get(6 * v as usize..6 * v as usize + 6).unwrap_or(&[]);
    let torn = |seam: &[u16]| {
        let [i, j] = [seam[0], seam[1]];
        (i as u64 == vertex && i != j && place(j) != lent.coordinates)
            || (j as u64 == vertex && i != j && place(i) != lent.coordinates)
    };
    let holds = [
        vertex >= vertices,
        lent.coordinates.iter().any(|&n| !(-limit..=limit).contains(&n)),
        lent.seams.chunks_exact(2).any(|seam| there(seam) && torn(seam)),
    ];
    MOVE_FAULTS.into_iter().zip(holds).filter(|(_, holds)| *holds).map(|(fault, _)| fault).collect()
}

fn of_moving(question: &Question, answer: &Answer) -> Vec<String> {
    let (lent, vertex, given) = (&question.lent, question.asked[0], answer.refusal());
    let Ok(scene) = expected::scene(lent) else { return vec![] };
    if given == LENT_TOO_SHORT {
        return vec![];
    }
    let faults = of_move_faults(question);
    let mut out = Vec::new();
    let mut add = |holds: bool, sort: String| out.extend(holds.then_some(sort));
    if let [(number, fault)] = faults[..] {
        add(true, format!("{number}, {fault}"));
    }
    let has = |number: u64| faults.iter().any(|fault| fault.0 == number);
    add(given == NOT_THERE && has(OUT_OF_RANGE), "5 before 2".into());
    add(given == OUT_OF_RANGE && has(BROKEN_SEAM), "2 before 15".into());
    let limit = COORDINATE_LIMIT as i32;
    let outside: Vec<usize> = (0..6).filter(|&k| !(-limit..=limit).contains(&lent.coordinates[k])).collect();
    if let (OUT_OF_RANGE, [place]) = (given, &outside[..]) {
        add(true, format!("number {place} of six {}", if lent.coordinates[*place] < 0 { "too low" } else { "too high" }));
    }
    if vertex >= scene.vertices.len() as u64 {
        return out;
    }
    let vertex = vertex as usize;
    let own: Vec<i32> = scene.vertices[vertex].iter().map(|&n| n as i32).collect();
    let side = match (stands_for(&lent.seams, vertex as u16) as usize != vertex, scene.seams.iter().any(|seam| seam[1] == vertex))
    {
        (true, _) => Some("the vertex replaced"),
        (_, true) => Some("the one stood for"),
        _ => None,
    };
    if let Some(side) = side {
        let torn = given == BROKEN_SEAM;
        add(torn && own[..3] != lent.coordinates[..3], format!("15, {side}, at the start"));
        add(torn && own[3..] != lent.coordinates[3..], format!("15, {side}, at the end"));
        add(given == 0, format!("{side}, to its own place"));
    }
    if given == 0 {
        out.extend(of_moved(lent, &scene, vertex));
    }
    out
}

/// Which parts a vertex that was moved has, and what was stored of them.
fn of_moved(lent: &Lent, scene: &Scene, vertex: usize) -> Vec<String> {
    let mut out: Vec<String> = Vec::new();
    let mut add = |holds: bool, sort: &str| out.extend(holds.then(|| sort.to_string()));
    let at = |k: usize| scene.triangles.iter().any(|corners| corners[k] == vertex);
    let ends = |k: usize| scene.edges.iter().any(|ends| ends[k] == vertex);
    add(ends(0), "first end");
    add(ends(1), "second end");
    ["first corner", "second corner", "third corner"].iter().enumerate().for_each(|(k, sort)| add(at(k), sort));
    add(!scene.parts().any(|part| part.contains(&vertex)), "in no part");
    add(scene.vertices[vertex].iter().zip(&lent.coordinates).all(|(&a, &b)| a == b as i64), "to its own place");
    let mut after = scene.clone();
    after.vertices[vertex] = std::array::from_fn(|k| lent.coordinates[k] as i64);
    let [before, right] = [scene, &after].map(|scene| stored::boxes(scene, Wrong::None));
    let parts = stored::parts(scene);
    let stale = |part: usize| (0..6).any(|k| lent.boxes[6 * part + k] as i64 != before[6 * part + k]);
    let own = |part: usize| parts[part].contains(&vertex);
    let places = 0..parts.len();
    add(places.clone().any(|part| stale(part) && !own(part)), "a stale box of another part stays");
    add(places.clone().any(|part| stale(part) && own(part)), "a stale box of its own is mended");
    add(places.clone().all(stale), "every box stale");
    let larger = |part: usize, from: &[i64], than: &[i64]| {
        (0..6).any(|k| if k < 3 { from[6 * part + k] < than[6 * part + k] } else { from[6 * part + k] > than[6 * part + k] })
    };
    add(places.clone().any(|part| parts[part].len() > 1 && larger(part, &right, &before)), "a box of its part grows");
    add(places.clone().any(|part| parts[part].len() > 1 && larger(part, &before, &right)), "a box of its part shrinks");
    out
}
