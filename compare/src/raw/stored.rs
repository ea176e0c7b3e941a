//! Questions about a scene that keeps its boxes: chains of moves, boxes that are stale, buffers that are too short, scenes that are refused.

use super::bounds::{beyond, LONGEST_JUDGED, NO_TESTS};
use super::question::*;
use crate::calls::slices;
use crate::calls::stored::{self, parts, Moved, Wrong, BOX_NUMBERS};
use crate::list::listing;
use crate::making::cases;
use crate::numbers::random::Random;
use crate::scene::*;
use crate::text;

/// Moves of a chain, and scenes of more vertices are asked less about.
const MOVES: usize = 6;
const SMALL: usize = 100;

/// Numbers that no scene has in a box, no two alike that stand near each other.
fn marks_of_boxes(length: usize) -> Vec<i32> {
    marks_of_32(length).into_iter().map(|n| n as i32).collect()
}

/// The right boxes of a scene in front, marks behind them.
fn right_boxes(scene: &Scene, length: usize) -> Vec<i32> {
    let mut out = marks_of_boxes(length);
    let front = stored::boxes(scene, Wrong::None);
    out.iter_mut().zip(front).for_each(|(number, right)| *number = right as i32);
    out
}

/// A scene with its boxes, all of them right.
fn lent(scene: &Scene) -> Lent {
    Lent { boxes: right_boxes(scene, BOX_NUMBERS), ..Lent::of_scene(scene) }
}

/// The call with these boxes and this room; what the call does not take is not lent.
fn with_boxes(call: Call, boxed: &Lent, list: usize, words: usize) -> Question {
    let mut lent = boxed.clone();
    lent.list = marks_of_32(if call.lists() { list } else { 0 });
    lent.words = marks(if call == Call::SettleStored { words } else { 0 });
    lent.counts = if call.tells_tests() { vec![NO_TESTS] } else { vec![] };
    lent.coordinates = if call == Call::MoveVertex { vec![0; 6] } else { vec![] };
    Question::new(call, lent)
}

/// On a scene whose boxes are right.
pub fn with_room(call: Call, scene: &Scene, list: usize, words: usize) -> Question {
    with_boxes(call, &lent(scene), list, words)
}

fn moving(boxed: &Lent, vertex: u64, to: [i64; 6]) -> Question {
    let mut question = with_boxes(Call::MoveVertex, boxed, 0, 0);
    question.asked[0] = vertex;
    question.lent.coordinates = to.map(|n| n as i32).to_vec();
    question
}

/// Every place of every box of the printed scene is stale once, by one step and by much; and every corner of a scene is moved.
pub fn fixed() -> Vec<Question> {
    let scene = text::read(cases::PRINTED_SCENE.as_bytes()).unwrap();
    let mut out = Vec::new();
    for place in 0..6 * parts(&scene).len() {
        for other in [1, -1, 1 << 20, i32::MIN] {
            let mut stale = lent(&scene);
            stale.boxes[place] = stale.boxes[place].wrapping_add(other);
            let looking = STORED_CALLS.into_iter().filter(|call| call.looks_over_boxes());
            out.extend(looking.map(|call| with_boxes(call, &stale, 9, 9)));
            out.push(moving(&stale, (place % scene.vertices.len()) as u64, [3, -1, 2, 0, 7, -5]));
        }
    }
    for vertex in 0..scene.vertices.len() as u64 {
        for place in 0..6 {
            for coordinate in [COORDINATE_LIMIT, -COORDINATE_LIMIT, COORDINATE_LIMIT + 1, -COORDINATE_LIMIT - 1] {
                let mut to = scene.vertices[vertex as usize];
                to[place] = coordinate;
                out.push(moving(&lent(&scene), vertex, to));
            }
        }
    }
    out
}

/// Questions about a scene: boxes filled in, a chain of moves, lists from the boxes, boxes that are stale or too few.
pub fn about(random: &mut Random, scene: &Scene) -> Vec<Question> {
    let mut out = about_filling(random, scene);
    out.extend(about_lists(random, scene));
    let after = about_moves(random, scene, &mut out);
    if scene.vertices.len() <= SMALL {
        let count = listing::listed(&after).len();
        let room = if count <= LONGEST_JUDGED { count } else { 0 };
        let calls = [Call::CountStored, Call::ListStored, Call::SettleStored];
        out.extend(calls.map(|call| with_room(call, &after, count, room)));
        out.extend(about_seams(random, scene));
    }
    out.extend(about_stale(random, scene));
    out
}

/// Just the length, longer, too short by one, none; what was there before is overwritten in front and stays behind.
fn about_filling(random: &mut Random, scene: &Scene) -> Vec<Question> {
    let lengths = [BOX_NUMBERS, BOX_NUMBERS + 1 + random.below(60), BOX_NUMBERS - 1, 0];
    let fill = |length: usize| {
        let boxed = Lent { boxes: marks_of_boxes(length), ..Lent::of_scene(scene) };
        with_boxes(Call::FillBoxes, &boxed, 0, 0)
    };
    let mut out: Vec<Question> = lengths.map(fill).into();
    // the boxes that a scene has would be fewer; and every other call
    for call in STORED_CALLS {
        let length = random.pick(&[0, 6 * parts(scene).len(), BOX_NUMBERS - 1]).min(BOX_NUMBERS - 1);
        let boxed = Lent { boxes: right_boxes(scene, length), ..Lent::of_scene(scene) };
        out.push(with_boxes(call, &boxed, random.pick(&[0, 9]), 9));
        let longer = Lent { boxes: right_boxes(scene, BOX_NUMBERS + 7), ..Lent::of_scene(scene) };
        out.push(with_boxes(call, &longer, 0, 0));
    }
    out
}

/// Room that is just enough, one too little, none, more than enough.
fn about_lists(random: &mut Random, scene: &Scene) -> Vec<Question> {
    let boxed = lent(scene);
    let count = listing::listed(scene).len();
    let more = count + 1 + random.below(20);
    let fewer = count.saturating_sub(1);
    let mut out = vec![with_boxes(Call::CountStored, &boxed, 0, 0)];
    out.extend([count, more, fewer, 0].map(|list| with_boxes(Call::ListStored, &boxed, list, 0)));
    let mut rooms = vec![(0, 0), (fewer, count), (count, fewer), (fewer, fewer)];
    if count <= LONGEST_JUDGED {
        rooms.extend([(count, count), (more, count), (more, more)]);
    }
    out.extend(rooms.into_iter().map(|(list, words)| with_boxes(Call::SettleStored, &boxed, list, words)));
    out
}

/// Where a vertex is moved to: its own place, near it, anywhere, the place of another, or out of range in one number.
fn target(random: &mut Random, scene: &Scene, vertex: usize) -> [i64; 6] {
    let own = scene.vertices[vertex];
    let mut near = own.map(|n| (n + random.between(-3, 3)).clamp(-COORDINATE_LIMIT, COORDINATE_LIMIT));
    match random.below(6) {
        0 => own,
        1 => scene.vertices[random.below(scene.vertices.len())],
        2 => [0; 6].map(|_| random.between(-COORDINATE_LIMIT, COORDINATE_LIMIT)),
        3 => {
            near[random.below(6)] = random.pick(&[COORDINATE_LIMIT + 1, -COORDINATE_LIMIT - 1, i32::MAX as i64, i32::MIN as i64]);
            near
        }
        _ => near,
    }
}

/// A vertex that is there, or, at times, none.
fn which(random: &mut Random, scene: &Scene) -> u64 {
    match random.below(8) {
        0 => scene.vertices.len() as u64,
        1 => beyond(random, scene.vertices.len()),
        _ if scene.vertices.is_empty() => 0,
        2 | 3 if !scene.seams.is_empty() => random.pick(&random.clone().pick(&scene.seams)) as u64,
        _ => random.below(scene.vertices.len()) as u64,
    }
}

/// A chain of moves, each from where the one before left the scene and its boxes; and the scene at its end.
fn about_moves(random: &mut Random, scene: &Scene, out: &mut Vec<Question>) -> Scene {
    let mut scene = scene.clone();
    let mut boxes: Vec<i64> = right_boxes(&scene, BOX_NUMBERS).into_iter().map(i64::from).collect();
    for _ in 0..MOVES {
        let vertex = which(random, &scene);
        let there = (vertex as usize) < scene.vertices.len();
        let to = if there { target(random, &scene, vertex as usize) } else { random.pick(&[[0; 6], [COORDINATE_LIMIT + 1; 6]]) };
        let boxed = Lent { boxes: boxes.iter().map(|&n| n as i32).collect(), ..Lent::of_scene(&scene) };
        out.push(moving(&boxed, vertex, to));
        let flat = slices::flat(&scene);
        if let Ok(Moved { stored, .. }) = stored::moved(flat.slices(), &boxes, vertex, to, Wrong::None) {
            scene.vertices[vertex as usize] = to;
            boxes = stored;
        }
    }
    scene
}

/// Each of some seams, seen from either side: its two vertices moved to where they are, away at the start, away at the end, and out of range; with
/// boxes that are stale on the other side, which stay so.
fn about_seams(random: &mut Random, scene: &Scene) -> Vec<Question> {
    let mut out = Vec::new();
    for &seam in scene.seams.iter().take(3) {
        for vertex in seam {
            let own = scene.vertices[vertex];
            let step = |place: usize| {
                let mut to = own;
                to[place] += if to[place] > 0 { -1 } else { 1 };
                to
            };
            let mut far = step(0);
            far[5] = COORDINATE_LIMIT + 1;
            let mut stale = lent(scene);
            (0..6 * parts(scene).len()).for_each(|place| stale.boxes[place] += 1);
            let targets = [own, step(random.below(3)), step(3 + random.below(3)), far];
            out.extend(targets.map(|to| moving(&lent(scene), vertex as u64, to)));
            out.push(moving(&stale, vertex as u64, own));
        }
    }
    out
}

/// One stale number in each kind of part, and none: looked over with room and without, and moved over.
fn about_stale(random: &mut Random, scene: &Scene) -> Vec<Question> {
    let counts = [scene.vertices.len(), scene.edges.len(), scene.triangles.len()];
    let mut out = Vec::new();
    let mut first = 0;
    for count in counts {
        if count > 0 {
            let mut stale = lent(scene);
            let place = 6 * (first + random.below(count)) + random.below(6);
            let other = random.pick(&[1, -1, 2, -7, 1 << 19, i32::MAX, i32::MIN]);
            stale.boxes[place] = stale.boxes[place].wrapping_add(other);
            let looking = STORED_CALLS.into_iter().filter(|call| call.looks_over_boxes());
            out.extend(looking.map(|call| with_boxes(call, &stale, random.pick(&[0, 1, 9]), random.pick(&[0, 9]))));
            let vertex = random.below(scene.vertices.len());
            out.push(moving(&stale, vertex as u64, target(random, scene, vertex)));
            // every box but those of one vertex's parts
            let mut all = lent(scene);
            all.boxes[..6 * parts(scene).len()].iter_mut().for_each(|number| *number ^= 1);
            out.push(moving(&all, vertex as u64, target(random, scene, vertex)));
        }
        first += count;
    }
    out
}

/// A text read with its boxes, into what is lent for the text alone: boxes of just the length, longer, too short by one, none.
pub fn about_reading(random: &mut Random, lent: [Lent; 3]) -> Vec<Question> {
    let read =
        |lent: &Lent, length: usize| Question::new(Call::ReadBoxed, Lent { boxes: marks_of_boxes(length), ..lent.clone() });
    let [just, longer, short] = &lent;
    let few = random.pick(&[0, BOX_NUMBERS - 1, 6, BOX_NUMBERS - 1]);
    vec![
        read(just, BOX_NUMBERS),
        read(longer, BOX_NUMBERS + random.below(40)),
        read(short, BOX_NUMBERS),
        read(just, few),
        read(short, few),
    ]
}

/// A scene that is refused, with boxes that are enough and that are not; and what a call would refuse after it.
pub fn on_harmed(random: &mut Random, scene: &Scene, harmed: &Lent) -> Vec<Question> {
    let mut out = Vec::new();
    for call in STORED_CALLS {
        for short in [false, true] {
            let boxes =
                if random.chance(2) { right_boxes(scene, BOX_NUMBERS) } else { marks_of_boxes(BOX_NUMBERS + random.below(3)) };
            let length = if short { random.pick(&[0, BOX_NUMBERS - 1]) } else { boxes.len() };
            let boxed = Lent { boxes: boxes[..length].to_vec(), ..harmed.clone() };
            let mut question = with_boxes(call, &boxed, random.pick(&[0, 1_000]), random.pick(&[0, 1_000]));
            if call == Call::MoveVertex {
                let vertices = harmed.positions.len() / 6;
                let sewn = harmed.seams.first().map_or(0, |&vertex| vertex as u64);
                question.asked[0] = random.pick(&[sewn, sewn, 0, vertices as u64, u64::MAX]);
                question.lent.coordinates = vec![random.pick(&[0, 5, -77, 524_288, i32::MIN]); 6];
            }
            out.push(question);
        }
    }
    out
}
