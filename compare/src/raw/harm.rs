//! Faults of scenes that are lent as slices: made on purpose, and all that there are, each looked at on its own.

use super::question::{Asked, Lent, Question};
use crate::numbers::random::Random;
use crate::scene::refusal::*;
use crate::scene::*;

/// The numbers that a scene may be refused with, in the order of the checks.
pub const SCENE_CHECKS: [u64; 5] = [BAD_SHAPE, OUT_OF_RANGE, NO_SUCH_VERTEX, BROKEN_SEAM, VERTEX_TWICE];

/// Whether a call that can give both gives the first.
pub fn before(first: u64, second: u64) -> bool {
    let rank = |number: u64| match number {
        BROKEN_SEAM => (NO_SUCH_VERTEX, 1),
        NO_ROOM => (u64::MAX, 0),
        other => (other, 0),
    };
    rank(first) < rank(second)
}

/// Each fault of a scene, in the order of the checks.
pub const SCENE_FAULTS: [(u64, &str); 26] = [
    (BAD_SHAPE, "positions not by six"),
    (BAD_SHAPE, "edges not by two"),
    (BAD_SHAPE, "triangles not by three"),
    (BAD_SHAPE, "a vertex too many"),
    (BAD_SHAPE, "an edge too many"),
    (BAD_SHAPE, "a triangle too many"),
    (BAD_SHAPE, "seams not by two"),
    (BAD_SHAPE, "a seam too many"),
    (OUT_OF_RANGE, "a coordinate too low"),
    (OUT_OF_RANGE, "a coordinate too high"),
    (NO_SUCH_VERTEX, "an edge's vertex not there"),
    (NO_SUCH_VERTEX, "a triangle's vertex not there"),
    (NO_SUCH_VERTEX, "a seam's vertex not there"),
    (BROKEN_SEAM, "seams that fall"),
    (BROKEN_SEAM, "a vertex replaced twice"),
    (BROKEN_SEAM, "a vertex for itself"),
    (BROKEN_SEAM, "a vertex for a higher one"),
    (BROKEN_SEAM, "a vertex for one that is replaced"),
    (BROKEN_SEAM, "starts that differ"),
    (BROKEN_SEAM, "ends that differ"),
    (VERTEX_TWICE, "an edge's vertex twice"),
    (VERTEX_TWICE, "a triangle's first two corners one"),
    (VERTEX_TWICE, "a triangle's last two corners one"),
    (VERTEX_TWICE, "a triangle's first and last corner one"),
    (VERTEX_TWICE, "an edge's ends sewn together"),
    (VERTEX_TWICE, "a triangle's corners sewn together"),
];

/// Every fault of the scene that is lent. The numbers of records are rounded down, as a program would that looks too early.
pub fn of_scene(lent: &Lent) -> Vec<(u64, &'static str)> {
    let (positions, edges, triangles, seams) = (&lent.positions, &lent.edges, &lent.triangles, &lent.seams);
    let limit = COORDINATE_LIMIT as i32;
    let vertices = positions.len() / 6;
    let unknown = |numbers: &[u16]| numbers.iter().any(|&vertex| vertex as usize >= vertices);
    let one = |a: usize, b: usize| triangles.chunks_exact(3).any(|corner| corner[a] == corner[b]);
    let seam = |holds: &dyn Fn(u16, u16) -> bool| seams.chunks_exact(2).any(|seam| holds(seam[0], seam[1]));
    let follows =
        |holds: fn(u16, u16) -> bool| seams.chunks_exact(2).zip(seams.chunks_exact(2).skip(1)).any(|(a, b)| holds(a[0], b[0]));
    let place = |vertex: u16, from: usize| positions.get(6 * vertex as usize + from..6 * vertex as usize + from + 3);
    let differ = |from: usize| seam(&|i, j| place(i, from).zip(place(j, from)).is_some_and(|(here, there)| here != there));
    let replaced = |vertex: u16| seam(&|i, _| i == vertex);
    let sewn = |part: &[u16]| {
        let distinct = |i: usize| part[..i].iter().all(|other| *other != part[i]);
        (1..part.len()).all(distinct)
            && (1..part.len()).any(|i| part[..i].iter().any(|&v| stands_for(seams, v) == stands_for(seams, part[i])))
    };
    let holds = [
        positions.len() % 6 != 0,
        edges.len() % 2 != 0,
        triangles.len() % 3 != 0,
        vertices > VERTEX_LIMIT,
        edges.len() / 2 > EDGE_LIMIT,
        triangles.len() / 3 > TRIANGLE_LIMIT,
        seams.len() % 2 != 0,
        seams.len() / 2 > SEAM_LIMIT,
        positions.iter().any(|&n| n < -limit),
        positions.iter().any(|&n| n > limit),
        unknown(edges),
        unknown(triangles),
        unknown(seams),
        follows(|above, i| above > i),
        follows(|above, i| above == i),
        seam(&|i, j| i == j),
        seam(&|i, j| i < j),
        seam(&|i, j| i != j && replaced(j)),
        differ(0),
        differ(3),
        edges.chunks_exact(2).any(|ends| ends[0] == ends[1]),
        one(0, 1),
        one(1, 2),
        one(0, 2),
        edges.chunks_exact(2).any(sewn),
        triangles.chunks_exact(3).any(sewn),
    ];
    SCENE_FAULTS.into_iter().zip(holds).filter(|(_, holds)| *holds).map(|(fault, _)| fault).collect()
}

/// Document 02, §13, for contacts alone; a coordinate that is out of range is beyond the old range too.
pub const BEYOND: (u64, &str) = (BEYOND_OLD_RANGE, "beyond the old range");

pub fn of_range(lent: &Lent) -> Option<(u64, &'static str)> {
    lent.positions.iter().any(|&n| n.unsigned_abs() as i64 > FIRST_COORDINATE_LIMIT).then_some(BEYOND)
}

/// The vertex that a vertex stands for.
pub fn stands_for(seams: &[u16], vertex: u16) -> u16 {
    seams.chunks_exact(2).find(|seam| seam[0] == vertex).map_or(vertex, |seam| seam[1])
}

/// What may be wrong with the pair or piece that is asked for, of each kind.
pub const PT_FAULTS: [(u64, &str); 6] = [
    (NOT_THERE, "vertex"),
    (NOT_THERE, "triangle"),
    (NOT_THERE, "piece"),
    (SHARES_A_VERTEX, "lowest corner"),
    (SHARES_A_VERTEX, "middle corner"),
    (SHARES_A_VERTEX, "highest corner"),
];
pub const EE_FAULTS: [(u64, &str); 9] = [
    (NOT_THERE, "first edge"),
    (NOT_THERE, "second edge"),
    (NOT_THERE, "piece"),
    (SHARES_A_VERTEX, "with itself"),
    (SHARES_A_VERTEX, "lower with lower"),
    (SHARES_A_VERTEX, "lower with higher"),
    (SHARES_A_VERTEX, "higher with lower"),
    (SHARES_A_VERTEX, "higher with higher"),
    (SHARES_A_VERTEX, "the same edge again"),
];

pub fn of_asked(question: &Question, asked: Asked) -> Vec<(u64, &'static str)> {
    let lent = &question.lent;
    let [first, second, piece] = question.asked;
    let (triangles, edges) = (lent.triangles.len() as u64 / 3, lent.edges.len() as u64 / 2);
    let part = |numbers: &[u16], size: usize, place: u64| {
        let part = numbers.chunks_exact(size).nth(place as usize).unwrap_or(&[]);
        let mut part: Vec<u16> = part.iter().map(|&vertex| stands_for(&lent.seams, vertex)).collect();
        part.sort();
        part
    };
    match asked.kind() {
        Kind::PointTriangle => {
            let corners = part(&lent.triangles, 3, second);
            let point = u16::try_from(first).map_or(first, |vertex| stands_for(&lent.seams, vertex) as u64);
            let is = |i: usize| corners.get(i).is_some_and(|&corner| corner as u64 == point);
            let absent = [first >= lent.positions.len() as u64 / 6, second >= triangles, asked.piece() && piece >= 3];
            chosen(&PT_FAULTS, &[absent, [is(0), is(1), is(2)]].concat())
        }
        Kind::EdgeEdge => {
            let (a, b) = (part(&lent.edges, 2, first), part(&lent.edges, 2, second));
            let both = !a.is_empty() && !b.is_empty();
            let (itself, again) = (both && first == second, both && first != second && a == b);
            let one = |i: usize, j: usize| both && !itself && !again && a[i] == b[j];
            let shared = [itself, one(0, 0), one(0, 1), one(1, 0), one(1, 1), again];
            let absent = [first >= edges, second >= edges, asked.piece() && piece >= 4];
            chosen(&EE_FAULTS, &[&absent[..], &shared].concat())
        }
    }
}

fn chosen(faults: &[(u64, &'static str)], holds: &[bool]) -> Vec<(u64, &'static str)> {
    faults.iter().zip(holds).filter(|(_, holds)| **holds).map(|(fault, _)| *fault).collect()
}

/// Makes a fault with this number. There are some vertices, edges and triangles.
pub fn harm(random: &mut Random, lent: &mut Lent, number: u64) {
    let vertices = (lent.positions.len() / 6) as u16;
    match number {
        BAD_SHAPE => misshape(random, lent),
        OUT_OF_RANGE => {
            let at = random.below(lent.positions.len());
            lent.positions[at] = random.pick(&[524_288, -524_288, i32::MAX, i32::MIN, 1 << 20, 1 << 24]);
        }
        NO_SUCH_VERTEX => {
            let sewn = lent.seams.len() > 1 && random.chance(3);
            let numbers = match random.below(2) {
                _ if sewn => &mut lent.seams,
                0 => &mut lent.edges,
                _ => &mut lent.triangles,
            };
            // the last vertex that is replaced breaks no other rule
            let at = if sewn && random.chance(2) { numbers.len() - 2 } else { random.below(numbers.len()) };
            numbers[at] = random.pick(&[vertices, vertices + 1, 512, u16::MAX, 1 << 15]).max(vertices);
        }
        BROKEN_SEAM => break_seam(random, lent),
        _ if random.chance(2) => sew_a_part(random, lent),
        _ => {
            let (numbers, size) = if random.chance(3) { (&mut lent.edges, 2) } else { (&mut lent.triangles, 3) };
            let base = size * random.below(numbers.len() / size);
            let from = random.below(size);
            numbers[base + from] = numbers[base + (from + 1) % size];
        }
    }
}

/// These seams in the place of those that are there; before them, where what is there is at fault already.
fn sew(lent: &mut Lent, seams: &[u16]) {
    let vertices = lent.positions.len() / 6;
    let fine = lent.seams.len().is_multiple_of(2) && lent.seams.len() <= 2 * SEAM_LIMIT;
    if fine && lent.seams.iter().all(|&v| (v as usize) < vertices) {
        lent.seams.clear();
    }
    lent.seams.splice(0..0, seams.iter().copied());
}

/// The place of a vertex becomes that of another.
fn bring(lent: &mut Lent, vertex: u16, to: u16) {
    let (from, to) = (6 * to as usize, 6 * vertex as usize);
    lent.positions.copy_within(from..from + 6, to);
}

/// Three vertices of which one is not in a part with another, in rising order; any three where there are none.
fn loose(random: &mut Random, lent: &Lent) -> [u16; 3] {
    let vertices = lent.positions.len() / 6;
    let together = |a: u16, b: u16| {
        let has = |part: &[u16]| part.contains(&a) && part.contains(&b);
        lent.edges.chunks(2).any(has) || lent.triangles.chunks(3).any(has)
    };
    let mut three = [0, 1, 2];
    for _ in 0..60 {
        three = [0; 3].map(|_| random.below(vertices) as u16);
        three.sort();
        let [a, b, c] = three;
        if a < b && b < c && !together(a, b) && !together(b, c) && !together(a, c) {
            break;
        }
    }
    three
}

/// A list of seams that breaks one rule.
fn break_seam(random: &mut Random, lent: &mut Lent) {
    let [a, b, c] = loose(random, lent);
    bring(lent, b, a);
    bring(lent, c, a);
    match random.below(8) {
        0 => sew(lent, &[c, a, b, a]),
        1 => sew(lent, &[b, a, b, a]),
        2 => sew(lent, &[b, b]),
        3 => sew(lent, &[a, c]),
        4 => sew(lent, &[b, a, c, b]),
        5 => sew(lent, &[a, b, b, c]),
        // at the start, or at the end
        time => {
            let number = &mut lent.positions[6 * c as usize + 3 * (time - 6) + random.below(3)];
            *number += if *number > 0 { -1 } else { 1 };
            sew(lent, &[c, a]);
        }
    }
}

/// Two corners of a part brought to one place and sewn together; at times each to a third vertex.
fn sew_a_part(random: &mut Random, lent: &mut Lent) {
    let (numbers, size) = if random.chance(2) { (&lent.edges, 2) } else { (&lent.triangles, 3) };
    let base = size * random.below(numbers.len() / size);
    let from = random.below(size);
    let mut ends = [numbers[base + from], numbers[base + (from + 1) % size]];
    ends.sort();
    let [low, high] = ends;
    if high as usize >= lent.positions.len() / 6 || low == high {
        return;
    }
    if random.chance(2) && low > 0 {
        let third = random.below(low as usize) as u16;
        bring(lent, low, third);
        bring(lent, high, third);
        sew(lent, &[low, third, high, third]);
    } else {
        bring(lent, high, low);
        sew(lent, &[high, low]);
    }
}

fn misshape(random: &mut Random, lent: &mut Lent) {
    match random.below(8) {
        0 => lent.positions.extend(vec![0; 1 + random.below(5)]),
        1 => lent.edges.push(lent.edges[0]),
        2 => lent.triangles.extend_from_within(..1 + random.below(2)),
        3 => lent.positions.resize(6 * (VERTEX_LIMIT + 1 + random.below(2)), 0),
        4 => lent.edges = lent.edges[..2].repeat(EDGE_LIMIT + 1 + random.below(2)),
        5 => lent.triangles = lent.triangles[..3].repeat(TRIANGLE_LIMIT + 1 + random.below(2)),
        6 => lent.seams.push(0),
        // rising numbers, though no vertices have them: too many is the first fault, and seams that are not there another
        _ => lent.seams = (0..SEAM_LIMIT + 1 + random.below(2)).flat_map(|i| [i as u16 + 1, 0]).collect(),
    }
}

#[cfg(test)]
mod tests {
    use super::super::expected::scene;
    use super::*;
    use crate::making::generate;

    /// The first of the faults is what the scene is refused for.
    #[test]
    fn the_first_fault_is_given() {
        for seed in 0..400 {
            let mut random = Random::new(seed);
            let mut lent = Lent::of_scene(&generate::scene(seed));
            if lent.edges.len() < 4 || lent.triangles.len() < 6 {
                continue;
            }
            for number in SCENE_CHECKS {
                if random.chance(3) {
                    harm(&mut random, &mut lent, number);
                }
            }
            let given = scene(&lent).err().map(|refusal| refusal.number);
            assert_eq!(given, of_scene(&lent).first().map(|fault| fault.0), "seed {seed}");
        }
    }
}
