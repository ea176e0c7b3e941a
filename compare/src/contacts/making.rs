//! Scenes whose contacts a wrong program gets wrong: two pieces met within one 2^20th of the time, times and shares at exact 2^20ths, at 0
//! and at 1, a touch before the hit, numbers at the old limit.

use crate::making::cases;
use crate::making::generate::{self, rewritten};
use crate::making::parts::with_parts;
use crate::making::sewing::perhaps;
use crate::numbers::random::Random;
use crate::report::trials;
use crate::scene::affine::Affine;
use crate::scene::*;
use crate::text::damage::damaged;
use crate::text::write;

const FAR: i64 = FIRST_COORDINATE_LIMIT;

/// The scene itself where it is in the old range, else at half its size.
pub fn within(scene: &Scene) -> Scene {
    let mut out = scene.clone();
    if !super::in_old_range(scene) {
        out.vertices.iter_mut().flatten().for_each(|coordinate| *coordinate /= 2);
    }
    out
}

type Maker = fn(&mut Random) -> Scene;

pub const KINDS: [(&str, Maker); 7] = [
    ("a fold of a triangle", fold_of_a_triangle),
    ("a fold of an edge", fold_of_an_edge),
    ("exact 2^20ths", exact_parts),
    ("exact 2^18ths, a point", exact_heights),
    ("exact 2^18ths, edges", exact_crossing),
    ("a touch before the hit", touch_before_hit),
    ("the old limit", old_limit),
];

pub fn kind_name(seed: u64) -> &'static str {
    KINDS[(seed % KINDS.len() as u64) as usize].0
}

pub fn scene(seed: u64) -> Scene {
    let mut random = Random::new(seed ^ 0xc0);
    let made = KINDS[(seed % KINDS.len() as u64) as usize].1(&mut random);
    perhaps(&mut random, made)
}

fn point(random: &mut Random, reach: i64) -> [i64; 3] {
    [0; 3].map(|_| random.between(-reach, reach))
}

fn moving(start: [i64; 3], end: [i64; 3]) -> [i64; 6] {
    [start[0], start[1], start[2], end[0], end[1], end[2]]
}

/// A point that moves from one place to another, or backwards, so that after one part in so many of its time it is in a face between two
/// pieces. Of the face's three corners two are near the place from which it comes, one is far.
struct Through {
    near: [i64; 3],
    beside: [[i64; 3]; 2],
    far_corner: [i64; 3],
    far: [i64; 3],
}

fn through(random: &mut Random, reach: i64) -> Through {
    let parts = random.pick(&[3, 5, 7, 11]);
    let (near, far_corner) = (point(random, reach / 3), point(random, reach / 3));
    let beside = [0; 2].map(|_: i64| {
        let aside = point(random, reach / 3 / (parts - 1));
        [0, 1, 2].map(|axis| near[axis] + aside[axis])
    });
    let first = random.between(1, parts - 2);
    let mut far = [0, 1, 2].map(|axis| {
        let face = first * beside[0][axis] + (parts - 1 - first) * beside[1][axis] + far_corner[axis];
        face - (parts - 1) * near[axis]
    });
    // at times a step aside, so that the two pieces are met one shortly after the other
    if !random.chance(5) {
        far.iter_mut().for_each(|coordinate| *coordinate += random.between(-1, 1));
    }
    Through { near, beside, far_corner, far }
}

fn fold_reach(random: &mut Random) -> i64 {
    random.pick(&[FAR - 1, FAR - 1, FAR - 1, 200])
}

/// A triangle whose pieces may fold, and a point that goes through the face between two of them, or one step beside it: soon after the start,
/// or shortly before the end.
fn fold_of_a_triangle(random: &mut Random) -> Scene {
    let reach = fold_reach(random);
    let Through { near, beside: [one, other], far_corner, far } = through(random, reach);
    let mut any = || point(random, reach);
    // a b c' lies between pieces 0 and 1, a b' c' between 1 and 2
    let early = vec![moving(one, any()), moving(other, any()), moving(any(), far_corner), moving(near, far)];
    let late = vec![moving(far_corner, any()), moving(any(), one), moving(any(), other), moving(far, near)];
    let vertices = if random.chance(2) { early } else { late };
    rewritten(random, &Scene { vertices, triangles: vec![[0, 1, 2]], ..Scene::default() })
}

/// The same of two edges: the diagonal of the one, c d', goes through a piece of the other, a b b' or a a' b'.
fn fold_of_an_edge(random: &mut Random) -> Scene {
    let reach = fold_reach(random);
    let Through { near, beside: [one, other], far_corner, far } = through(random, reach);
    let mut any = || point(random, reach);
    let early = vec![moving(one, any()), moving(other, far_corner), moving(near, any()), moving(any(), far)];
    let late = vec![moving(far_corner, one), moving(any(), other), moving(far, any()), moving(any(), near)];
    let vertices = if random.chance(2) { early } else { late };
    let edges = random.pick(&[[[0, 1], [2, 3]], [[2, 3], [0, 1]]]).to_vec();
    rewritten(random, &Scene { vertices, edges, ..Scene::default() })
}

/// A point crosses the plane x + y + z = 0 after any number of 2^20ths of the time, from some quarter to three quarters.
fn exact_parts(random: &mut Random) -> Scene {
    let step = random.pick(&[[349_526, 349_525, 349_525], [349_525, 349_526, 349_525], [349_525, 349_525, 349_526]]);
    let base = random.between(100_000, 250_000);
    let start = [0; 3].map(|_| base + random.between(-9_000, 9_000));
    let end = [0, 1, 2].map(|axis| start[axis] - step[axis]);
    // large volumes that are no multiples of a power of two, so that doubles round them
    let corners = [[200_000, 0], [-200_000, 200_000], [0, -200_000]].map(|[x, y]: [i64; 2]| {
        let (x, y) = (x + random.between(-20_000, 20_000), y + random.between(-20_000, 20_000));
        moving([x, y, -x - y], [x, y, -x - y])
    });
    let vertices = [corners.to_vec(), vec![moving(start, end)]].concat();
    rewritten(random, &Scene { vertices, triangles: vec![[0, 1, 2]], ..Scene::default() })
}

/// A height from which 2^18 steps go down through 0; at the very start or end at times.
fn falling(random: &mut Random) -> (i64, i64) {
    match random.below(4) {
        0 => (0, -random.between(1, FAR)),
        1 => (random.between(1, FAR), 0),
        _ => {
            let above = random.between(1, FAR);
            (above, above - (1 << 18))
        }
    }
}

/// A point falls through a triangle with sides of 2^18: time and shares are whole 2^18ths; at times over a border or a corner.
fn exact_heights(random: &mut Random) -> Scene {
    let low = -(1 << 17);
    let rest = |x: i64, y: i64| [x, y, 0, x, y, 0];
    let (x, y) = match random.below(4) {
        0 => (random.pick(&[0, 1 << 18]), 0),
        1 => (0, random.between(0, 1 << 18)),
        _ => {
            let x = random.between(0, 1 << 18);
            (x, random.between(0, (1 << 18) - x))
        }
    };
    let (above, below) = falling(random);
    let fall = [low + x, low + y, above, low + x, low + y, below];
    let mut vertices = vec![rest(low, low), rest(low + (1 << 18), low), rest(low, low + (1 << 18))];
    // the point among the corners, so that their numbers leave one out
    let place = random.below(4);
    vertices.insert(place, fall);
    let mut corners = [0, 1, 2].map(|corner| corner + (corner >= place) as usize);
    corners.rotate_left(random.below(3));
    Scene { vertices, triangles: vec![corners], ..Scene::default() }
}

/// An edge of 2^18 falls across another: shares at the two higher-numbered ends, whole 2^18ths, 0 and 1 among them.
fn exact_crossing(random: &mut Random) -> Scene {
    let low = -(1 << 17);
    let mut share = || if random.chance(4) { random.pick(&[0, 1 << 18]) } else { random.between(0, 1 << 18) };
    let (x, y) = (low + share(), low + share());
    let (above, below) = falling(random);
    let across = |along: i64| [along, y, 0, along, y, 0];
    let down = |along: i64| [x, along, above, x, along, below];
    let high = low + (1 << 18);
    let vertices = vec![across(low), down(high), across(high), down(low)];
    let edges = random.pick(&[[[0, 2], [1, 3]], [[3, 1], [2, 0]]]).to_vec();
    Scene { vertices, edges, ..Scene::default() }
}

/// The first two corners and the point are at rest in one plane, and the third, or the second, lifts off: piece 0 is singular and touches from
/// the start on, and another piece is hit later.
fn touch_before_hit(random: &mut Random) -> Scene {
    let size = random.pick(&[4, 5, 1_000, 99_991]);
    let up = random.between(1, 9);
    let rest = |x: i64, y: i64| [x, y, 0, x, y, 0];
    let y = random.between(1, size - 1);
    let x = random.between(0, size - y);
    let lifting = [size, 0, 0, size, 0, up];
    Scene { vertices: vec![rest(0, 0), lifting, rest(0, size), rest(x, y)], triangles: vec![[2, 0, 1]], ..Scene::default() }
}

/// The largest numbers for which contacts are given.
fn old_limit(random: &mut Random) -> Scene {
    let coordinate = |random: &mut Random| match random.below(8) {
        0 => random.between(-1, 1),
        1 => random.between(-FAR, FAR),
        _ => random.pick(&[FAR, -FAR, FAR, -FAR, FAR - 1, 1 - FAR]),
    };
    let vertices = (0..random.between(5, 9)).map(|_| [0; 6].map(|_| coordinate(random))).collect();
    with_parts(random, vertices, 6, 5)
}

pub struct Trial {
    pub name: String,
    pub text: Vec<u8>,
}

/// What a report program is held to, and texts at the edge of the old range.
pub fn fixed() -> Vec<Trial> {
    let mut out: Vec<Trial> = trials::fixed().into_iter().map(|trial| Trial { name: trial.name, text: trial.text }).collect();
    for (name, text) in edges() {
        out.push(Trial { name, text: text.into_bytes() });
    }
    out
}

/// 262,143 and one more, 524,287 and one more, at each of the six places; 16 with a list that has no room, and with a fault in a later line.
fn edges() -> Vec<(String, String)> {
    let printed = cases::PRINTED_SCENE;
    let mut out = Vec::new();
    for place in 0..6 {
        for number in [FAR, -FAR, FAR + 1, -FAR - 1, COORDINATE_LIMIT, COORDINATE_LIMIT + 1] {
            let mut coordinates = [0; 6];
            coordinates[place] = number;
            let line = coordinates.map(|coordinate| coordinate.to_string()).join("\t");
            out.push((format!("{number} at place {place}"), printed.replacen("e\t0", &format!("v\t{line}\ne\t0"), 1)));
        }
    }
    let far = "v\t262144\t0\t0\t0\t0\t0\n";
    let heap = |more: &str| {
        let points = "v\t1\t1\t1\t1\t1\t-1\n".repeat(56);
        let corners = "v\t0\t0\t0\t0\t0\t0\nv\t4\t0\t0\t4\t0\t0\nv\t0\t4\t0\t0\t4\t0\n";
        format!("{corners}{points}{more}{}", "t\t0\t1\t2\n".repeat(55))
    };
    out.push(("too many pairs".into(), heap("")));
    out.push(("16 before 7".into(), heap(far)));
    out.push(("16 alone".into(), far.into()));
    for (name, line) in [
        ("2", "v\t0\t524288\t0\t0\t0\t0\n"),
        ("3", "e\t0\t1\n"),
        ("4", "e\t0\t0\n"),
        ("9", "v\t0\n"),
        ("10", "v\t0\t0\t0\t0\t0\t0\ne\t0\t1\nv\t0\t0\t0\t0\t0\t0\n"),
    ] {
        out.push((format!("{name} before 16"), format!("{far}{line}")));
    }
    out
}

/// A scene of the report's trials, the same within the old range, sent on and with parts written otherwise; two scenes of the kinds above; one
/// text damaged.
pub fn seeded(seed: u64) -> Vec<Trial> {
    let mut random = Random::new(seed ^ 0xc017ac7);
    let made = generate::scene(seed);
    let inside = within(&made);
    let sent = within(&Affine::draw(&mut random, &inside).send(&inside));
    let harmed = damaged(&mut random, &write(&inside));
    let turned = rewritten(&mut random, &inside);
    let name = |way: &str| format!("seed {seed}, {}, {way}", generate::kind_name(seed));
    let mut out = vec![
        Trial { name: name("as made"), text: write(&made).into_bytes() },
        Trial { name: name("within the old range"), text: write(&inside).into_bytes() },
        Trial { name: name("sent on"), text: write(&sent).into_bytes() },
        Trial { name: name("written otherwise"), text: write(&turned).into_bytes() },
        Trial { name: name("damaged"), text: harmed },
    ];
    for own in [2 * seed, 2 * seed + 1] {
        out.push(Trial { name: format!("seed {own}, {}", kind_name(own)), text: write(&scene(own)).into_bytes() });
    }
    out
}
