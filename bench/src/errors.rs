//! How often the cubic is wrong, where there is no doubt what is right: each part only shifts, so straight motion and
//! the pieces agree, and no piece is degenerate.

use crate::product::{self, Product};
use crate::slices::Slices;
use crate::wide;
use compare::numbers::random::Random;
use compare::scene::{Scene, COORDINATE_LIMIT};
use compare::verdicts::verdict::Verdict;
use compare::ways::cubic;

pub const TOLERANCES: [f64; 4] = [0.0, 1e-9, 1e-6, 1e-3];

/// Start and end of four vertices: the point and the triangle's corners, or the first edge's ends and the second's.
pub type Four = [[i64; 6]; 4];

#[derive(Clone, Copy)]
pub enum Kind {
    PointTriangle,
    EdgeEdge,
}

/// How the two parts are set to each other.
#[derive(Clone, Copy)]
pub enum Set {
    Anywhere,
    /// Exactly on a border of the second and then, every second time, moved by one step.
    OnABorder,
    /// At the start a few units of volume from one plane, then moved by a step or a few.
    AHairApart,
}

/// Where pairs come from.
#[derive(Clone, Copy)]
pub struct Source {
    pub name: &'static str,
    pub reach: i64,
    pub set: Set,
}

pub const SOURCES: [Source; 8] = [
    Source { name: "anywhere, up to 1,000", reach: 1_000, set: Set::Anywhere },
    Source { name: "anywhere, up to 250,000", reach: 250_000, set: Set::Anywhere },
    Source { name: "on a border or a step beside it, up to 1,000", reach: 1_000, set: Set::OnABorder },
    Source { name: "on a border or a step beside it, up to 30,000", reach: 30_000, set: Set::OnABorder },
    Source { name: "on a border or a step beside it, up to 250,000", reach: 250_000, set: Set::OnABorder },
    Source { name: "a hair from one plane, up to 1,000", reach: 1_000, set: Set::AHairApart },
    Source { name: "a hair from one plane, up to 30,000", reach: 30_000, set: Set::AHairApart },
    Source { name: "a hair from one plane, up to 250,000", reach: 250_000, set: Set::AHairApart },
];

/// Of the cubic, for one tolerance: contacts that it misses, and contacts that it invents.
#[derive(Clone, Copy, Default)]
pub struct Wrong {
    pub missed: u64,
    pub invented: u64,
}

pub struct Count {
    pub pairs: u64,
    pub hits: u64,
    pub cubic: [Wrong; 4],
    pub library: Wrong,
}

impl Wrong {
    fn take(&mut self, hit: bool, said: bool) {
        self.missed += (hit && !said) as u64;
        self.invented += (!hit && said) as u64;
    }
}

pub fn count(random: &mut Random, kind: Kind, source: Source, pairs: u64, product: Option<&Product>) -> Count {
    let mut out = Count { pairs: 0, hits: 0, cubic: [Wrong::default(); 4], library: Wrong::default() };
    while out.pairs < pairs {
        let Some(four) = shifting(random, kind, source) else { continue };
        let slices = slices_of(four, kind);
        let Some(hit) = exactly(&slices, kind) else { continue };
        out.pairs += 1;
        out.hits += hit as u64;
        for (wrong, tolerance) in out.cubic.iter_mut().zip(TOLERANCES) {
            wrong.take(hit, by_cubic(&slices, kind, tolerance));
        }
        if let Some(product) = product {
            out.library.take(hit, by_library(&slices, product));
        }
    }
    out
}

/// The pair as a scene of its own.
fn slices_of(four: Four, kind: Kind) -> Slices {
    let (edges, triangles) = match kind {
        Kind::PointTriangle => (vec![], vec![[1, 2, 3]]),
        Kind::EdgeEdge => (vec![[0, 1], [2, 3]], vec![]),
    };
    Slices::of(&Scene { vertices: four.to_vec(), edges, triangles, ..Scene::default() })
}

/// Whether it is a hit; nothing where a piece is degenerate.
fn exactly(slices: &Slices, kind: Kind) -> Option<bool> {
    let pieces = match kind {
        Kind::PointTriangle => wide::point_pieces(&slices.positions, 0, [1, 2, 3]).to_vec(),
        Kind::EdgeEdge => wide::edge_pieces(&slices.positions, [0, 1], [2, 3]).to_vec(),
    };
    (!pieces.contains(&Verdict::Degenerate)).then(|| pieces.contains(&Verdict::Hit))
}

fn by_cubic(slices: &Slices, kind: Kind, tolerance: f64) -> bool {
    let [a, b, c, d] = [0, 1, 2, 3].map(|vertex| &slices.moving[vertex]);
    match kind {
        Kind::PointTriangle => cubic::point_triangle(a, [b, c, d], tolerance),
        Kind::EdgeEdge => cubic::edge_edge([a, b], [c, d], tolerance),
    }
}

/// What is not listed is no hit.
fn by_library(slices: &Slices, product: &Product) -> bool {
    let (mut list, mut words) = ([0; 3], [0]);
    product.settle_scene(slices, &mut list, &mut words) == Ok(1) && words[0] == product::HIT
}

/// A pair whose parts only shift, or nothing where it does not fit in the range.
pub fn shifting(random: &mut Random, kind: Kind, source: Source) -> Option<Four> {
    let mut starts = [0; 4].map(|_| place(random, source.reach));
    let mut shifts = [0; 2].map(|_| place(random, source.reach / 2));
    let seconds = match kind {
        Kind::PointTriangle => 1,
        Kind::EdgeEdge => 2,
    };
    match source.set {
        Set::Anywhere => {}
        Set::OnABorder => join_on_a_border(random, &mut starts, &mut shifts, seconds, source.reach),
        Set::AHairApart => {
            shifts[0] = plus(shifts[1], 1, place(random, 2));
            bring_to_a_hair(random, &mut starts, seconds)?;
        }
    }
    let four: Four = [0, 1, 2, 3].map(|vertex| {
        let (s, by) = (starts[vertex], shifts[(vertex >= seconds) as usize]);
        [s[0], s[1], s[2], s[0] + by[0], s[1] + by[1], s[2] + by[2]]
    });
    four.iter().flatten().all(|n| n.abs() <= COORDINATE_LIMIT).then_some(four)
}

type Vector = [i64; 3];

fn place(random: &mut Random, reach: i64) -> Vector {
    [0; 3].map(|_| random.between(-reach, reach))
}

fn plus(a: Vector, factor: i64, b: Vector) -> Vector {
    [0, 1, 2].map(|axis| a[axis] + factor * b[axis])
}

/// Parts, and how many of them: a share with whole numbers on both sides.
fn share(random: &mut Random) -> (i64, i64) {
    let whole = random.between(2, 40);
    (random.between(0, whole), whole)
}

/// The parts meet exactly on a border of the second: a point on a triangle's side, or a point of the first edge on the
/// second's end. The second part's vertices begin at `seconds`.
fn join_on_a_border(random: &mut Random, starts: &mut [Vector; 4], shifts: &mut [Vector; 2], seconds: usize, reach: i64) {
    // a side of the triangle, or the first edge, has a whole point at some of its parts
    let (parts, whole) = share(random);
    let (side, end) = if seconds == 1 { (1, 2) } else { (0, 1) };
    let along = place(random, reach / whole);
    starts[end] = plus(starts[side], whole, along);
    let on_side = plus(starts[side], parts, along);
    // the motion of the first as seen from the second has a whole place at some of its time
    let (moments, time) = share(random);
    let step = place(random, reach / 2 / time);
    shifts[0] = plus(shifts[1], time, step);
    let (here, there) = if seconds == 1 { (starts[0], on_side) } else { (on_side, starts[2]) };
    let mut by = plus(plus(there, -moments, step), -1, here);
    if random.chance(2) {
        by[random.below(3)] += random.pick(&[1, -1]);
    }
    for start in &mut starts[..seconds] {
        *start = plus(*start, 1, by);
    }
}

/// The first part is set where the four points have a volume of a few units, in the middle of the second. Nothing
/// where the second, or one of two edges, has no extent.
fn bring_to_a_hair(random: &mut Random, starts: &mut [Vector; 4], seconds: usize) -> Option<()> {
    let minus = |a: Vector, b: Vector| plus(a, -1, b);
    let (a, b) = match seconds {
        1 => (minus(starts[2], starts[1]), minus(starts[3], starts[1])),
        _ => (minus(starts[1], starts[0]), minus(starts[3], starts[2])),
    };
    let normal = [a[1] * b[2] - a[2] * b[1], a[2] * b[0] - a[0] * b[2], a[0] * b[1] - a[1] * b[0]];
    let unit = one_off_the_plane(normal)?;
    let units = random.pick(&[-3, -2, -1, 1, 2, 3]);
    // the whole steps that it goes along a and b are taken away; not all at once, since they are found in doubles
    let mut apart: [i128; 3] = unit.map(|n| units * n);
    for _ in 0..3 {
        let (along_a, along_b) = along(apart, a, b);
        let taken = |axis: usize| along_a.floor() as i128 * a[axis] as i128 + along_b.floor() as i128 * b[axis] as i128;
        apart = [0, 1, 2].map(|axis| apart[axis] - taken(axis));
    }
    let apart = [0, 1, 2].map(|axis| apart[axis] as i64);
    match seconds {
        // from the triangle's first corner to the point
        1 => starts[0] = plus(starts[1], 1, apart),
        // from the first edge's start to the second's: somewhere along the first, and back along the second
        _ => {
            let by = minus(plus(plus(starts[0], 1, apart), -1, b), starts[2]);
            starts[2] = plus(starts[2], 1, by);
            starts[3] = plus(starts[3], 1, by);
        }
    }
    Some(())
}

/// A whole vector whose product with the normal is as near to 0 as any is, and not 0: Euclid's way, twice.
fn one_off_the_plane(normal: Vector) -> Option<[i128; 3]> {
    let [x, y, z] = normal.map(i128::from);
    let (first, s, t) = common(x, y);
    let (both, u, v) = common(first, z);
    (both != 0).then_some([u * s, u * t, v])
}

/// The common divisor of two numbers, and factors with which they sum to it.
fn common(a: i128, b: i128) -> (i128, i128, i128) {
    if b == 0 {
        return (a, 1, 0);
    }
    let (divisor, s, t) = common(b, a % b);
    (divisor, t, s - a / b * t)
}

/// How far a vector goes along each of two others, in doubles.
fn along(v: [i128; 3], a: Vector, b: Vector) -> (f64, f64) {
    let (v, a, b) = (v.map(|n| n as f64), a.map(|n| n as f64), b.map(|n| n as f64));
    let dot = |p: [f64; 3], q: [f64; 3]| p[0] * q[0] + p[1] * q[1] + p[2] * q[2];
    let (aa, ab, bb, av, bv) = (dot(a, a), dot(a, b), dot(b, b), dot(a, v), dot(b, v));
    let whole = aa * bb - ab * ab;
    ((bb * av - ab * bv) / whole, (aa * bv - ab * av) / whole)
}
