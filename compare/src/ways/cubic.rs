//! The way that document 01 does not go, as trainees write it: Provot's cubic for the moments at which four moving
//! points lie in one plane, in doubles, and Bridson's tolerance around what comes out. Here for the training page and
//! for the benchmark; nothing is judged by it.
//!
//! One tolerance, a share: of the size of the pair cubed, for the cubic's value at a turn or at either end; of the
//! whole, for a weight outside 0 to 1; of the size, for the distance of parallel edges.

type Vector = [f64; 3];

/// Start and end.
pub type Moving = [Vector; 2];

fn minus(a: Vector, b: Vector) -> Vector {
    [a[0] - b[0], a[1] - b[1], a[2] - b[2]]
}

fn plus(a: Vector, b: Vector) -> Vector {
    [a[0] + b[0], a[1] + b[1], a[2] + b[2]]
}

fn times(factor: f64, a: Vector) -> Vector {
    [factor * a[0], factor * a[1], factor * a[2]]
}

fn dot(a: Vector, b: Vector) -> f64 {
    a[0] * b[0] + a[1] * b[1] + a[2] * b[2]
}

fn cross(a: Vector, b: Vector) -> Vector {
    [a[1] * b[2] - a[2] * b[1], a[2] * b[0] - a[0] * b[2], a[0] * b[1] - a[1] * b[0]]
}

fn largest(a: Vector) -> f64 {
    a[0].abs().max(a[1].abs()).max(a[2].abs())
}

/// Where a difference stands at the start, and how far it moves.
#[derive(Clone, Copy)]
struct Line {
    start: Vector,
    motion: Vector,
}

impl Line {
    fn between(from: &Moving, to: &Moving) -> Line {
        let start = minus(to[0], from[0]);
        Line { start, motion: minus(minus(to[1], from[1]), start) }
    }

    fn at(&self, time: f64) -> Vector {
        plus(self.start, times(time, self.motion))
    }
}

/// Three differences between four moving points.
struct Four {
    lines: [Line; 3],
    tolerance: f64,
    size: f64,
}

impl Four {
    fn new(lines: [Line; 3], tolerance: f64) -> Four {
        let reach = |line: &Line| largest(line.start).max(largest(line.at(1.0)));
        let size = reach(&lines[0]).max(reach(&lines[1])).max(reach(&lines[2]));
        Four { lines, tolerance, size }
    }

    /// The volume of the three differences, lowest power of the time first.
    fn cubic(&self) -> [f64; 4] {
        let [a, b, c] = &self.lines;
        let still = cross(a.start, b.start);
        let moved = plus(cross(a.start, b.motion), cross(a.motion, b.start));
        let twice = cross(a.motion, b.motion);
        [
            dot(still, c.start),
            dot(still, c.motion) + dot(moved, c.start),
            dot(moved, c.motion) + dot(twice, c.start),
            dot(twice, c.motion),
        ]
    }

    /// Whether at some moment of one plane there is a contact.
    fn any_moment(&self, contact: impl Fn(f64) -> bool) -> bool {
        let cubic = self.cubic();
        if cubic == [0.0; 4] {
            return false; // no equation is left to solve
        }
        let small = self.tolerance * self.size * self.size * self.size;
        let (turns, count) = turns(cubic);
        let mut low = (0.0, at(cubic, 0.0));
        if low.1.abs() <= small && contact(0.0) {
            return true;
        }
        for &turn in &turns[..count] {
            let high = (turn, at(cubic, turn));
            let through = (low.1 < 0.0 && high.1 > 0.0) || (low.1 > 0.0 && high.1 < 0.0);
            if through && contact(root_between(cubic, low, high)) {
                return true;
            }
            if high.1.abs() <= small && contact(turn) {
                return true;
            }
            low = high;
        }
        false
    }
}

fn at(cubic: [f64; 4], time: f64) -> f64 {
    ((cubic[3] * time + cubic[2]) * time + cubic[1]) * time + cubic[0]
}

/// The times between 0 and 1 at which the cubic turns, rising, and 1.
fn turns(cubic: [f64; 4]) -> ([f64; 3], usize) {
    let (a, half, c) = (3.0 * cubic[3], cubic[2], cubic[1]);
    let mut out = [1.0; 3];
    let mut count = 0;
    let mut keep = |time: f64| {
        if time > 0.0 && time < 1.0 {
            out[count] = time;
            count += 1;
        }
    };
    let square = half * half - a * c;
    if square > 0.0 {
        // the root that loses no figures, and the other from the product of the two
        let q = if half < 0.0 { square.sqrt() - half } else { -(half + square.sqrt()) };
        let (first, second) = (q / a, c / q);
        keep(first.min(second));
        keep(first.max(second));
    }
    out[count] = 1.0;
    (out, count + 1)
}

/// After a step in time as short as this the next would be about its square, which no double can tell.
const LAST_STEP: f64 = 1e-9;

/// Newton's steps from where the chord crosses, and a halving wherever one would leave the bracket.
fn root_between(cubic: [f64; 4], low: (f64, f64), high: (f64, f64)) -> f64 {
    let (mut below, mut above) = if low.1 < 0.0 { (low.0, high.0) } else { (high.0, low.0) };
    let mut time = low.0 + (high.0 - low.0) * low.1 / (low.1 - high.1);
    for _ in 0..60 {
        let value = at(cubic, time);
        if value == 0.0 {
            break;
        } else if value < 0.0 {
            below = time;
        } else {
            above = time;
        }
        let slope = (3.0 * cubic[3] * time + 2.0 * cubic[2]) * time + cubic[1];
        let mut next = time - value / slope;
        if !(below.min(above)..=below.max(above)).contains(&next) {
            next = 0.5 * (below + above);
        }
        let step = (next - time).abs();
        time = next;
        if step <= LAST_STEP {
            break;
        }
    }
    time
}

/// `corners` in any order: the order decides only how the doubles are rounded.
pub fn point_triangle(point: &Moving, corners: [&Moving; 3], tolerance: f64) -> bool {
    let from_first = |other: &Moving| Line::between(corners[0], other);
    let four = Four::new([from_first(corners[1]), from_first(corners[2]), from_first(point)], tolerance);
    four.any_moment(|time| {
        let [a, b, p] = [0, 1, 2].map(|i| four.lines[i].at(time));
        let (aa, ab, bb, ap, bp) = (dot(a, a), dot(a, b), dot(b, b), dot(a, p), dot(b, p));
        let whole = aa * bb - ab * ab;
        let (second, third) = ((bb * ap - ab * bp) / whole, (aa * bp - ab * ap) / whole);
        // all three, and no weight that is not a number
        second >= -tolerance && third >= -tolerance && 1.0 - second - third >= -tolerance
    })
}

pub fn edge_edge(first: [&Moving; 2], second: [&Moving; 2], tolerance: f64) -> bool {
    let lines = [Line::between(first[0], first[1]), Line::between(second[0], second[1]), Line::between(first[0], second[0])];
    let four = Four::new(lines, tolerance);
    four.any_moment(|time| {
        let [a, b, between] = [0, 1, 2].map(|i| four.lines[i].at(time));
        let (aa, ab, bb) = (dot(a, a), dot(a, b), dot(b, b));
        let whole = aa * bb - ab * ab;
        if whole <= tolerance * aa * bb {
            return parallel_meet(a, b, between, tolerance * four.size);
        }
        let (along_a, along_b) = (dot(a, between), dot(b, between));
        let inside = |share: f64| share >= -tolerance && share <= 1.0 + tolerance;
        inside((bb * along_a - ab * along_b) / whole) && inside((ab * along_a - aa * along_b) / whole)
    })
}

/// Parallel edges: whether an end of one lies on the other, or as near as that.
fn parallel_meet(a: Vector, b: Vector, between: Vector, near: f64) -> bool {
    let on = |from: Vector, along: Vector| {
        let whole = dot(along, along);
        let share = if whole > 0.0 { (dot(from, along) / whole).clamp(0.0, 1.0) } else { 0.0 };
        largest(minus(from, times(share, along))) <= near
    };
    let (to_start, to_end) = (between, plus(between, b));
    on(to_start, a) || on(to_end, a) || on(times(-1.0, to_start), b) || on(minus(a, to_start), b)
}
