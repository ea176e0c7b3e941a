//! Where a pair is: the vertices of the file, the names, the place and the time.

use crate::boxes::Swept;
use crate::judge::Through;
use crate::mesh::Mesh;
use crate::names::{Names, OfParts};
use crate::pairs::{Kind, Pair};
use crate::report::{Row, Sum, Tally};
use crate::rounding::Grid;
use makhnodri::CONTACT_UNIT;
use std::collections::BTreeMap;

/// A place in 2^20ths of a step, which is exact.
pub type Fine = [i64; 3];

#[derive(Clone, Debug, PartialEq)]
pub struct Whereabouts {
    names: Names,
    of_parts: OfParts<u32>,
    grid: Grid,
}

/// Totals by the two sets of names that the parts of a pair have, the lower first.
pub type ByNames = BTreeMap<[u32; 2], Tally>;

impl Whereabouts {
    pub fn new(mesh: &Mesh, mut names: Names, grid: Grid) -> Whereabouts {
        let of_parts = names.of_parts(mesh);
        Whereabouts { names, of_parts, grid }
    }

    /// The two sets of names of a pair, whichever part has which.
    pub fn sets(&self, pair: Pair) -> [u32; 2] {
        sorted(self.of_parts.of_pair(pair))
    }

    /// The same of an edge and a triangle.
    pub fn sets_through(&self, through: Through) -> [u32; 2] {
        sorted(self.of_parts.of_through(through))
    }

    /// What stands behind the line of a pair, before its end: vertices of the file, names and place; and the time, where the line does not have it.
    pub fn tail(&self, mesh: &Mesh, pair: Pair, place: Fine, time: Time, json: bool) -> String {
        self.tail_on(&self.grid, mesh, pair, place, time, json)
    }

    /// The same on a grid that counts from another place.
    pub fn tail_on(&self, grid: &Grid, mesh: &Mesh, pair: Pair, place: Fine, time: Time, json: bool) -> String {
        let parts = Parts { vertices: written_vertices(mesh, pair), sets: self.of_parts.of_pair(pair) };
        self.written(parts, grid.written(place), time, json)
    }

    /// Behind the line of an edge that is through a triangle; a frame has one time, which is not told.
    pub fn tail_through(&self, mesh: &Mesh, through: Through, json: bool) -> String {
        let Through { edge, triangle } = through;
        let vertices = [mesh.edges[edge as usize].to_vec(), mesh.triangles[triangle as usize].to_vec()];
        let parts = Parts { vertices, sets: self.of_parts.of_through(through) };
        self.written(parts, self.grid.written(of_through(mesh, through)), Time::InLine, json)
    }

    fn written(&self, Parts { vertices, sets }: Parts, place: [String; 3], time: Time, json: bool) -> String {
        let vertices = vertices.map(|part| self.in_file(&part).join(","));
        if json {
            let [first, second] = vertices;
            let [one, other] = sets.map(|set| json_names(self.names.of_set(set)));
            let time = if let Time::Told(Some(k)) = time { format!(",\"k\":{k}") } else { String::new() };
            let place = place.join(",");
            return format!(",\"vertices\":[[{first}],[{second}]],\"names\":[{one},{other}],\"place\":[{place}]{time}");
        }
        let fields = vertices.into_iter().chain(sets.map(|set| plain_names(self.names.of_set(set)))).chain(place);
        let time = match time {
            Time::InLine => None,
            Time::Told(k) => Some(k.map_or("-".to_string(), |k| k.to_string())),
        };
        fields.chain(time).fold(String::new(), |tail, field| tail + "\t" + &field)
    }

    /// Vertex numbers as the file has them, from 1; the body's own file has its own.
    fn in_file(&self, vertices: &[u32]) -> Vec<String> {
        let first = self.names.behind.as_ref().map_or(usize::MAX, |behind| behind.vertices);
        let number = |vertex: usize| 1 + if vertex >= first { vertex - first } else { vertex };
        vertices.iter().map(|&vertex| number(vertex as usize).to_string()).collect()
    }

    /// The totals in the order in which names first appear, parts without a name first.
    pub fn sums(&self, by_names: &ByNames) -> Vec<Sum> {
        self.in_order(by_names).into_iter().map(|(names, tally)| Sum { names, tally }).collect()
    }

    /// Anything that goes by two sets of names, in that order, with the names.
    pub fn in_order<T: Copy>(&self, by_names: &BTreeMap<[u32; 2], T>) -> Vec<([Vec<String>; 2], T)> {
        let members = |set: u32| self.names.sets.members(set);
        let in_order = |[one, other]: [u32; 2]| if members(one) <= members(other) { [one, other] } else { [other, one] };
        let mut rows: Vec<([u32; 2], T)> = by_names.iter().map(|(&sets, &of_both)| (in_order(sets), of_both)).collect();
        rows.sort_by_key(|(sets, _)| sets.map(members));
        let names = |set: u32| self.names.of_set(set).map(str::to_string).collect();
        rows.into_iter().map(|(sets, of_both)| (sets.map(names), of_both)).collect()
    }
}

/// The vertices of both parts, and the sets of their names.
struct Parts {
    vertices: [Vec<u32>; 2],
    sets: [u32; 2],
}

fn sorted(mut both: [u32; 2]) -> [u32; 2] {
    both.sort_unstable();
    both
}

/// Whether the tail of a line tells the time: that of a pair which is not hit is not known.
#[derive(Clone, Copy, Debug, PartialEq, Eq)]
pub enum Time {
    InLine,
    Told(Option<u32>),
}

pub fn plain_names<'a>(names: impl Iterator<Item = &'a str>) -> String {
    let names = names.collect::<Vec<_>>().join(",");
    if names.is_empty() {
        "-".to_string()
    } else {
        names
    }
}

pub fn json_names<'a>(names: impl Iterator<Item = &'a str>) -> String {
    format!("[{}]", names.map(quoted).collect::<Vec<_>>().join(","))
}

/// A string of JSON.
fn quoted(text: &str) -> String {
    let mut out = String::from("\"");
    for letter in text.chars() {
        match letter {
            '"' | '\\' => out.extend(['\\', letter]),
            letter if (letter as u32) < 0x20 => out += &format!("\\u{:04x}", letter as u32),
            letter => out.push(letter),
        }
    }
    out + "\""
}

/// The vertices of each part of a pair, as the faces name them.
pub fn written_vertices(mesh: &Mesh, pair: Pair) -> [Vec<u32>; 2] {
    let (first, second) = (pair.first as usize, pair.second as usize);
    match pair.kind {
        Kind::PointTriangle => [vec![pair.first], mesh.triangles[second].to_vec()],
        Kind::EdgeEdge => [mesh.edges[first].to_vec(), mesh.edges[second].to_vec()],
    }
}

const UNIT: i64 = CONTACT_UNIT as i64;

/// Where a hit pair touched, by the numbers of its contact: the moving point at the time, or the place of the first edge that its share and the time have
/// in the piece. Worked out without rounding; time and share were cut.
pub fn of_hit(mesh: &Mesh, pair: Pair, row: Row) -> Fine {
    let [piece, k, share, ..] = row.map(i64::from);
    if pair.kind == Kind::PointTriangle {
        return weighed(mesh, &[(pair.first, [UNIT - k, k])]);
    }
    let mut ends = mesh.ends(pair.first);
    ends.sort_unstable();
    let [low, high] = ends;
    // pieces 0 and 1 have the edge as low high high', pieces 2 and 3 as low low' high'
    match piece {
        0 | 1 => weighed(mesh, &[(low, [UNIT - share, 0]), (high, [share - k, k])]),
        _ => weighed(mesh, &[(low, [UNIT - k, k - share]), (high, [0, share])]),
    }
}

fn weighed(mesh: &Mesh, weights: &[(u32, [i64; 2])]) -> Fine {
    let mut place = [0; 3];
    for &(vertex, [start, end]) in weights {
        let position = mesh.positions[vertex as usize].map(i64::from);
        (0..3).for_each(|axis| place[axis] += start * position[axis] + end * position[axis + 3]);
    }
    place
}

/// Where an edge that is through a triangle meets its plane at the start, cut to a 2^20th; where it lies in the plane, the middle of what the boxes of both
/// have in common, in which they touch.
pub fn of_through(mesh: &Mesh, Through { edge, triangle }: Through) -> Fine {
    let start = |vertex: u32| {
        let [x, y, z, ..] = mesh.positions[vertex as usize];
        [x, y, z]
    };
    let (ends, corners) = (mesh.edges[edge as usize].map(start), mesh.triangles[triangle as usize].map(start));
    let [from, to] = ends.map(|end| volume(corners, end));
    if from == to {
        return between(&at_rest(&ends), &at_rest(&corners));
    }
    let (far, all) = if from > to { (from, from - to) } else { (-from, to - from) };
    let along = |axis: usize| {
        let [a, b] = ends.map(|end| i128::from(end[axis]));
        (i128::from(UNIT) * (a * all + (b - a) * far)).div_euclid(all) as i64
    };
    [0, 1, 2].map(along)
}

/// Six times the volume over a triangle: where an edge lies in its plane both ends have the same, which is 0 where it is through.
fn volume(corners: [[i32; 3]; 3], top: [i32; 3]) -> i128 {
    let [u, v, w] = corners.map(|corner| [0, 1, 2].map(|axis| i128::from(corner[axis]) - i128::from(top[axis])));
    let minor = |a: usize, b: usize| v[a] * w[b] - v[b] * w[a];
    u[0] * minor(1, 2) + u[1] * minor(2, 0) + u[2] * minor(0, 1)
}

fn at_rest(places: &[[i32; 3]]) -> Swept {
    let rest = |&[x, y, z]: &[i32; 3]| Swept::of_vertex(&[x, y, z, x, y, z]);
    places.iter().map(rest).reduce(Swept::joined).expect("a part has a vertex")
}

/// Of a pair that is not hit: the middle of what the swept boxes of its parts have in common. Where they touch, they touch in there.
pub fn between(one: &Swept, other: &Swept) -> Fine {
    let (low, high) = (one.meeting(other), [0, 1, 2].map(|axis| one.high[axis].min(other.high[axis])));
    [0, 1, 2].map(|axis| (i64::from(low[axis]) + i64::from(high[axis])) * (UNIT / 2))
}
