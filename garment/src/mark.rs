//! A mesh that any viewer shows, with a colour where it is hit or touches, or where it is pierced.

use crate::fault::Fault;
use crate::judge::Through;
use crate::mesh::Mesh;
use crate::pairs::{Kind, Pair};
use crate::rounding::Grid;
use crate::whereabouts::{written_vertices, Fine};
use makhnodri::{Settled, CONTACT_UNIT};
use std::fmt::Write;
use std::fs;

/// A pair that is marked: a hit with its time in 2^20ths, or a touch.
#[derive(Clone, Copy, Debug, PartialEq, Eq)]
pub struct Marked {
    pub pair: Pair,
    pub time: Option<u32>,
}

impl Marked {
    pub fn of(pair: Pair, word: Settled, time: u32) -> Option<Marked> {
        match word {
            Settled::Hit => Some(Marked { pair, time: Some(time) }),
            Settled::Touch => Some(Marked { pair, time: None }),
            _ => None,
        }
    }
}

/// What is the matter with a vertex or a face; the higher goes over the lower.
#[derive(Clone, Copy, Debug, PartialEq, Eq, PartialOrd, Ord)]
enum Colour {
    Clear,
    Touch,
    Hit,
    Pierced,
}

impl Colour {
    const ALL: [Colour; 4] = [Colour::Clear, Colour::Touch, Colour::Hit, Colour::Pierced];

    fn name(self) -> &'static str {
        match self {
            Colour::Clear => "clear",
            Colour::Touch => "touch",
            Colour::Hit => "hit",
            Colour::Pierced => "pierced",
        }
    }

    /// Red, green, blue: grey, yellow, red.
    fn bytes(self) -> [u8; 3] {
        match self {
            Colour::Clear => [192, 192, 192],
            Colour::Touch => [255, 204, 0],
            Colour::Hit | Colour::Pierced => [255, 0, 0],
        }
    }
}

/// The colour of each part that is marked. Those of vertices that are parts themselves stand apart from those of all vertices of a part.
struct Coloured {
    vertices: Vec<Colour>,
    points: Vec<Colour>,
    edges: Vec<Colour>,
    faces: Vec<Colour>,
}

impl Coloured {
    fn clear(mesh: &Mesh) -> Coloured {
        let clear = |count: usize| vec![Colour::Clear; count];
        let [vertices, edges, faces] = [mesh.positions.len(), mesh.edges.len(), mesh.triangles.len()].map(clear);
        Coloured { points: vertices.clone(), vertices, edges, faces }
    }

    fn of_hits(mesh: &Mesh, marked: &[Marked]) -> Coloured {
        let mut coloured = Coloured::clear(mesh);
        for &Marked { pair, time } in marked {
            let colour = if time.is_some() { Colour::Hit } else { Colour::Touch };
            raise(&mut coloured.vertices, &written_vertices(mesh, pair).concat(), colour);
            match pair.kind {
                Kind::PointTriangle => {
                    raise(&mut coloured.points, &[pair.first], colour);
                    raise(&mut coloured.faces, &[pair.second], colour);
                }
                Kind::EdgeEdge => raise(&mut coloured.edges, &[pair.first, pair.second], colour),
            }
        }
        coloured.spread(mesh)
    }

    fn of_pierced(mesh: &Mesh, pierced: &[Through]) -> Coloured {
        let mut coloured = Coloured::clear(mesh);
        for &Through { edge, triangle } in pierced {
            raise(&mut coloured.vertices, &mesh.edges[edge as usize], Colour::Pierced);
            raise(&mut coloured.vertices, &mesh.triangles[triangle as usize], Colour::Pierced);
            raise(&mut coloured.edges, &[edge], Colour::Pierced);
            raise(&mut coloured.faces, &[triangle], Colour::Pierced);
        }
        coloured.spread(mesh)
    }

    /// Each part that is marked colours the faces that have it.
    fn spread(mut self, mesh: &Mesh) -> Coloured {
        for ((face, corners), sides) in self.faces.iter_mut().zip(&mesh.triangles).zip(mesh.sides()) {
            let of_corners = corners.iter().map(|&vertex| self.points[vertex as usize]);
            let of_sides = sides.iter().map(|&edge| self.edges[edge as usize]);
            *face = of_corners.chain(of_sides).fold(*face, Colour::max);
        }
        self
    }
}

fn raise(slots: &mut [Colour], parts: &[u32], colour: Colour) {
    parts.iter().map(|&part| part as usize).for_each(|part| slots[part] = slots[part].max(colour));
}

/// The time of the first hit, in 2^20ths; the end where nothing is hit.
fn shown_time(marked: &[Marked]) -> u32 {
    marked.iter().filter_map(|marked| marked.time).min().unwrap_or(CONTACT_UNIT)
}

fn at(position: &[i32; 6], time: u32) -> Fine {
    let (unit, time) = (i64::from(CONTACT_UNIT), i64::from(time));
    [0, 1, 2].map(|axis| (unit - time) * i64::from(position[axis]) + time * i64::from(position[axis + 3]))
}

/// The endings of the names of such files.
pub fn is_taken(name: &str) -> bool {
    is_ply(name) || ends(name, ".obj")
}

fn is_ply(name: &str) -> bool {
    ends(name, ".ply")
}

/// Whether two names are those of one file, which may not be there yet.
pub fn same_file(one: &str, other: &str) -> bool {
    let place = |name: &str| fs::canonicalize(name).ok();
    one == other || place(one).is_some_and(|one| place(other) == Some(one))
}

fn ends(name: &str, ending: &str) -> bool {
    name.len() > ending.len() && name.to_ascii_lowercase().ends_with(ending)
}

/// Writes the mesh as it is at the time of its first hit, or at the end; hands back that time.
pub fn write(name: &str, mesh: &Mesh, grid: &Grid, marked: &[Marked]) -> Result<u32, Fault> {
    let time = shown_time(marked);
    write_at(name, mesh, grid, time, &Coloured::of_hits(mesh, marked), "hit red, touch yellow").map(|()| time)
}

/// Writes the mesh as it is at the start.
pub fn write_pierced(name: &str, mesh: &Mesh, grid: &Grid, pierced: &[Through]) -> Result<(), Fault> {
    write_at(name, mesh, grid, 0, &Coloured::of_pierced(mesh, pierced), "pierced red")
}

fn write_at(name: &str, mesh: &Mesh, grid: &Grid, time: u32, coloured: &Coloured, legend: &str) -> Result<(), Fault> {
    let places = mesh.positions.iter().map(|position| grid.written(at(position, time)).join(" "));
    let text = if is_ply(name) { ply(mesh, places, coloured, legend) } else { obj(mesh, places, coloured, legend) };
    fs::write(name, text).map_err(|error| Fault::of_file(name, &error))
}

fn ply(mesh: &Mesh, places: impl Iterator<Item = String>, coloured: &Coloured, legend: &str) -> String {
    let mut text = format!(
        "ply\nformat ascii 1.0\ncomment {legend}\nelement vertex {}\nproperty double x\nproperty double y\nproperty double z\n\
         property uchar red\nproperty uchar green\nproperty uchar blue\nelement face {}\nproperty list uchar int vertex_indices\nend_header\n",
        mesh.positions.len(),
        mesh.triangles.len()
    );
    for (place, colour) in places.zip(&coloured.vertices) {
        let [red, green, blue] = colour.bytes();
        writeln!(text, "{place} {red} {green} {blue}").expect("a string takes all");
    }
    for [a, b, c] in &mesh.triangles {
        writeln!(text, "3 {a} {b} {c}").expect("a string takes all");
    }
    text
}

/// Vertices with their colours behind them, as many viewers read, and the faces in groups by their colour.
fn obj(mesh: &Mesh, places: impl Iterator<Item = String>, coloured: &Coloured, legend: &str) -> String {
    let mut text = format!("# {legend}\n");
    for (place, colour) in places.zip(&coloured.vertices) {
        let [red, green, blue] = colour.bytes().map(|part| f64::from(part) / 255.0);
        writeln!(text, "v {place} {red:.3} {green:.3} {blue:.3}").expect("a string takes all");
    }
    for colour in Colour::ALL {
        let mut faces = mesh.triangles.iter().zip(&coloured.faces).filter(|(_, face)| **face == colour).peekable();
        if faces.peek().is_some() {
            writeln!(text, "g {}", colour.name()).expect("a string takes all");
        }
        for (corners, _) in faces {
            let [a, b, c] = corners.map(|vertex| u64::from(vertex) + 1);
            writeln!(text, "f {a} {b} {c}").expect("a string takes all");
        }
    }
    text
}
