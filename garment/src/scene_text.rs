//! A scene as text, as docs/FORMAT.md has it.

use crate::mesh::Mesh;
use std::fmt::Write;

/// The `v` line of a vertex.
pub fn vertex_line(position: &[i32; 6]) -> String {
    let [a, b, c, d, e, f] = position;
    format!("v\t{a}\t{b}\t{c}\t{d}\t{e}\t{f}\n")
}

pub fn scene<'a>(
    positions: impl Iterator<Item = &'a [i32; 6]>,
    edges: impl Iterator<Item = [u32; 2]>,
    triangles: impl Iterator<Item = [u32; 3]>,
    seams: impl Iterator<Item = [u32; 2]>,
) -> String {
    let mut text: String = positions.map(vertex_line).collect();
    for [a, b] in edges {
        writeln!(text, "e\t{a}\t{b}").expect("a string takes all");
    }
    for [a, b, c] in triangles {
        writeln!(text, "t\t{a}\t{b}\t{c}").expect("a string takes all");
    }
    for [a, b] in seams {
        writeln!(text, "w\t{a}\t{b}").expect("a string takes all");
    }
    text
}

/// The whole mesh, of whatever length, with a line for each vertex that stands for another.
pub fn of_mesh(mesh: &Mesh) -> String {
    scene(mesh.positions.iter(), mesh.edges.iter().copied(), mesh.triangles.iter().copied(), mesh.sewn())
}
