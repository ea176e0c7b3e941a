//! Swept boxes: from the smallest to the largest coordinate over start and end, ends included.

use crate::mesh::Mesh;
use crate::pairs::{Kind, Pair};

#[derive(Clone, Copy, Debug, PartialEq, Eq)]
pub struct Swept {
    pub low: [i32; 3],
    pub high: [i32; 3],
}

impl Swept {
    pub fn of_vertex(position: &[i32; 6]) -> Swept {
        let [x, y, z, u, v, w] = *position;
        Swept { low: [x.min(u), y.min(v), z.min(w)], high: [x.max(u), y.max(v), z.max(w)] }
    }

    /// Of an edge or a triangle.
    pub fn of_part(positions: &[[i32; 6]], part: &[u32]) -> Swept {
        let boxes = part.iter().map(|&vertex| Swept::of_vertex(&positions[vertex as usize]));
        boxes.reduce(Swept::joined).expect("a part has a vertex")
    }

    pub fn joined(self, other: Swept) -> Swept {
        let axes = [0, 1, 2];
        Swept {
            low: axes.map(|axis| self.low[axis].min(other.low[axis])),
            high: axes.map(|axis| self.high[axis].max(other.high[axis])),
        }
    }

    /// Equal ends are a meeting too.
    pub fn meets(&self, other: &Swept) -> bool {
        (0..3).all(|axis| self.low[axis] <= other.high[axis] && other.low[axis] <= self.high[axis])
    }

    /// The low corner of what two boxes have in common, where they meet.
    pub fn meeting(&self, other: &Swept) -> [i32; 3] {
        [0, 1, 2].map(|axis| self.low[axis].max(other.low[axis]))
    }
}

pub fn of_vertices(mesh: &Mesh) -> Vec<Swept> {
    mesh.positions.iter().map(Swept::of_vertex).collect()
}

/// Of edges or of triangles.
pub fn of_parts<const N: usize>(vertices: &[Swept], parts: &[[u32; N]]) -> Vec<Swept> {
    let joint = |part: &[u32; N]| {
        part[1..].iter().fold(vertices[part[0] as usize], |joint, &vertex| joint.joined(vertices[vertex as usize]))
    };
    parts.iter().map(joint).collect()
}

/// The boxes of a pair's parts.
pub fn of_pair(mesh: &Mesh, pair: Pair) -> [Swept; 2] {
    let joint = |part: &[u32]| Swept::of_part(&mesh.positions, part);
    let (first, second) = (pair.first as usize, pair.second as usize);
    match pair.kind {
        Kind::PointTriangle => [joint(&[pair.first]), joint(&mesh.triangles[second])],
        Kind::EdgeEdge => [joint(&mesh.edges[first]), joint(&mesh.edges[second])],
    }
}
