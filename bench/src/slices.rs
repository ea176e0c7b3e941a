//! A scene as it is lent to the library, and the numbers that a cubic works on.

use compare::scene::{Scene, EDGE_LIMIT, SEAM_LIMIT, TRIANGLE_LIMIT, VERTEX_LIMIT};
use compare::ways::cubic::Moving;

/// An entry of the list: 2^20 for two edges or 0 for a point and a triangle, plus 2^10 times the first place, plus the second.
pub fn entry(kind: u32, first: usize, second: usize) -> u32 {
    kind << 20 | (first as u32) << 10 | second as u32
}

/// Its kind, 0 or 1, and its two places.
pub fn parts(entry: u32) -> (u32, usize, usize) {
    (entry >> 20, (entry >> 10 & 1_023) as usize, (entry & 1_023) as usize)
}

#[derive(Clone)]
pub struct Slices {
    pub positions: Vec<i32>,
    pub edges: Vec<u16>,
    pub triangles: Vec<u16>,
    pub seams: Vec<u16>,
    /// The vertex that each of 512 stands for.
    pub stands: Vec<u16>,
    /// The same positions in doubles, and in 64 bits.
    pub moving: Vec<Moving>,
    pub wide: Vec<i64>,
}

/// The empty scene.
impl Default for Slices {
    fn default() -> Slices {
        Slices {
            positions: vec![],
            edges: vec![],
            triangles: vec![],
            seams: vec![],
            stands: (0..VERTEX_LIMIT as u16).collect(),
            moving: vec![],
            wide: vec![],
        }
    }
}

impl Slices {
    pub fn of(scene: &Scene) -> Slices {
        let place = |v: &[i64]| [v[0] as f64, v[1] as f64, v[2] as f64];
        let mut slices = Slices {
            positions: scene.vertices.iter().flatten().map(|&n| n as i32).collect(),
            edges: scene.edges.iter().flatten().map(|&v| v as u16).collect(),
            triangles: scene.triangles.iter().flatten().map(|&v| v as u16).collect(),
            seams: scene.seams.iter().flatten().map(|&v| v as u16).collect(),
            wide: scene.vertices.concat(),
            moving: scene.vertices.iter().map(|v| [place(&v[..3]), place(&v[3..])]).collect(),
            ..Slices::default()
        };
        scene.seams.iter().for_each(|&[i, j]| slices.stands[i] = j as u16);
        slices
    }

    /// Zeros, as many as a text is read into.
    pub fn with_room() -> Slices {
        Slices {
            positions: vec![0; 6 * VERTEX_LIMIT],
            edges: vec![0; 2 * EDGE_LIMIT],
            triangles: vec![0; 3 * TRIANGLE_LIMIT],
            seams: vec![0; 2 * SEAM_LIMIT],
            ..Slices::default()
        }
    }

    #[inline]
    pub fn stands_for(&self, vertex: usize) -> u16 {
        self.stands[vertex]
    }

    /// The lower first, by the vertices stood for.
    #[inline]
    pub fn ends(&self, edge: usize) -> [usize; 2] {
        let mut ends = [0, 1].map(|i| self.edges[2 * edge + i] as usize);
        ends.sort_unstable_by_key(|&vertex| self.stands_for(vertex));
        ends
    }

    /// In rising order of the vertices stood for.
    #[inline]
    pub fn corners(&self, triangle: usize) -> [usize; 3] {
        let mut corners = [0, 1, 2].map(|i| self.triangles[3 * triangle + i] as usize);
        corners.sort_unstable_by_key(|&vertex| self.stands_for(vertex));
        corners
    }

    /// The vertices that the corners stand for, as they are written.
    #[inline]
    pub fn corners_stand(&self, triangle: usize) -> [u16; 3] {
        [0, 1, 2].map(|i| self.stands_for(self.triangles[3 * triangle + i] as usize))
    }

    #[inline]
    pub fn ends_stand(&self, edge: usize) -> [u16; 2] {
        [0, 1].map(|i| self.stands_for(self.edges[2 * edge + i] as usize))
    }
}
