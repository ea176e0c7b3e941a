//! The space-time pieces of a pair, as document 01 writes them; corners in the order of the vertices that they stand for (document 02, §6).

use crate::numbers::equations::Point;
use crate::scene::{Kind, Pair, Scene};

/// Two simplices with six points together.
#[derive(Clone, Debug)]
pub struct Piece {
    pub first: Vec<Point>,
    pub second: Vec<Point>,
}

/// A vertex at the start or at the end.
#[derive(Clone, Copy, Debug, PartialEq, Eq)]
pub struct Corner {
    pub vertex: usize,
    pub at_end: bool,
}

impl Corner {
    fn point(self, scene: &Scene) -> Point {
        let v = scene.vertices[self.vertex];
        if self.at_end {
            [v[3], v[4], v[5], 1]
        } else {
            [v[0], v[1], v[2], 0]
        }
    }

    /// 1 for vertex 1 at the start, 1' at the end.
    pub fn name(self) -> String {
        format!("{}{}", self.vertex, if self.at_end { "'" } else { "" })
    }
}

fn start(vertex: usize) -> Corner {
    Corner { vertex, at_end: false }
}

fn end(vertex: usize) -> Corner {
    Corner { vertex, at_end: true }
}

fn moving_point(p: usize) -> Vec<Vec<Corner>> {
    vec![vec![start(p), end(p)]]
}

/// 1 2 2' and 1 1' 2'.
fn moving_edge(scene: &Scene, mut ends: [usize; 2]) -> Vec<Vec<Corner>> {
    ends.sort_by_key(|&vertex| scene.stands_for(vertex));
    let ([a, b], [a1, b1]) = (ends.map(start), ends.map(end));
    vec![vec![a, b, b1], vec![a, a1, b1]]
}

/// 1 2 3 3', then 1 2 2' 3', then 1 1' 2' 3'.
fn moving_triangle(scene: &Scene, mut corners: [usize; 3]) -> Vec<Vec<Corner>> {
    corners.sort_by_key(|&vertex| scene.stands_for(vertex));
    let ([a, b, c], [a1, b1, c1]) = (corners.map(start), corners.map(end));
    vec![vec![a, b, c, c1], vec![a, b, b1, c1], vec![a, a1, b1, c1]]
}

/// The corners of each piece, in the order in which its weights stand.
pub fn corners(scene: &Scene, pair: Pair) -> Vec<[Vec<Corner>; 2]> {
    let (first, second) = match pair.kind {
        Kind::PointTriangle => (moving_point(pair.first), moving_triangle(scene, scene.triangles[pair.second])),
        Kind::EdgeEdge => {
            let (low, high) = (pair.first.min(pair.second), pair.first.max(pair.second));
            (moving_edge(scene, scene.edges[low]), moving_edge(scene, scene.edges[high]))
        }
    };
    let mut out = Vec::new();
    for a in &first {
        out.extend(second.iter().map(|b| [a.clone(), b.clone()]));
    }
    out
}

pub fn pieces(scene: &Scene, pair: Pair) -> Vec<Piece> {
    let points = |corners: &[Corner]| corners.iter().map(|corner| corner.point(scene)).collect();
    let piece = |[first, second]: &[Vec<Corner>; 2]| Piece { first: points(first), second: points(second) };
    corners(scene, pair).iter().map(piece).collect()
}
