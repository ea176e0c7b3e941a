//! A scene without seams played backwards, by §10 of document 02: start and end swapped, the vertices numbered from last to first, edges and
//! triangles in their places; and which pair and which piece corresponds to which.

use crate::scene::{Kind, Pair, Scene};

pub fn turned(scene: &Scene) -> Scene {
    assert!(scene.seams.is_empty(), "only a scene without seams is played backwards");
    let number = |vertex: usize| scene.vertices.len() - 1 - vertex;
    Scene {
        vertices: swapped(scene).vertices.into_iter().rev().collect(),
        edges: scene.edges.iter().map(|ends| ends.map(number)).collect(),
        triangles: scene.triangles.iter().map(|corners| corners.map(number)).collect(),
        seams: vec![],
    }
}

/// Start and end swapped, and nothing else: the cuts of faces and edges then change.
pub fn swapped(scene: &Scene) -> Scene {
    let vertices = scene.vertices.iter().map(|&[a, b, c, d, e, f]| [d, e, f, a, b, c]).collect();
    Scene { vertices, ..scene.clone() }
}

pub fn pair(scene: &Scene, pair: Pair) -> Pair {
    match pair.kind {
        Kind::PointTriangle => Pair::pt(scene.vertices.len() - 1 - pair.first, pair.second),
        Kind::EdgeEdge => pair,
    }
}

/// Of all pieces of a pair, those of the corresponding pair, in the order of the first.
pub fn pieces<T>(of_corresponding: Vec<T>) -> Vec<T> {
    of_corresponding.into_iter().rev().collect()
}
