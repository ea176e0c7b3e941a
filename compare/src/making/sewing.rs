//! Seams for scenes from seeds: vertices split in two and sewn together again, vertices that are brought to one place, sheets with a common border.

use crate::numbers::random::Random;
use crate::scene::*;

/// A scene as it was made, or with some of its vertices split.
pub fn perhaps(random: &mut Random, scene: Scene) -> Scene {
    if random.chance(3) {
        return scene;
    }
    let copies = 1 + random.below(4);
    split(random, scene, copies)
}

/// The scene with so many vertices split: a copy stands at the end of the vertices, some parts of the vertex go to the copy, and a seam says that it
/// stands for the vertex. Sharing and corner order are then those of the scene that was split.
pub fn split(random: &mut Random, mut scene: Scene, copies: usize) -> Scene {
    let room = VERTEX_LIMIT - scene.vertices.len();
    let whole: Vec<usize> = (0..scene.vertices.len()).filter(|&v| scene.stands_for(v) == v).collect();
    for _ in 0..copies.min(room).min(whole.len()) {
        let (vertex, copy) = (random.pick(&whole), scene.vertices.len());
        scene.vertices.push(scene.vertices[vertex]);
        let numbers = scene.edges.iter_mut().flatten().chain(scene.triangles.iter_mut().flatten());
        numbers.filter(|number| **number == vertex).for_each(|number| {
            if random.chance(2) {
                *number = copy;
            }
        });
        scene.seams.push([copy, vertex]);
    }
    scene
}

/// Some vertices from `first` on brought to the place of one `back` before it, and sewn to it. No part may have both.
pub fn gathered(random: &mut Random, mut scene: Scene, first: usize, back: usize) -> Scene {
    let seldom = 1 + random.below(12);
    for vertex in first..scene.vertices.len() {
        let other = vertex - back;
        let together = scene.parts().any(|part| part.contains(&vertex) && part.iter().any(|&v| scene.stands_for(v) == other));
        if !together && scene.stands_for(other) == other && random.chance(seldom) {
            scene.vertices[vertex] = scene.vertices[other];
            scene.seams.push([vertex, other]);
        }
    }
    scene
}
