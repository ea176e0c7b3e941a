//! Which pairs are listed.

use crate::scene::refusal::{Refusal, NO_ROOM};
use crate::scene::{all_pairs, Pair, Scene};

/// Each axis with itself.
const EACH_AXIS: [(usize, usize); 3] = [(0, 0), (1, 1), (2, 2)];

/// On one axis, the smallest and the largest value of the joint box of some vertices.
fn extent(scene: &Scene, vertices: &[usize], axis: usize) -> (i64, i64) {
    let (mut low, mut high) = (i64::MAX, i64::MIN);
    for &v in vertices {
        let (start, end) = (scene.vertices[v][axis], scene.vertices[v][axis + 3]);
        (low, high) = (low.min(start).min(end), high.max(start).max(end));
    }
    (low, high)
}

pub fn boxes_meet(scene: &Scene, pair: Pair) -> bool {
    boxes_meet_on(scene, pair, EACH_AXIS)
}

/// On each axis of the first part, with this one of the second.
pub fn boxes_meet_on(scene: &Scene, pair: Pair, axes: [(usize, usize); 3]) -> bool {
    let (first, second) = pair.parts(scene);
    joint_boxes_meet_on(scene, first, second, axes)
}

/// The same of the joint boxes of some vertices.
pub fn joint_boxes_meet_on(scene: &Scene, first: &[usize], second: &[usize], axes: [(usize, usize); 3]) -> bool {
    axes.into_iter().all(|(one, other)| {
        let (a, b) = (extent(scene, first, one), extent(scene, second, other));
        a.0 <= b.1 && b.0 <= a.1
    })
}

pub fn joint_boxes_meet(scene: &Scene, first: &[usize], second: &[usize]) -> bool {
    joint_boxes_meet_on(scene, first, second, EACH_AXIS)
}

pub fn is_listed(scene: &Scene, pair: Pair) -> bool {
    boxes_meet(scene, pair) && !pair.shares_a_vertex(scene)
}

pub fn is_culled(scene: &Scene, pair: Pair) -> bool {
    !boxes_meet(scene, pair) && !pair.shares_a_vertex(scene)
}

/// Every listed pair, in order.
pub fn listed(scene: &Scene) -> Vec<Pair> {
    all_pairs(scene).into_iter().filter(|&pair| is_listed(scene, pair)).collect()
}

pub fn list(scene: &Scene, room: usize) -> Result<Vec<Pair>, Refusal> {
    let listed = listed(scene);
    if listed.len() > room {
        return Err(Refusal::new(NO_ROOM, listed.len() as u64));
    }
    Ok(listed)
}
