//! The calls for an edge and a triangle of a scene at one time: questions, and the sorts of question.

use super::bounds::beyond;
use super::harm::stands_for;
use super::question::*;
use crate::mesh::lent::Time;
use crate::numbers::random::Random;
use crate::scene::refusal::*;
use crate::scene::*;

const TIMES: [Time; 2] = [Time::Start, Time::End];
/// Edges and triangles that are asked about in one scene.
const MOST: usize = 12;

/// Some edges and triangles, the shared ones too; and places just at their bound and beyond.
pub fn about(random: &mut Random, scene: &Scene) -> Vec<Question> {
    let (edges, triangles) = (scene.edges.len(), scene.triangles.len());
    let mut asked =
        vec![[edges, 0], [0, triangles], [edges, triangles]].into_iter().map(|two| two.map(|n| n as u64)).collect::<Vec<_>>();
    asked.push([beyond(random, edges), 0]);
    asked.push([0, beyond(random, triangles)]);
    if edges > 0 && triangles > 0 {
        asked.extend((0..MOST).map(|_| [random.below(edges) as u64, random.below(triangles) as u64]));
    }
    let ask = |[edge, triangle]: [u64; 2]| {
        TIMES.map(|time| Question { call: Call::Pierced(time), asked: [edge, triangle, 0], lent: Lent::of_scene(scene) })
    };
    asked.into_iter().flat_map(ask).collect()
}

const SORTS: [&str; 6] = ["yes", "no", "5, edge", "5, triangle", "6 by a number", "6 by a seam"];

pub fn sorts() -> Vec<String> {
    TIMES.into_iter().flat_map(|time| SORTS.map(|sort| format!("{}: {sort}", Call::Pierced(time).name()))).collect()
}

pub fn sorts_of(question: &Question, answer: &Answer) -> Vec<String> {
    let lent = &question.lent;
    let [edge, triangle, _] = question.asked;
    let mut out = Vec::new();
    let mut add = |holds: bool, sort: &str| out.extend(holds.then(|| format!("{}: {sort}", question.call.name())));
    let given = answer.refusal();
    add(answer.number == 1, "yes");
    add(answer.number == 0, "no");
    add(given == NOT_THERE && edge >= lent.edges.len() as u64 / 2, "5, edge");
    add(given == NOT_THERE && triangle >= lent.triangles.len() as u64 / 3, "5, triangle");
    if given == SHARES_A_VERTEX {
        let ends = &lent.edges[2 * edge as usize..][..2];
        let corners = &lent.triangles[3 * triangle as usize..][..3];
        let by_number = ends.iter().any(|end| corners.contains(end));
        add(by_number, "6 by a number");
        let sewn = |vertex: &u16| stands_for(&lent.seams, *vertex);
        add(!by_number && ends.iter().any(|end| corners.iter().any(|corner| sewn(corner) == sewn(end))), "6 by a seam");
    }
    out
}
