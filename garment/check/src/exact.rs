//! The independent program's answers for a mesh of any size.

use compare::contacts::{self, Contact};
use compare::list::listing::{boxes_meet, is_listed};
use compare::numbers::equations::{self, Point};
use compare::scene::{Pair as ExactPair, Scene as ExactScene};
use compare::verdicts::settled::of_pair;
use garment::mesh::Mesh;
use garment::pairs::{Kind, Pair};
use makhnodri::Settled;

/// The mesh as the independent program has one, its seams as seams: that program goes by the vertex stood for in its own way.
pub fn scene(mesh: &Mesh) -> ExactScene {
    let number = |vertex: u32| vertex as usize;
    ExactScene {
        vertices: mesh.positions.iter().map(|position| position.map(i64::from)).collect(),
        edges: mesh.edges.iter().map(|edge| edge.map(number)).collect(),
        triangles: mesh.triangles.iter().map(|triangle| triangle.map(number)).collect(),
        seams: mesh.sewn().map(|seam| seam.map(number)).collect(),
    }
}

fn exactly(pair: Pair) -> ExactPair {
    match pair.kind {
        Kind::PointTriangle => ExactPair::pt(pair.first as usize, pair.second as usize),
        Kind::EdgeEdge => ExactPair::ee(pair.first as usize, pair.second as usize),
    }
}

/// The listed pairs of one row, every other part tried.
pub fn row(mesh: &Mesh, scene: &ExactScene, row: usize) -> Vec<Pair> {
    let (vertices, edges, triangles) = (mesh.positions.len(), mesh.edges.len() as u32, mesh.triangles.len() as u32);
    let listed = |pair: &Pair| is_listed(scene, exactly(*pair));
    if row < vertices {
        let first = row as u32;
        (0..triangles).map(|second| Pair { kind: Kind::PointTriangle, first, second }).filter(listed).collect()
    } else {
        let first = (row - vertices) as u32;
        (first + 1..edges).map(|second| Pair { kind: Kind::EdgeEdge, first, second }).filter(listed).collect()
    }
}

pub fn listed(mesh: &Mesh) -> Vec<Pair> {
    let scene = scene(mesh);
    (0..mesh.positions.len() + mesh.edges.len()).flat_map(|number| row(mesh, &scene, number)).collect()
}

pub fn settled(scene: &ExactScene, pair: Pair) -> Settled {
    match of_pair(scene, exactly(pair)) {
        compare::verdicts::settled::Settled::Hit => Settled::Hit,
        compare::verdicts::settled::Settled::Miss => Settled::Miss,
        compare::verdicts::settled::Settled::Touch => Settled::Touch,
        compare::verdicts::settled::Settled::Apart => Settled::Apart,
    }
}

pub fn meet(scene: &ExactScene, pair: Pair) -> bool {
    boxes_meet(scene, exactly(pair))
}

pub fn contact(scene: &ExactScene, pair: Pair) -> Option<Contact> {
    contacts::of_pair(scene, exactly(pair))
}

/// The whole report, as the program must write it.
pub fn report(mesh: &Mesh) -> String {
    let scene = scene(mesh);
    let (mut text, mut tally) = (String::new(), garment::report::Tally::default());
    for pair in listed(mesh) {
        let word = settled(&scene, pair);
        tally.add(word);
        text += &format!("{}\t{}\t{}\t{word}\n", pair.kind, pair.first, pair.second);
    }
    let [hit, miss, touch, apart] = garment::report::WORDS.map(|word| tally.of(word));
    text + &format!("total\t{}\t{hit}\t{miss}\t{touch}\t{apart}\n", tally.listed())
}

/// All contacts, as the program must write them; or 16, where any coordinate is beyond their range.
pub fn contacts(mesh: &Mesh) -> String {
    let scene = scene(mesh);
    let found = contacts::refuse_beyond(&scene).map(|()| {
        let listed = listed(mesh);
        let hit = |&pair: &Pair| contact(&scene, pair).map(|contact| (exactly(pair), contact));
        (listed.len(), listed.iter().filter_map(hit).collect())
    });
    contacts::written(&found)
}

/// Whether an edge and a triangle that share no vertex have a place in common at the start, by the equations of nonnegative weights.
pub fn pierced(scene: &ExactScene, edge: usize, triangle: usize) -> bool {
    let (ends, corners) = (&scene.edges[edge], &scene.triangles[triangle]);
    let shared = ends.iter().any(|&end| corners.iter().any(|&corner| scene.stands_for(end) == scene.stands_for(corner)));
    let along = |part: &[usize], axis: usize| part.iter().map(|&vertex| scene.vertices[vertex][axis]).collect::<Vec<i64>>();
    let below = |one: &[usize], other: &[usize], axis: usize| along(one, axis).iter().max() < along(other, axis).iter().min();
    if shared || (0..3).any(|axis| below(ends, corners, axis) || below(corners, ends, axis)) {
        return false;
    }
    let point = |&vertex: &usize| {
        let [x, y, z, ..] = scene.vertices[vertex];
        Point::from([x, y, z, 0])
    };
    equations::meet(&ends.iter().map(point).collect::<Vec<_>>(), &corners.iter().map(point).collect::<Vec<_>>())
}
