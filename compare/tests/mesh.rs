//! Calls over meshes: what their definitions say with numbers, other ways to the same rows, and each mistake noticed and told from every other.

use compare::calls::slices;
use compare::list::listing;
use compare::mesh::answering::Answering;
use compare::mesh::lent::*;
use compare::mesh::making::{self, drawn, fixed, large, seeded};
use compare::mesh::rows;
use compare::mesh::wrong::{Wrong, ALL};
use compare::numbers::random::Random;
use compare::scene::*;
use compare::verdicts::settled::{self, Settled};
use std::collections::BTreeSet;

/// Every kind of scene has had its turn, and a large mesh.
const SEEDS: u64 = 44;

fn asks() -> impl Iterator<Item = Ask> {
    fixed().into_iter().chain((0..SEEDS).flat_map(seeded))
}

/// What a program does that makes this mistake, where it is not right.
#[test]
fn each_mistake_is_told_from_every_other() {
    let mut unseen: BTreeSet<usize> = (0..ALL.len()).collect();
    let mut alike: BTreeSet<(usize, usize)> = (0..ALL.len()).flat_map(|a| (0..a).map(move |b| (a, b))).collect();
    let mut answering = Answering::default();
    for ask in asks() {
        let mut heard = |wrong: Wrong| {
            let (number, lent) = answering.answer(&ask, wrong);
            (number, lent.told_apart())
        };
        let right = heard(Wrong::Nothing);
        let answers: Vec<Option<(u64, Lent)>> = (0..ALL.len())
            .map(|at| {
                let wanted = unseen.contains(&at) || alike.iter().any(|&(a, b)| a == at || b == at);
                wanted.then(|| heard(ALL[at].0)).filter(|given| *given != right)
            })
            .collect();
        unseen.retain(|&at| answers[at].is_none());
        alike.retain(|&(a, b)| answers[a] == answers[b]);
        if unseen.is_empty() && alike.is_empty() {
            return;
        }
    }
    let says = |at: &usize| ALL[*at].1;
    let alike: Vec<_> = alike.iter().map(|(a, b)| (says(a), says(b))).collect();
    panic!("not noticed: {:?}; not told apart: {alike:?}", unseen.iter().map(says).collect::<Vec<_>>());
}

/// All rows are the list of document 01, and neighbouring stretches join.
#[test]
fn rows_are_the_list() {
    for seed in 0..SEEDS {
        let scene = drawn(seed);
        let listed = listing::listed(&scene);
        let all = rows::row_count(&scene);
        let cut = Random::new(seed).below(all + 1);
        let stretch = |which: RowPairs, ends: [usize; 2]| rows::rows_in(&scene, &listed, which, ends, Wrong::Nothing);
        assert_eq!(stretch(RowPairs::Listed, [0, all]), listed);
        for which in [RowPairs::Listed, RowPairs::Near] {
            assert_eq!([stretch(which, [0, cut]), stretch(which, [cut, all])].concat(), stretch(which, [0, all]));
        }
        let entries: Vec<u64> = listed.iter().map(|&pair| rows::entry(pair, Wrong::Nothing)).collect();
        assert!(entries.windows(2).all(|two| two[0] < two[1]), "entries rise");
    }
}

/// A pair that is not listed is far, and a far pair touches in no piece.
#[test]
fn what_is_far_does_not_touch() {
    let mut left_out = 0;
    for seed in 0..SEEDS {
        let scene = drawn(seed);
        for pair in all_pairs(&scene).into_iter().filter(|pair| !pair.shares_a_vertex(&scene)) {
            let far = rows::is_far(&scene, pair, Wrong::Nothing);
            assert!(far || listing::is_listed(&scene, pair), "{pair:?} of seed {seed}");
            if far && listing::is_listed(&scene, pair) {
                left_out += 1;
                assert!([Settled::Miss, Settled::Apart].contains(&settled::of_pair(&scene, pair)), "{pair:?} of seed {seed}");
            }
        }
    }
    assert!(left_out > 50, "{left_out} listed pairs that are far");
}

/// An entry of the printed scene's pairs, and of the largest places that there are.
#[test]
fn an_entry_is_as_the_definition_says() {
    let entry = |pair: Pair| rows::entry(pair, Wrong::Nothing);
    assert_eq!(entry(Pair::pt(3, 0)), 3 << 32);
    assert_eq!(entry(Pair::ee(0, 1)), (1 << 63) + 1);
    let most = (1 << 30) - 1;
    assert_eq!(entry(Pair::ee(most - 1, most)), (1 << 63) + ((most as u64 - 1) << 32) + most as u64);
}

/// 12,288 box numbers and more: for 512, 1,024 and 512 parts 6 x (2,048 + 84 + 50).
#[test]
fn the_room_of_the_scratch_is_as_the_definition_says() {
    let of = |vertices: usize, edges: usize, triangles: usize| Lent {
        positions: vec![0; 6 * vertices],
        edges: vec![0; 2 * edges],
        triangles: vec![0; 3 * triangles],
        ..Lent::default()
    };
    let mut lent = of(512, 1_024, 512);
    assert_eq!((lent.table_room(), lent.place_room(), lent.box_room()), (0, 1_536, 6 * (2_048 + 84 + 50)));
    lent.seams = vec![1, 0];
    lent.edge_order = vec![0; 1_024];
    assert_eq!((lent.table_room(), lent.place_room()), (512, 1_536 + 2_048));
    assert_eq!(of(0, 0, 0).box_room(), 6 * 32);
}

/// A scene's own call and a mesh's answer alike.
#[test]
fn a_scene_is_a_mesh() {
    for seed in 0..SEEDS {
        let scene = drawn(seed);
        let flat = slices::flat(&scene);
        let listed = slices::list(flat.slices(), usize::MAX).expect("it is a scene").len();
        let mut lent = Lent::of_scene(&scene);
        lent.table = vec![0; lent.table_room()];
        (lent.places, lent.boxes) = (vec![0; lent.place_room()], vec![0; lent.box_room()]);
        lent.told = vec![7];
        let ask = Ask { call: Call::Count(RowPairs::Listed), asked: [0, rows::row_count(&scene) as u64, 0], lent };
        let (number, left) = Answering::default().answer(&ask, Wrong::Nothing);
        assert_eq!((number, left.told), (0, vec![listed as u64]));
    }
}

/// A large mesh is over the sizes of a scene, its own sides are its edges, and one of its edges is through a triangle at the end.
#[test]
fn large_meshes_are_large() {
    let scene = large(&mut Random::new(5));
    assert!(scene.vertices.len() > VERTEX_LIMIT && scene.edges.len() > EDGE_LIMIT && scene.triangles.len() > TRIANGLE_LIMIT);
    let (sides, order) = making::certificate(&scene);
    let mut lent = Lent { sides, order, told: vec![9, 9], ..Lent::of_scene(&scene) };
    (lent.table, lent.places) = (vec![0; lent.table_room()], vec![0; scene.edges.len()]);
    let (number, left) = Answering::default().answer(&Ask { call: Call::CheckEdges, asked: [0; 3], lent }, Wrong::Nothing);
    assert_eq!((number, left.told), (0, vec![0, 0]));
    assert!(listing::listed(&scene).len() < 20_000);
}

/// The needle through the triangle of document 01's cases: at the start above it, at the end through it.
#[test]
fn pierced_is_as_the_definition_says() {
    let vertices = [[0, 0, 0], [4, 0, 0], [0, 4, 0]].map(|[x, y, z]| [x, y, z, x, y, z]).into_iter();
    let needle = [[1, 1, 3, 1, 1, 1], [1, 1, 1, 1, 1, -1]];
    let scene = Scene {
        vertices: vertices.chain(needle).collect(),
        edges: vec![[0, 1], [3, 4]],
        triangles: vec![[0, 1, 2]],
        seams: vec![],
    };
    let at = |time: Time| rows::pierced_in(&scene, time, [0, 2], Wrong::Nothing);
    assert_eq!(at(Time::Start), Vec::<[usize; 2]>::new());
    assert_eq!(at(Time::End), [[1, 0]]);
}
