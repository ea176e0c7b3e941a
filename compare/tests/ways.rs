//! The other ways to judge: weights by Cramer's rule, held to elimination, and the cubic on the shown cases.

use compare::making::cases::shown;
use compare::making::generate;
use compare::scene::pieces::pieces;
use compare::scene::{all_pairs, Kind};
use compare::verdicts::verdict::{joined, of_piece, Verdict};
use compare::ways::cubic::{edge_edge, point_triangle, Moving};
use compare::ways::signs::{none_opposed, weights};

#[test]
fn exact_weights_give_the_verdicts_of_elimination() {
    for seed in 0..60 {
        let scene = generate::scene(seed);
        let pairs = all_pairs(&scene).into_iter().filter(|pair| !pair.shares_a_vertex(&scene)).take(60);
        for piece in pairs.flat_map(|pair| pieces(&scene, pair)) {
            let (weights, sum) = weights::<i128>(&piece);
            let verdict = match (sum == 0, none_opposed(&weights)) {
                (true, _) => Verdict::Degenerate,
                (false, true) => Verdict::Hit,
                (false, false) => Verdict::Miss,
            };
            assert_eq!(verdict, of_piece(&piece));
        }
    }
}

/// Where nothing is flat or near, the two ways agree on the shown cases.
#[test]
fn the_shown_cases_that_are_not_degenerate() {
    for case in shown() {
        let moving = |v: usize| {
            let v = case.scene.vertices[v].map(|n| n as f64);
            [[v[0], v[1], v[2]], [v[3], v[4], v[5]]]
        };
        let m: [Moving; 4] = [0, 1, 2, 3].map(moving);
        let hit = match case.pair.kind {
            Kind::PointTriangle => point_triangle(&m[3], [&m[0], &m[1], &m[2]], 0.0),
            Kind::EdgeEdge => edge_edge([&m[0], &m[1]], [&m[2], &m[3]], 0.0),
        };
        assert_eq!(hit, joined(&case.pieces) == Verdict::Hit);
    }
}
