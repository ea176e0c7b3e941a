//! The independent program held against other ways of saying the same thing, and against the demands, on scenes
//! from seeds.

use compare::list::listing::{self, is_culled, list};
use compare::making::generate::{self, rewritten, KINDS};
use compare::numbers::equations::{meet, Point, Solutions};
use compare::numbers::random::Random;
use compare::numbers::whole::Whole;
use compare::report::{judged_scene, written};
use compare::scene::affine::{determinant, Affine};
use compare::scene::backwards;
use compare::scene::pieces::{pieces, Piece};
use compare::scene::*;
use compare::text::{read, write};
use compare::verdicts::settled::{self, Settled};
use compare::verdicts::verdict::{of_pair, of_piece, of_pieces, touches, Verdict};
use compare::ways::search::{searched, Way};

/// The crowded kind is left out where every pair is looked at.
fn small_scenes(rounds: u64) -> impl Iterator<Item = (u64, Scene)> {
    let kinds = KINDS.len() as u64;
    (0..rounds * kinds).filter(move |seed| seed % kinds != kinds - 1).map(|seed| (seed, generate::scene(seed)))
}

fn unshared_pairs(scene: &Scene) -> Vec<Pair> {
    all_pairs(scene).into_iter().filter(|pair| !pair.shares_a_vertex(scene)).collect()
}

/// Some of each kind from each scene.
fn small_pieces(rounds: u64) -> impl Iterator<Item = Piece> {
    small_scenes(rounds).flat_map(|(_, scene)| {
        let (points, edges): (Vec<Pair>, Vec<Pair>) =
            unshared_pairs(&scene).into_iter().partition(|pair| pair.kind == Kind::PointTriangle);
        let some = |pairs: Vec<Pair>| pairs.into_iter().flat_map(|pair| pieces(&scene, pair)).take(40).collect::<Vec<Piece>>();
        [some(points), some(edges)].concat()
    })
}

fn cofactors(rows: &[Vec<i128>]) -> i128 {
    let Some((top, below)) = rows.split_first() else { return 1 };
    let without = |column: usize| -> Vec<Vec<i128>> {
        below.iter().map(|row| row.iter().enumerate().filter(|(i, _)| *i != column).map(|(_, n)| *n).collect()).collect()
    };
    let signed = |column: usize| if column.is_multiple_of(2) { top[column] } else { -top[column] };
    (0..top.len()).filter(|&column| top[column] != 0).map(|column| signed(column) * cofactors(&without(column))).sum()
}

/// The six equations' columns, for the determinant by its plain definition. (At most 6! times the limit cubed, so
/// it fits.)
fn columns(piece: &Piece) -> Vec<Vec<i128>> {
    let column = |first: i128, p: &Point| -> Vec<i128> {
        let agree = p.iter().map(|&n| if first == 1 { n as i128 } else { -(n as i128) });
        [first, 1 - first].into_iter().chain(agree).collect()
    };
    let first = piece.first.iter().map(|p| column(1, p));
    first.chain(piece.second.iter().map(|p| column(0, p))).collect()
}

#[test]
fn singular_exactly_when_the_determinant_by_cofactors_is_0() {
    let (mut flat, mut whole) = (0, 0);
    for piece in small_pieces(6) {
        let zero = cofactors(&columns(&piece)) == 0;
        assert_eq!(of_piece(&piece) == Verdict::Degenerate, zero, "{piece:?}");
        *(if zero { &mut flat } else { &mut whole }) += 1;
    }
    assert!(flat > 300 && whole > 300, "{flat} singular, {whole} not");
}

/// Cramer's rule with the 6 by 6 determinants as they stand.
#[test]
fn the_solved_weights_are_those_of_cramers_rule() {
    for piece in small_pieces(2) {
        let columns = columns(&piece);
        let below = cofactors(&columns);
        if below == 0 {
            continue;
        }
        let solved = Solutions::of(&piece.first, &piece.second).only();
        for (place, (numerator, denominator)) in solved.iter().enumerate() {
            let mut replaced = columns.clone();
            replaced[place] = vec![1, 1, 0, 0, 0, 0];
            let above = cofactors(&replaced);
            assert_eq!(denominator.sign(), 1);
            assert_eq!(numerator.times(&Whole::from(below)), denominator.times(&Whole::from(above)), "{piece:?}");
        }
    }
}

/// A system with weights has some whose points, those of weight 0 left out, allow no others: one of the 63 choices.
fn meets_by_choices(piece: &Piece) -> bool {
    let chosen = |points: &[Point], choice: usize| -> Vec<Point> {
        points.iter().enumerate().filter(|(i, _)| choice >> i & 1 == 1).map(|(_, p)| *p).collect()
    };
    (1..1usize << piece.first.len()).any(|a| {
        (1..1usize << piece.second.len()).any(|b| {
            let solutions = Solutions::of(&chosen(&piece.first, a), &chosen(&piece.second, b));
            !solutions.singular() && solutions.any_nonnegative()
        })
    })
}

#[test]
fn touching_is_found_alike_by_bounds_and_by_choices() {
    let (mut touch, mut apart) = (0, 0);
    for piece in small_pieces(3) {
        let touching = touches(&piece);
        assert_eq!(touching, meets_by_choices(&piece), "{piece:?}");
        match settled::of_piece(&piece) {
            Settled::Hit => assert!(touching),
            Settled::Miss => assert!(!touching),
            Settled::Touch => touch += touching as u32,
            Settled::Apart => apart += !touching as u32,
        }
    }
    assert!(touch > 500 && apart > 500, "of the singular pieces {touch} touch, {apart} do not");
}

/// Whether these weights are what document 01 asks for, put back into its equations.
fn solve(piece: &Piece, weights: &[i128]) -> bool {
    let (first, second) = weights.split_at(piece.first.len());
    let weighted = |points: &[Point], weights: &[i128], axis: usize| -> i128 {
        points.iter().zip(weights).map(|(p, w)| w * p[axis] as i128).sum()
    };
    let sum: i128 = first.iter().sum();
    weights.iter().all(|&weight| weight >= 0)
        && sum > 0
        && sum == second.iter().sum()
        && (0..4).all(|axis| weighted(&piece.first, first, axis) == weighted(&piece.second, second, axis))
}

/// The sketch of the library's search finds weights exactly where there are some, and those that it finds are weights.
#[test]
fn the_search_finds_weights_where_there_are_some() {
    let (mut touch, mut apart) = (0, 0);
    for piece in small_pieces(12).filter(|piece| of_piece(piece) == Verdict::Degenerate) {
        match searched(&piece, Way::Library).0 {
            Some(weights) => {
                touch += 1;
                assert!(solve(&piece, &weights), "{piece:?} {weights:?}");
            }
            None => {
                apart += 1;
                assert!(!touches(&piece), "{piece:?}");
            }
        }
    }
    assert!(touch > 2_000 && apart > 2_000, "{touch} touch, {apart} apart");
}

/// A singular piece has weights exactly when it has some with one corner left out.
#[test]
fn one_corner_may_be_left_out() {
    let mut tried = [0; 2];
    for piece in small_pieces(8).filter(|piece| of_piece(piece) == Verdict::Degenerate) {
        let without = |points: &[Point], i: usize| -> Vec<Point> { [&points[..i], &points[i + 1..]].concat() };
        let first = (0..piece.first.len()).any(|i| meet(&without(&piece.first, i), &piece.second));
        let second = (0..piece.second.len()).any(|i| meet(&piece.first, &without(&piece.second, i)));
        assert_eq!(touches(&piece), first || second, "{piece:?}");
        tried[0] += (first && !second) as u32;
        tried[1] += (second && !first) as u32;
    }
    assert!(tried.iter().all(|&times| times > 5), "only in the first simplex, only in the second: {tried:?}");
}

#[test]
fn a_culled_pair_touches_in_no_piece_and_at_no_time() {
    let mut culled = 0;
    for (_, scene) in small_scenes(12) {
        for pair in unshared_pairs(&scene).into_iter().filter(|&pair| is_culled(&scene, pair)).take(20) {
            culled += 1;
            assert!(!pieces(&scene, pair).iter().any(touches));
            assert!(![Settled::Hit, Settled::Touch].contains(&settled::of_pair(&scene, pair)));
            for (p, q) in [(0, 1), (1, 1), (1, 2), (1, 3), (5, 7), (999, 1000)] {
                let at = |vertex: &usize| {
                    let v = scene.vertices[*vertex];
                    [0, 1, 2, 3].map(|axis| if axis == 3 { 0 } else { (q - p) * v[axis] + p * v[axis + 3] })
                };
                let (first, second) = pair.parts(&scene);
                let (first, second): (Vec<Point>, Vec<Point>) = (first.iter().map(at).collect(), second.iter().map(at).collect());
                assert!(!meet(&first, &second));
            }
        }
    }
    assert!(culled > 500, "{culled} culled");
}

#[test]
fn demand_3_every_unshared_pair_and_piece_keeps_its_verdict() {
    let (mut pairs, mut both_listed, mut one_listed) = (0, 0, 0);
    for (seed, scene) in small_scenes(12) {
        let affine = Affine::draw(&mut Random::new(seed), &scene);
        assert_ne!(determinant(&affine.matrix), 0);
        let sent = affine.send(&scene);
        if read(write(&sent).as_bytes()).is_err() {
            continue;
        }
        for pair in unshared_pairs(&scene).into_iter().take(60) {
            pairs += 1;
            assert_eq!(of_pieces(&scene, pair), of_pieces(&sent, pair), "seed {seed}, {pair:?}, {affine:?}");
            assert_eq!(settled::of_pieces(&scene, pair), settled::of_pieces(&sent, pair), "seed {seed}, {pair:?}, {affine:?}");
            let culled = is_culled(&scene, pair) as u32 + is_culled(&sent, pair) as u32;
            assert!(culled == 0 || of_pair(&scene, pair) != Verdict::Hit);
            assert!(culled == 0 || settled::of_pair(&scene, pair) != Settled::Touch);
            both_listed += (culled == 0) as u32;
            one_listed += (culled == 1) as u32;
        }
    }
    assert!(
        pairs > 2000 && both_listed > 500 && one_listed > 50,
        "{pairs} pairs, {both_listed} listed in both, {one_listed} in one"
    );
}

/// §10 of document 02: the same list as a set, the same words of corresponding pairs and pieces, and turned twice the scene.
#[test]
fn played_backwards_every_corresponding_pair_and_piece_keeps_its_word() {
    let (mut pairs, mut listed, mut changed) = (0, 0, 0);
    for (seed, scene) in small_scenes(12) {
        let scene = scene.unsewn();
        let back = backwards::turned(&scene);
        assert_eq!(backwards::turned(&back), scene);
        assert_eq!(read(write(&scene).as_bytes()).err().map(|r| r.number), read(write(&back).as_bytes()).err().map(|r| r.number));
        let mut list: Vec<Pair> = listing::listed(&scene).into_iter().map(|pair| backwards::pair(&scene, pair)).collect();
        list.sort_by_key(|pair| (pair.kind == Kind::EdgeEdge, pair.first, pair.second));
        assert_eq!(list, listing::listed(&back), "seed {seed}");
        listed += list.len();
        for pair in unshared_pairs(&scene).into_iter().take(60) {
            pairs += 1;
            let other = backwards::pair(&scene, pair);
            assert_eq!(of_pieces(&scene, pair), backwards::pieces(of_pieces(&back, other)), "seed {seed}, {pair:?}");
            let words = settled::of_pieces(&scene, pair);
            assert_eq!(words, backwards::pieces(settled::of_pieces(&back, other)), "seed {seed}, {pair:?}");
            let swapped = settled::of_pieces(&backwards::swapped(&scene), pair);
            changed += (settled::joined(&words) != settled::joined(&swapped)) as u32;
        }
    }
    assert!(pairs > 2_000 && listed > 2_000, "{pairs} pairs, {listed} listed");
    assert!(changed > 20, "start and end swapped alone changes {changed} words");
}

/// The lines of a report and of the report of the scene turned round correspond, and the last is the same.
#[test]
fn played_backwards_the_totals_are_the_same() {
    for seed in 0..6 * KINDS.len() as u64 {
        let scene = generate::scene(seed).unsewn();
        let report = |scene: &Scene| written(&judged_scene(scene, REPORT_ROOM));
        let (one, other) = (report(&scene), report(&backwards::turned(&scene)));
        assert_eq!(one.lines().last(), other.lines().last(), "seed {seed}");
        assert_eq!(one.lines().count(), other.lines().count(), "seed {seed}");
    }
}

#[test]
fn the_order_of_ends_and_corners_changes_nothing() {
    for (seed, scene) in small_scenes(12) {
        let report = |scene: &Scene| written(&judged_scene(scene, REPORT_ROOM));
        let other = rewritten(&mut Random::new(seed), &scene);
        assert_eq!(report(&scene), report(&other), "seed {seed}");
    }
}

#[test]
fn an_edge_pair_is_the_same_from_either_side() {
    for (_, scene) in small_scenes(4) {
        for pair in unshared_pairs(&scene).into_iter().filter(|pair| pair.kind == Kind::EdgeEdge).take(20) {
            let turned = Pair::ee(pair.second, pair.first);
            assert_eq!(of_pieces(&scene, pair), of_pieces(&scene, turned));
            assert_eq!(settled::of_pieces(&scene, pair), settled::of_pieces(&scene, turned));
        }
    }
}

#[test]
fn accepted_texts_are_the_scenes_they_were_written_from() {
    for seed in 0..50 * KINDS.len() as u64 {
        let scene = generate::scene(seed);
        if let Ok(read) = read(write(&scene).as_bytes()) {
            assert_eq!(read, scene);
        }
        if let Err(refusal) = list(&scene, REPORT_ROOM) {
            assert!(refusal.third > REPORT_ROOM as u64);
        }
    }
}
