//! Cloth at rest: each wrong way to decide a degenerate piece differs from the right answer, on a scene that is kept and
//! on scenes from seeds; and the generated scenes are what they are said to be.

use compare::making::generate::{self, KINDS};
use compare::making::kept;
use compare::report::mistakes::{self, Right};
use compare::scene::pieces::{pieces, Piece};
use compare::scene::{all_pairs, Scene, REPORT_ROOM};
use compare::verdicts::settled::{of_pair, of_piece, Settled};
use compare::verdicts::verdict::Verdict;
use compare::ways::quick::{parted, Look};
use compare::ways::search::{touches, Way};

fn kept_report(key: &str, name: &str) -> (String, String) {
    let text = std::fs::read(kept::folder().join(format!("{name}.scene"))).unwrap();
    let right = Right::of(&text, REPORT_ROOM);
    let mistake = mistakes::find(key).unwrap_or_else(|| panic!("no mistake is called {key}"));
    (right.report(), mistake.report(&right))
}

fn totals(report: &str) -> Vec<u32> {
    let total = report.lines().last().unwrap().strip_prefix("total\t").unwrap();
    total.split('\t').map(|count| count.parse().unwrap()).collect()
}

/// Listed, hits, misses, touch, apart: of the right report, then of the wrong one.
#[test]
fn wrong_ways_on_kept_scenes() {
    let table: [(&str, &str, [u32; 5], [u32; 5]); 12] = [
        ("strict-turn", "strict-turn", [4, 0, 0, 3, 1], [4, 0, 0, 1, 3]),
        ("strict-turn", "in-one-place", [16, 0, 0, 16, 0], [16, 0, 0, 6, 10]),
        ("first-simplex", "strict-turn", [4, 0, 0, 3, 1], [4, 0, 0, 1, 3]),
        ("first-simplex", "in-one-place", [16, 0, 0, 16, 0], [16, 0, 0, 0, 16]),
        ("zero-weights", "planar-sliding", [10, 0, 0, 5, 5], [10, 0, 0, 10, 0]),
        ("zero-weights", "jacket-on-stand", [35, 0, 0, 13, 22], [35, 0, 0, 31, 4]),
        ("one-turn", "planar-sliding", [10, 0, 0, 5, 5], [10, 0, 0, 0, 10]),
        ("always-touch", "jacket-on-stand", [35, 0, 0, 13, 22], [35, 0, 0, 35, 0]),
        ("always-apart", "jacket-on-stand", [35, 0, 0, 13, 22], [35, 0, 0, 0, 35]),
        ("always-touch", "training/crack", [4, 1, 2, 0, 1], [4, 1, 2, 1, 0]),
        ("always-apart", "training/flat", [4, 0, 0, 3, 1], [4, 0, 0, 0, 4]),
        ("touch-needs-all", "training/flat", [4, 0, 0, 3, 1], [4, 0, 0, 2, 2]),
    ];
    for (key, name, right, wrong) in table {
        let (exact, got) = kept_report(key, name);
        assert_eq!((totals(&exact), totals(&got)), (right.to_vec(), wrong.to_vec()), "{key} on {name}");
    }
}

/// The scenes of a kind, by its name.
fn scenes_of(name: &'static str, rounds: u64) -> impl Iterator<Item = Scene> {
    let kind = KINDS.iter().position(|kind| kind.0 == name).unwrap() as u64;
    (0..rounds).map(move |round| generate::scene(round * KINDS.len() as u64 + kind))
}

/// For each new kind: how many of its unshared pairs have each word, in the order of the total.
fn words_of(name: &'static str, rounds: u64) -> [u32; 4] {
    let mut out = [0; 4];
    for scene in scenes_of(name, rounds) {
        for pair in all_pairs(&scene).into_iter().filter(|pair| !pair.shares_a_vertex(&scene)) {
            let word = of_pair(&scene, pair);
            out[compare::verdicts::settled::WORDS.iter().position(|other| *other == word).unwrap()] += 1;
        }
    }
    out
}

#[test]
fn kinds_of_scenes_at_rest_touch_and_are_apart() {
    for name in ["at rest", "sliding", "on a line", "out of turn"] {
        let [hits, misses, touch, apart] = words_of(name, 30);
        assert!(hits == 0 && misses == 0 && touch > 20 && apart > 20, "{name}: {touch} touch, {apart} are apart");
    }
    for name in ["in one place", "coinciding"] {
        let [hits, _, touch, apart] = words_of(name, 30);
        assert!(hits > 0 && touch > 100 && apart > 0, "{name}: {hits} hits, {touch} touch, {apart} are apart");
    }
}

/// Singular pieces of scenes from seeds on which a way to search is wrong; first where it finds what is not there, then
/// where it misses what is.
fn wrong_pieces(finds: impl Fn(&Piece) -> bool, rounds: u64) -> [u32; 2] {
    let mut out = [0; 2];
    for name in ["at rest", "sliding", "on a line", "in one place", "coinciding", "out of turn"] {
        for scene in scenes_of(name, rounds) {
            let pairs = all_pairs(&scene).into_iter().filter(|pair| !pair.shares_a_vertex(&scene));
            for piece in pairs.flat_map(|pair| pieces(&scene, pair)) {
                let right = of_piece(&piece);
                if right.verdict() == Verdict::Degenerate {
                    let found = finds(&piece);
                    out[0] += (found && right == Settled::Apart) as u32;
                    out[1] += (!found && right == Settled::Touch) as u32;
                }
            }
        }
    }
    out
}

#[test]
fn wrong_ways_on_scenes_from_seeds() {
    let wrong = |way: Way| wrong_pieces(|piece| touches(piece, way), 10);
    assert_eq!(wrong(Way::Library), [0, 0]);
    for way in [Way::StrictTurn, Way::FirstSimplex, Way::OneTurn] {
        let [invented, lost] = wrong(way);
        assert!(invented == 0 && lost > 50, "{way:?}: {invented} invented, {lost} lost");
    }
    let [invented, lost] = wrong(Way::ZeroWeights);
    assert!(invented > 50 && lost == 0, "weights of 0: {invented} invented, {lost} lost");
}

/// The quick look loses nothing, and tells some that are apart; done wrong it loses what touches.
#[test]
fn quick_looks_on_scenes_from_seeds() {
    let wrong = |look: Look| wrong_pieces(|piece| !parted(piece, look), 10);
    let [left, lost] = wrong(Look::Library);
    let [all, _] = wrong_pieces(|_| true, 10);
    assert!(lost == 0 && all > left + 50, "{lost} lost, {left} of {all} left to the search");
    for look in [Look::ZeroOnASide, Look::CornerNotAsked, Look::SeenForwards] {
        let [_, lost] = wrong(look);
        assert!(lost > 50, "{look:?}: {lost} lost");
    }
}

/// Each pair that the kind looks for is a touch which is lost where corners are taken strictly in turn.
#[test]
fn out_of_turn_is_out_of_turn() {
    let mistake = mistakes::find("strict-turn").unwrap();
    for scene in scenes_of("out of turn", 20) {
        let right = Right::of(compare::text::write(&scene).as_bytes(), REPORT_ROOM);
        let (exact, wrong) = (totals(&right.report()), totals(&mistake.report(&right)));
        assert!(exact[3] >= wrong[3] + 3 && exact[1] == wrong[1], "{exact:?} {wrong:?}");
    }
}
