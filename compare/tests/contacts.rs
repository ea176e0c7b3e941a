//! Contacts by document 02, §5: what the document says of them by multiplying out, held by other ways to the same numbers; the demands on
//! scenes from seeds; and that each mistake is noticed.

use compare::contacts::making::{self, fixed, seeded, within, Trial};
use compare::contacts::mistakes::{self, ALL};
use compare::contacts::{chosen, hits, of_pair, printed, Contact, Fraction, Solved, UNIT};
use compare::making::cases;
use compare::making::generate::{self, rewritten};
use compare::making::kept;
use compare::numbers::random::Random;
use compare::numbers::whole::Whole;
use compare::scene::affine::Affine;
use compare::scene::pieces::pieces;
use compare::scene::*;
use compare::verdicts::settled::{self, Settled};
use compare::verdicts::verdict;
use compare::ways::signs;
use std::cmp::Ordering;

const SEEDS: u64 = 60;

fn trials(seeds: u64) -> impl Iterator<Item = Trial> {
    fixed().into_iter().chain((0..seeds).flat_map(seeded))
}

fn unshared_pairs(scene: &Scene) -> Vec<Pair> {
    all_pairs(scene).into_iter().filter(|pair| !pair.shares_a_vertex(scene)).collect()
}

/// Scenes within the old range: those of the report's trials, the crowded kind left out, and those made for contacts.
fn scenes(rounds: u64, own: u64) -> impl Iterator<Item = Scene> {
    let kinds = generate::KINDS.len() as u64;
    let crowded = move |seed: &u64| seed % kinds == kinds - 1;
    let made = (0..rounds * kinds).filter(move |seed| !crowded(seed)).map(|seed| within(&generate::scene(seed)));
    made.chain((0..own).map(making::scene))
}

fn hit_pairs(rounds: u64, own: u64) -> impl Iterator<Item = (Scene, Pair, Vec<Solved>)> {
    scenes(rounds, own).flat_map(|scene| {
        let pairs = unshared_pairs(&scene).into_iter().take(60);
        let found: Vec<_> = pairs.map(|pair| (scene.clone(), pair, hits(&scene, pair))).collect();
        found.into_iter().filter(|(_, _, hits)| !hits.is_empty())
    })
}

fn contact(piece: usize, k: u32, shares: &[u32]) -> Option<Contact> {
    Some(Contact { piece, k, shares: shares.to_vec() })
}

/// Document 01's cases: case 1 at half the time, at (1,1) of a triangle with sides of 4; case 8 in a corner; case 9 in both middles.
#[test]
fn the_shown_cases_have_the_contacts_that_one_sees() {
    let half = UNIT / 2;
    let quarter = UNIT / 4;
    let wanted = [
        contact(1, half, &[half, quarter, quarter]),
        None,
        contact(2, UNIT, &[half, quarter, quarter]),
        contact(0, 0, &[half, quarter, quarter]),
        None,
        None,
        None,
        contact(1, half, &[0, UNIT, 0]),
        contact(0, half, &[half, half]),
        None,
        contact(0, half, &[UNIT, half]),
        None,
    ];
    for (case, wanted) in cases::shown().iter().zip(wanted) {
        assert_eq!(of_pair(&case.scene, case.pair), wanted, "{:?}", case.scene);
    }
    assert_eq!(
        printed(cases::PRINTED_SCENE.as_bytes(), REPORT_ROOM),
        format!("pt\t3\t0\t1\t{half}\t{half}\t{quarter}\t{quarter}\nee\t0\t1\t2\t{half}\t{quarter}\t{half}\ntotal\t2\t2\n")
    );
}

/// 'At most the exact value and short of it by less than 1 in 2^20, said of k, the shares and the whole weights by multiplying out': here of
/// whole weights by Cramer's rule, another way than elimination.
#[test]
fn each_number_is_cut_from_whole_weights() {
    let mut held = 0;
    for (scene, pair, hits) in hit_pairs(3, 140) {
        for solved in hits {
            let (weights, whole) = signs::weights::<i128>(&pieces(&scene, pair)[solved.piece]);
            let weights = weights.map(|weight| weight * whole.signum());
            let whole = whole.abs();
            let split = solved.corners[0].len();
            let sum = |simplex: usize, counts: &dyn Fn(usize, bool) -> bool| -> i128 {
                let weights = weights[if simplex == 0 { 0 } else { split }..].iter();
                let corners = solved.corners[simplex].iter().zip(weights);
                corners.filter(|(corner, _)| counts(corner.vertex, corner.at_end)).map(|(_, weight)| weight).sum()
            };
            let mut holds = |number: u32, part: i128| {
                let (number, unit) = (number as i128, UNIT as i128);
                assert!(number * whole <= unit * part && unit * part < (number + 1) * whole, "{scene:?} {pair:?}");
                held += 1;
            };
            let Contact { k, shares, .. } = solved.contact();
            [0, 1].iter().for_each(|&simplex| holds(k, sum(simplex, &|_, at_end| at_end)));
            let (low, high) = (pair.first.min(pair.second), pair.first.max(pair.second));
            let mut ends = match pair.kind {
                Kind::PointTriangle => vec![(1, scene.triangles[pair.second].to_vec())],
                Kind::EdgeEdge => vec![(0, scene.edges[low].to_vec()), (1, scene.edges[high].to_vec())],
            };
            ends.iter_mut().for_each(|(_, vertices)| vertices.sort_by_key(|&vertex| scene.stands_for(vertex)));
            let ends = ends.iter().flat_map(|(simplex, vertices)| {
                let counted = if vertices.len() == 3 { &vertices[..] } else { &vertices[1..] };
                counted.iter().map(move |&vertex| (*simplex, vertex))
            });
            for ((simplex, vertex), share) in ends.zip(shares) {
                holds(share, sum(simplex, &|corner, _| corner == vertex));
            }
        }
    }
    assert!(held > 1_000, "{held}");
}

/// It is a hit exactly when the verdict is.
#[test]
fn a_contact_exactly_when_the_verdict_is_hit() {
    let (mut some, mut none) = (0, 0);
    for scene in scenes(2, 40) {
        for pair in unshared_pairs(&scene).into_iter().take(40) {
            let hit = verdict::of_pair(&scene, pair) == verdict::Verdict::Hit;
            assert_eq!(of_pair(&scene, pair).is_some(), hit);
            *(if hit { &mut some } else { &mut none }) += 1;
        }
    }
    assert!(some > 100 && none > 100, "{some} {none}");
}

/// The choice: no hit piece has a smaller k, and none that is as small has a lower number.
#[test]
fn the_smallest_k_and_then_the_lowest_piece() {
    for (_, _, hits) in hit_pairs(3, 140) {
        let Contact { piece, k, .. } = chosen(&hits).unwrap();
        assert!(hits.iter().any(|solved| solved.piece == piece));
        for other in hits.iter().map(Solved::contact) {
            assert!(other.k > k || other.k == k && other.piece >= piece);
        }
    }
}

/// Demand 3: a matrix of nonzero determinant, and two shifts, keep piece, k and shares.
#[test]
fn contacts_go_with_maps_and_shifts() {
    let mut held = 0;
    for (seed, (scene, pair, hits)) in hit_pairs(3, 140).enumerate() {
        let sent = Affine::draw(&mut Random::new(seed as u64), &scene).send(&scene);
        assert_eq!(of_pair(&sent, pair), chosen(&hits), "{scene:?} {sent:?}");
        held += 1;
    }
    assert!(held > 200, "{held}");
}

/// Either order of asking, any order of writing.
#[test]
fn orders_change_nothing() {
    for (seed, (scene, pair, hits)) in hit_pairs(2, 70).enumerate() {
        let other = rewritten(&mut Random::new(seed as u64), &scene);
        assert_eq!(of_pair(&other, pair), chosen(&hits));
        if pair.kind == Kind::EdgeEdge {
            assert_eq!(of_pair(&scene, Pair::ee(pair.second, pair.first)), chosen(&hits));
        }
    }
}

/// What the trials are there for is among them.
#[test]
fn the_trials_have_what_is_hard() {
    let mut counts = [0; 10];
    let names = [
        "a tie of k with one exact time",
        "a tie of k, the earlier piece later by an exact time",
        "a tie of k, the earlier piece earlier by an exact time",
        "time 0",
        "time 1",
        "a time that is just a number of 2^20ths, of no 2^18ths",
        "share 0",
        "share 1",
        "shares that sum to less than 1",
        "a touch before the hit",
    ];
    for (scene, pair, hits) in hit_pairs(6, 1_000) {
        let contacts: Vec<Contact> = hits.iter().map(Solved::contact).collect();
        let first = chosen(&hits).unwrap();
        for (at, solved) in hits.iter().enumerate() {
            for (other, later) in hits.iter().enumerate().skip(at + 1) {
                if contacts[at].k == contacts[other].k {
                    let order = solved.time().compare(&later.time());
                    counts[[Ordering::Equal, Ordering::Greater, Ordering::Less].iter().position(|&o| o == order).unwrap()] += 1;
                }
            }
        }
        counts[3] += (first.k == 0) as u32;
        counts[4] += (first.k == UNIT) as u32;
        let time = hits.iter().find(|solved| solved.piece == first.piece).unwrap().time();
        let just = Fraction { above: Whole::from(first.k as i128), below: Whole::from(UNIT as i128) };
        counts[5] += (!first.k.is_multiple_of(4) && time.compare(&just) == Ordering::Equal) as u32;
        counts[6] += first.shares.contains(&0) as u32;
        counts[7] += first.shares.contains(&UNIT) as u32;
        counts[8] += (first.shares.len() == 3 && first.shares.iter().sum::<u32>() < UNIT) as u32;
        let words = settled::of_pieces(&scene, pair);
        counts[9] += (words.contains(&Settled::Touch)
            && mistakes::of_pair(mistakes::Mistake::TouchingPiecesTakePart, &scene, pair).unwrap().k < first.k)
            as u32;
    }
    for (name, count) in names.iter().zip(counts) {
        println!("{count:>6} {name}");
    }
    assert!(counts.iter().all(|&count| count > 3), "{counts:?}");
}

#[test]
fn each_mistake_is_noticed() {
    let mut unnoticed = ALL.to_vec();
    for trial in trials(SEEDS) {
        let right = printed(&trial.text, REPORT_ROOM);
        unnoticed.retain(|&mistake| mistakes::printed(mistake, &trial.text, REPORT_ROOM) == right);
        if unnoticed.is_empty() {
            return;
        }
    }
    panic!("not noticed: {unnoticed:?}");
}

/// No two mistakes are one, so that what a program gets wrong can be named.
#[test]
fn mistakes_are_told_apart() {
    let mut alike: Vec<(usize, usize)> = (0..ALL.len()).flat_map(|a| (0..a).map(move |b| (b, a))).collect();
    for trial in trials(SEEDS) {
        let of = |place: usize| mistakes::printed(ALL[place], &trial.text, REPORT_ROOM);
        let mut said: Vec<Option<String>> = vec![None; ALL.len()];
        alike.retain(|&(a, b)| {
            [a, b].into_iter().for_each(|place| {
                said[place].get_or_insert_with(|| of(place));
            });
            said[a] == said[b]
        });
        if alike.is_empty() {
            return;
        }
    }
    panic!("alike: {:?}", alike.iter().map(|&(a, b)| (ALL[a], ALL[b])).collect::<Vec<_>>());
}

/// Each refusal that a text can have, 16 after the text's own and before 7.
#[test]
fn each_refusal_is_tried() {
    let mut tried = [0; 17];
    for trial in trials(20) {
        let right = printed(&trial.text, REPORT_ROOM);
        if let Some(rest) = right.strip_prefix("refused\t") {
            let number: usize = rest.split('\t').next().unwrap().parse().unwrap();
            tried[number] += 1;
            assert!(number != 16 || rest == "16\t0\n", "{}", trial.name);
        }
    }
    for number in [2, 3, 4, 7, 8, 9, 10, 11, 16] {
        assert!(tried[number] > 0, "{number} was never given: {tried:?}");
    }
}

/// What docs/FORMAT.md shows of contacts is what is printed for the scene that it shows.
#[test]
fn the_page_tells_of_contacts() {
    let page = std::fs::read_to_string(kept::folder().join("../docs/FORMAT.md")).unwrap();
    let part = page.split("## Contacts").nth(1).unwrap().split("\n## ").next().unwrap();
    let shown: Vec<&str> = part.lines().filter_map(|line| line.strip_prefix("    ")).collect();
    assert_eq!(printed(cases::PRINTED_SCENE.as_bytes(), REPORT_ROOM), shown.join("\n") + "\n");
    for (number, words) in [(UNIT as i64, "1,048,576"), (FIRST_COORDINATE_LIMIT, "262,143"), (REPORT_ROOM as i64, "3,072")] {
        assert!(part.replace(',', "").contains(&number.to_string()) && part.contains(words), "{words}");
    }
}

/// The contacts beside the example scenes are what the independent program prints, and the page tells of each.
#[test]
fn the_example_scenes_have_their_contacts() {
    let page = std::fs::read_to_string(kept::folder().join("README.md")).unwrap();
    let mut found = 0;
    for (name, path) in kept::scenes() {
        let Ok(wanted) = std::fs::read_to_string(path.with_extension("contacts")) else { continue };
        assert_eq!(printed(&std::fs::read(&path).unwrap(), REPORT_ROOM), wanted, "{name}");
        assert!(page.contains(&format!("* {name}: ")), "{name} has no line");
        found += 1;
    }
    assert_eq!(found, page.lines().filter(|line| line.starts_with("* ")).count());
}
