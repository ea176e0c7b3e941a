//! Whether the ways that are timed do what they are said to do. Nothing here is timed.

use crate::errors::{self, Kind, Set, Source};
use crate::scenes;
use crate::slices::Slices;
use crate::{plain, plain_contacts, plain_import, plain_report, plain_rest, plain_saving, sweep, wide};
use compare::contacts::{self, making};
use compare::list::box_tests;
use compare::list::listing::listed;
use compare::making::generate;
use compare::numbers::random::Random;
use compare::report::report;
use compare::report::trials;
use compare::scene::{Kind as PairKind, REPORT_ROOM};
use compare::verdicts::settled;
use compare::verdicts::verdict::of_pair;
use compare::ways::signs::determinant;

#[test]
fn plain_and_wide_verdicts_and_lists_are_the_exact_ones() {
    for seed in 0..190 {
        let scene = generate::scene(seed);
        let (slices, right) = (Slices::of(&scene), listed(&scene));
        let mut list = vec![0; right.len() + 2];
        assert_eq!(plain::list(&slices, &mut list), right.len());
        let mut swept = vec![0; right.len() + 2];
        assert_eq!((sweep::list(&slices, &mut swept), &swept), (right.len(), &list), "seed {seed}");
        for (&entry, pair) in list.iter().zip(right).take(300) {
            let kind = (pair.kind == PairKind::EdgeEdge) as u32;
            assert_eq!(entry, 1_048_576 * kind + 1_024 * pair.first as u32 + pair.second as u32);
            let verdict = of_pair(&scene, pair);
            assert_eq!((plain::judge(&slices, entry), wide::judge(&slices, entry)), (verdict, verdict), "seed {seed}");
            assert_eq!(plain_rest::settle(&slices, entry), settled::of_pair(&scene, pair), "seed {seed}");
        }
    }
}

/// The same parts in other places: as many pairs, and others tested.
#[test]
fn a_scene_in_random_order_has_the_same_parts() {
    let scene = scenes::full_size(&mut Random::new(8), 8);
    let mixed = scenes::in_random_order(&mut Random::new(1), scene.clone());
    assert_eq!(listed(&mixed).len(), listed(&scene).len());
    assert!(box_tests::of(&mixed) > 2 * box_tests::of(&scene));
    let many = listed(&scenes::in_one_place(&mut Random::new(1))).len();
    assert!(many > 650_000, "{many}");
}

/// The contacts of plain Rust, cut in either way, are the exact ones.
#[test]
fn plain_contacts_are_the_exact_ones() {
    let mut hits = 0;
    let scenes = (0..60).map(|seed| making::within(&generate::scene(seed))).chain((0..210).map(making::scene));
    for scene in scenes {
        let (slices, right) = (Slices::of(&scene), listed(&scene));
        let mut list = vec![0; right.len()];
        plain::list(&slices, &mut list);
        for (&entry, pair) in list.iter().zip(right).take(100) {
            let wanted = contacts::of_pair(&scene, pair).map(|contact| contact.row());
            assert_eq!(plain_contacts::contact(&slices, entry, plain_contacts::by_steps), wanted, "{scene:?} {pair:?}");
            assert_eq!(plain_contacts::contact(&slices, entry, plain_contacts::by_size), wanted);
            assert_eq!(plain_contacts::contact(&slices, entry, plain_contacts::at_once), wanted);
            hits += wanted.is_some() as usize;
        }
    }
    assert!(hits > 200, "{hits}");
}

/// Nothing moves: every listed pair is singular, and the words are the exact ones.
#[test]
fn a_full_size_scene_at_rest_is_at_rest() {
    for (name, make) in scenes::RESTING {
        let [moving, rest] = make(&mut Random::new(5));
        assert!(moving.vertices.iter().zip(&rest.vertices).all(|(m, r)| m[..3] == r[..3] && r[..3] == r[3..]));
        let slices = Slices::of(&rest);
        let right = listed(&rest);
        let (mut list, mut words) = (vec![0; right.len()], vec![0; right.len()]);
        assert_eq!(plain_rest::settle_scene(&slices, &mut list, &mut words), right.len());
        for (&pair, &word) in right.iter().zip(&words).step_by(1 + right.len() / 2_000) {
            assert_eq!(word, settled::of_pair(&rest, pair).byte(), "{name}, {pair:?}");
            assert!(word >= settled::Settled::Touch.byte());
        }
    }
}

#[test]
fn the_plain_report_is_the_exact_one() {
    let seeded = (0..200).flat_map(trials::seeded);
    for trial in trials::fixed().into_iter().chain(seeded) {
        let mut out = Vec::new();
        plain_report::report(&trial.text, &mut [0; REPORT_ROOM], &mut out);
        assert_eq!(String::from_utf8(out).unwrap(), report(&trial.text, REPORT_ROOM), "{}", trial.name);
    }
}

/// With a tolerance that is about right for numbers up to 100, the cubic is right, near a border too.
#[test]
fn the_cubic_is_right_where_it_is_easy() {
    for kind in [Kind::PointTriangle, Kind::EdgeEdge] {
        for set in [Set::Anywhere, Set::OnABorder] {
            let source = Source { name: "easy", reach: 100, set };
            let count = errors::count(&mut Random::new(1), kind, source, 2_000, None);
            let wrong = count.cubic[2];
            assert!(wrong.missed + wrong.invented < 10, "{} + {}", wrong.missed, wrong.invented);
            assert!(count.hits > 20);
        }
    }
}

/// Few units of volume from one plane, though the parts are large.
#[test]
fn a_hair_is_a_hair() {
    let source = Source { name: "a hair", reach: 250_000, set: Set::AHairApart };
    for kind in [Kind::PointTriangle, Kind::EdgeEdge] {
        let mut random = Random::new(1);
        let fours: Vec<errors::Four> = (0..1_000).filter_map(|_| errors::shifting(&mut random, kind, source)).collect();
        let seen = |four: &errors::Four, v: usize| [0, 1, 2].map(|axis| (four[v][axis] - four[0][axis]) as i128);
        let volume = |four: &errors::Four| determinant(seen(four, 1), seen(four, 2), seen(four, 3)).abs();
        let near = fours.iter().filter(|four| (1..100).contains(&volume(four))).count();
        assert!(fours.len() > 100 && near * 10 > fours.len() * 9, "{near} of {}", fours.len());
    }
}

#[test]
fn plain_saving_is_the_exact_one() {
    for seed in 0..190 {
        let scene = generate::scene(seed);
        let (slices, right) = (Slices::of(&scene), compare::text::write(&scene).into_bytes());
        let mut saved = vec![7; right.len() + 3];
        if right.len() <= compare::scene::TEXT_LIMIT {
            assert_eq!(plain_saving::save(&slices, &mut saved).ok(), Some(right.len()));
            assert_eq!(saved[..right.len()], right);
            assert!(plain_saving::save(&slices, &mut saved[..right.len().saturating_sub(1)]).is_err() || right.is_empty());
        }
        assert_eq!(plain_saving::formatted(&slices, &mut saved).ok(), Some(right.len()));
        assert_eq!(saved[..right.len()], right);
    }
}

/// On every pair of files of the comparison: the scene and its boxes, or the refusal; by search and by a table.
#[test]
fn plain_importing_is_the_exact_one() {
    use compare::obj::making::{fixed, seeded};
    let [start, end] = plain_import::largest();
    assert_eq!((start.len(), end.len()), (32_768, 32_768));
    let largest = compare::obj::making::Trial { name: "the largest".into(), start, end };
    for trial in fixed().into_iter().chain((0..40).flat_map(seeded)).chain([largest]) {
        let right = compare::obj::import(&trial.start, &trial.end);
        for table in [false, true] {
            let mut room = plain_import::Room::new();
            let given = plain_import::import(&trial.start, &trial.end, table, &mut room);
            let Ok(scene) = &right else {
                assert_eq!(given.err(), right.clone().err(), "{}", trial.name);
                continue;
            };
            assert_eq!(given, Ok(()), "{}", trial.name);
            let slices = Slices::of(scene);
            let boxes: Vec<i32> =
                compare::calls::stored::boxes(scene, compare::calls::stored::Wrong::None).into_iter().map(|n| n as i32).collect();
            assert_eq!(room.positions[..slices.positions.len()], slices.positions, "{}", trial.name);
            assert_eq!(room.edges[..slices.edges.len()], slices.edges, "{}", trial.name);
            assert_eq!(room.triangles[..slices.triangles.len()], slices.triangles, "{}", trial.name);
            assert_eq!(room.boxes[..boxes.len()], boxes, "{}", trial.name);
        }
    }
    let sizes = compare::obj::import(&plain_import::largest()[0], &plain_import::largest()[1]).unwrap();
    assert_eq!((sizes.vertices.len(), sizes.edges.len(), sizes.triangles.len()), (512, 1_024, 512));
}
