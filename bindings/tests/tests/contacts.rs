//! Contacts held against the independent program: every pair, in either order, and whole scenes with every number of the lent buffers; the
//! floats; the place in the mesh's units, held to the exact one; and 16 in its place in the order.

use compare::contacts::{self, in_old_range, making, Solved};
use compare::list::listing;
use compare::making::generate::{self, rewritten};
use compare::numbers::random::Random;
use compare::numbers::whole::Whole;
use compare::scene::affine::Affine;
use compare::scene::{all_pairs, Kind, Pair, Scene};
use compare::verdicts::settled as words;
use makhnodri::{Contact, ListRefusal, Refusal, Settled, CONTACT_LENGTH, CONTACT_UNIT};
use makhnodri_tests::*;

/// Scenes as they are made, some of them beyond the old range, and the same within it; and those that are hard to cut.
fn scenes() -> impl Iterator<Item = Scene> {
    let kinds = generate::KINDS.len() as u64;
    let made = (0..2 * kinds).filter(move |seed| seed % kinds != kinds - 1).map(generate::scene);
    made.flat_map(|scene| [making::within(&scene), scene]).chain((0..140).map(making::scene))
}

fn unshared(scene: &Scene) -> Vec<Pair> {
    all_pairs(scene).into_iter().filter(|pair| !pair.shares_a_vertex(scene)).take(80).collect()
}

fn library_kind(kind: Kind) -> makhnodri::Kind {
    KINDS.into_iter().find(|&k| kind_of(k) == kind).unwrap()
}

/// What the library must say of a pair.
fn wanted(scene: &Scene, pair: Pair) -> Contact {
    let part = |number: u32| number as f64 / 1_048_576.0;
    match (words::of_pair(scene, pair), contacts::of_pair(scene, pair)) {
        (words::Settled::Hit, Some(contacts::Contact { piece, k, shares })) => match shares[..] {
            [one, two, three] => Contact::PointHit {
                piece,
                k,
                shares: [one, two, three],
                time: part(k),
                low: part(one),
                middle: part(two),
                high: part(three),
            },
            [one, two] => Contact::EdgeHit { piece, k, shares: [one, two], time: part(k), first: part(one), second: part(two) },
            _ => panic!("{shares:?}"),
        },
        (words::Settled::Miss, None) => Contact::Miss,
        (words::Settled::Touch, None) => Contact::Touch,
        (words::Settled::Apart, None) => Contact::Apart,
        other => panic!("{other:?}"),
    }
}

#[test]
fn every_pair_in_either_order() {
    let (mut hits, mut others, mut refused) = (0, 0, 0);
    for scene in scenes() {
        let flat = Flat::of(&scene);
        for pair in unshared(&scene) {
            let ask = |first: usize, second: usize| flat.scene().contact_pair(library_kind(pair.kind), first, second);
            let given = ask(pair.first, pair.second);
            if pair.kind == Kind::EdgeEdge {
                assert_eq!(ask(pair.second, pair.first), given);
            }
            if !in_old_range(&scene) {
                assert_eq!(given, Err(Refusal::BeyondOldRange));
                refused += 1;
                continue;
            }
            assert_eq!(given, Ok(wanted(&scene, pair)), "{scene:?} {pair:?}");
            let word = flat.scene().settle_pair(library_kind(pair.kind), pair.first, pair.second);
            assert_eq!(given.map(Contact::word), word);
            *(if word == Ok(Settled::Hit) { &mut hits } else { &mut others }) += 1;
        }
    }
    assert!(hits > 200 && others > 200 && refused > 100, "{hits} {others} {refused}");
}

/// Demand 3, any order of writing: the library's own answers, not only those of the independent program.
#[test]
fn maps_shifts_and_orders_of_writing_change_nothing() {
    let mut held = 0;
    for (seed, scene) in scenes().enumerate().filter(|(_, scene)| in_old_range(scene)) {
        let random = &mut Random::new(seed as u64);
        let sent = Affine::draw(random, &scene).send(&scene);
        let others = [Flat::of(&sent), Flat::of(&rewritten(random, &scene))];
        let flat = Flat::of(&scene);
        for pair in unshared(&scene).into_iter().take(20) {
            let of = |flat: &Flat| flat.scene().contact_pair(library_kind(pair.kind), pair.first, pair.second);
            if in_old_range(&sent) {
                assert_eq!(of(&others[0]), of(&flat));
                held += 1;
            }
            assert_eq!(of(&others[1]), of(&flat));
        }
    }
    assert!(held > 300, "{held}");
}

/// A float gives its number back, and no two numbers have one float: each is k over 2^20 exactly.
#[test]
fn floats_lose_nothing() {
    for scene in scenes().filter(in_old_range) {
        let flat = Flat::of(&scene);
        for (_, contact) in flat.scene().contacts().unwrap().into_iter().take(50) {
            let held = |number: u32, float: f64| assert!(float * CONTACT_UNIT as f64 == number as f64 && number <= CONTACT_UNIT);
            match contact {
                Contact::PointHit { k, shares, time, low, middle, high, .. } => {
                    held(k, time);
                    shares.into_iter().zip([low, middle, high]).for_each(|(number, float)| held(number, float));
                }
                Contact::EdgeHit { k, shares, time, first, second, .. } => {
                    held(k, time);
                    shares.into_iter().zip([first, second]).for_each(|(number, float)| held(number, float));
                }
                other => assert_eq!(other.time(), None),
            }
        }
    }
}

/// A whole scene in one call: list, words and rows, what stays of them, and which room counts.
#[test]
fn whole_scenes_with_every_lent_number() {
    for scene in scenes() {
        let flat = Flat::of(&scene);
        let pairs = listing::listed(&scene);
        let count = pairs.len();
        if count > 400 {
            continue;
        }
        for (list, bytes, rows) in [
            (count, count, CONTACT_LENGTH * count),
            (count + 2, count + 1, CONTACT_LENGTH * count + 9),
            (count, count, (CONTACT_LENGTH * count).saturating_sub(1)),
            (count.saturating_sub(1), count, CONTACT_LENGTH * count),
            (count, count.saturating_sub(1), CONTACT_LENGTH * count),
        ] {
            let room = list.min(bytes).min(rows / CONTACT_LENGTH);
            let (mut entries, mut given, mut contacts): (Vec<u32>, Vec<u8>, Vec<u32>) =
                (painted(list), painted(bytes), painted(rows));
            let (mut entries_wanted, mut words_wanted, mut rows_wanted) = (entries.clone(), given.clone(), contacts.clone());
            let answer = flat.scene().contact_scene(&mut entries, &mut given, &mut contacts);
            if !in_old_range(&scene) {
                assert_eq!(answer, Err(ListRefusal::Scene(Refusal::BeyondOldRange)));
            } else if room < count {
                assert_eq!(answer, Err(ListRefusal::NoRoom { needed: count }));
            } else {
                assert_eq!(answer, Ok(count));
                for (place, &pair) in pairs.iter().enumerate() {
                    entries_wanted[place] = compare::calls::slices::entry(pair);
                    words_wanted[place] = words::of_pair(&scene, pair).byte();
                    if let Some(contact) = contacts::of_pair(&scene, pair) {
                        rows_wanted[CONTACT_LENGTH * place..][..CONTACT_LENGTH].copy_from_slice(&contact.row());
                    }
                }
            }
            assert_eq!((entries, given, contacts), (entries_wanted, words_wanted, rows_wanted));
        }
        let wanted: Vec<(makhnodri::Pair, Contact)> = pairs
            .iter()
            .map(|&pair| (makhnodri::Pair::of_entry(compare::calls::slices::entry(pair)), wanted(&scene, pair)))
            .collect();
        match in_old_range(&scene) {
            true => assert_eq!(flat.scene().contacts(), Ok(wanted)),
            false => assert_eq!(flat.scene().contacts(), Err(Refusal::BeyondOldRange)),
        }
    }
}

/// 16 after 5 and 6, which come after 1 to 4; 262,143 is no fault.
#[test]
fn sixteen_comes_after_six() {
    let flat = |far: i32| {
        let mut flat = Flat::of(&compare::text::read(compare::making::cases::PRINTED_SCENE.as_bytes()).unwrap());
        flat.positions[25] = far; // of the last vertex, which is no part of the pair that is asked for
        flat
    };
    for far in [262_144, -262_144, 524_287, -524_287] {
        let flat = flat(far);
        let scene = flat.scene();
        assert_eq!(scene.contact_pt(3, 0), Err(Refusal::BeyondOldRange));
        assert_eq!(scene.contact_ee(0, 1), Err(Refusal::BeyondOldRange));
        assert_eq!(scene.contact_pt(3, 1), Err(Refusal::NotThere));
        assert_eq!(scene.contact_pt(2, 0), Err(Refusal::SharedVertex));
        assert_eq!(scene.contact_ee(1, 1), Err(Refusal::SharedVertex));
        assert_eq!(scene.contact_scene(&mut [], &mut [], &mut []), Err(ListRefusal::Scene(Refusal::BeyondOldRange)));
        assert!(scene.settle_pt(3, 0).is_ok());
    }
    for near in [262_143, -262_143] {
        assert!(flat(near).scene().contact_pt(3, 0).is_ok());
    }
    assert_eq!(flat(524_288).scene().contact_pt(3, 0), Err(Refusal::Coordinate));
    assert_eq!(
        Refusal::BeyondOldRange.to_string(),
        "refused 16: a contact asked for in a scene with a coordinate beyond 262,143"
    );
}

/// The exact place on an axis, as a numerator and a denominator above 0.
fn exact_place(scene: &Scene, solved: &Solved, axis: usize) -> (Whole, Whole) {
    let mut sum = (Whole::ZERO, Whole::from(1));
    for (corner, weight) in solved.corners[0].iter().zip(&solved.weights) {
        let at = Whole::from(scene.vertices[corner.vertex][axis + 3 * corner.at_end as usize] as i128);
        let above = sum.0.times(&weight.below).plus(&weight.above.times(&at).times(&sum.1));
        sum = (above, sum.1.times(&weight.below));
    }
    sum
}

/// The place is worked out from cut numbers without further rounding: it is off by less than what a 2^20th of time and share make.
#[test]
fn the_place_is_as_near_as_is_said() {
    let mut held = 0;
    for scene in scenes().filter(in_old_range) {
        let flat = Flat::of(&scene);
        for pair in unshared(&scene) {
            let contact = flat.scene().contact_pair(library_kind(pair.kind), pair.first, pair.second).unwrap();
            let asked = makhnodri::Pair { kind: library_kind(pair.kind), first: pair.first, second: pair.second };
            let place = flat.scene().contact_point(asked, contact);
            assert_eq!(place.is_some(), contact.word() == Settled::Hit);
            let Some(place) = place else { continue };
            let chosen = contacts::of_pair(&scene, pair).unwrap().piece;
            let hits = contacts::hits(&scene, pair);
            let solved = hits.iter().find(|solved| solved.piece == chosen).unwrap();
            for (axis, float) in place.into_iter().enumerate() {
                let (above, below) = exact_place(&scene, solved, axis);
                let number = (float * CONTACT_UNIT as f64) as i128;
                assert_eq!(number as f64 / CONTACT_UNIT as f64, float);
                let away = Whole::from(number).times(&below).plus(&above.times(&Whole::from(-(CONTACT_UNIT as i128))));
                // along the corners of the piece, one after the other, each step moves time or share or both
                let corners = &solved.corners[0];
                let at = |i: usize| scene.vertices[corners[i].vertex][axis + 3 * corners[i].at_end as usize];
                let most: i64 = (1..corners.len()).map(|i| (at(i) - at(i - 1)).abs()).sum();
                assert!(most < if pair.kind == Kind::PointTriangle { 1 << 19 } else { 1 << 20 });
                let bound = Whole::from(most as i128).times(&below);
                let away = if away.sign() < 0 { away.minus() } else { away };
                let short = bound.plus(&away.minus()).sign();
                assert!(short > 0 || most == 0 && short == 0, "{scene:?} {pair:?} {axis}");
                held += 1;
            }
        }
    }
    assert!(held > 600, "{held}");
}

/// Nothing where there is nothing to place.
#[test]
fn no_place_of_parts_that_are_not_there() {
    let flat = Flat::of(&compare::making::cases::shown()[0].scene);
    let contact = flat.scene().contact_pt(3, 0).unwrap();
    let pair = |kind, first| makhnodri::Pair { kind, first, second: 0 };
    assert!(flat.scene().contact_point(pair(makhnodri::Kind::PointTriangle, 3), contact).is_some());
    assert_eq!(flat.scene().contact_point(pair(makhnodri::Kind::PointTriangle, 4), contact), None);
    assert_eq!(flat.scene().contact_point(pair(makhnodri::Kind::PointTriangle, 3), Contact::Touch), None);
    let edge = Contact::EdgeHit { piece: 0, k: 0, shares: [0, 0], time: 0.0, first: 0.0, second: 0.0 };
    assert_eq!(flat.scene().contact_point(pair(makhnodri::Kind::EdgeEdge, 0), edge), None);
}
