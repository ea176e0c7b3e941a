//! The library held against the independent program of compare/ on scenes from seeds: every pair and every piece, listed or not, in
//! three words and in four, and the lists; the same under demand 3's maps and played backwards; damaged scenes; and full-size scenes.

use compare::calls::slices;
use compare::list::box_tests;
use compare::making::generate::{self, rewritten, KINDS as SCENES};
use compare::numbers::random::Random;
use compare::scene::affine::Affine;
use compare::scene::backwards;
use compare::scene::refusal::{NOT_THERE, SHARES_A_VERTEX};
use compare::scene::{in_range, Kind, Pair, Scene};
use compare::verdicts::settled;
use compare::verdicts::verdict;
use makhnodri::{Refusal, Settled, Verdict};
use makhnodri_tests::*;

/// The crowded kind is left out where every pair is looked at.
fn small_scenes(rounds: u64) -> impl Iterator<Item = (u64, Scene)> {
    let kinds = SCENES.len() as u64;
    (0..rounds * kinds).filter(move |seed| seed % kinds != kinds - 1).map(|seed| (seed, generate::scene(seed)))
}

fn kept_in_range(scene: &Scene) -> bool {
    scene.vertices.iter().flatten().all(|&coordinate| in_range(coordinate))
}

fn library_kind(kind: Kind) -> makhnodri::Kind {
    KINDS.into_iter().find(|&k| kind_of(k) == kind).unwrap()
}

/// A pair's or a piece's answer in three words and in four.
type Words = (Verdict, Settled);

/// Each pair with each of its pieces, or the refusal that it shares a vertex.
fn words(scene: &Scene) -> Vec<Answer<Vec<Words>>> {
    let flat = Flat::of(scene);
    let ask = |pair: compare::scene::Pair| {
        let (scene, kind) = (flat.scene(), library_kind(pair.kind));
        let pieces = if pair.kind == Kind::PointTriangle { 3 } else { 4 };
        let whole = (scene.judge_pair(kind, pair.first, pair.second), scene.settle_pair(kind, pair.first, pair.second));
        let each = (0..pieces).map(|piece| {
            (scene.judge_piece(kind, pair.first, pair.second, piece), scene.settle_piece(kind, pair.first, pair.second, piece))
        });
        std::iter::once(whole).chain(each).map(both).collect()
    };
    asked_for(scene).into_iter().map(ask).collect()
}

/// Refused alike, or not at all.
fn both((verdict, settled): (Result<Verdict, Refusal>, Result<Settled, Refusal>)) -> Answer<Words> {
    assert_eq!(verdict.err(), settled.err());
    verdict.and_then(|verdict| settled.map(|settled| (verdict, settled))).map_err(bare)
}

fn independent_words(scene: &Scene) -> Vec<Answer<Vec<Words>>> {
    let ask = |mut pair: compare::scene::Pair| {
        if pair.shares_a_vertex(scene) {
            return Err((SHARES_A_VERTEX, 0));
        }
        if pair.kind == Kind::EdgeEdge && pair.second < pair.first {
            (pair.first, pair.second) = (pair.second, pair.first);
        }
        let (verdicts, words) = (verdict::of_pieces(scene, pair), settled::of_pieces(scene, pair));
        let whole = (verdict::joined(&verdicts), settled::joined(&words));
        let each = verdicts.into_iter().zip(words);
        Ok(std::iter::once(whole).chain(each).map(|(verdict, word)| (verdict_of(verdict), settled_of(word))).collect())
    };
    asked_for(scene).into_iter().map(ask).collect()
}

/// The list, and the list with its words, with just the room and with one entry less.
fn hold_list(scene: &Scene) -> usize {
    let flat = Flat::of(scene);
    let wanted = flat.independent(|slices| slices::list(slices, usize::MAX)).unwrap();
    let count = wanted.len();
    let box_tests = box_tests::of(scene);
    assert_eq!(flat.scene().count_pairs(), Ok(makhnodri::Listed { count, box_tests }));
    assert_eq!(flat.scene().list_pairs(&mut vec![0; count]), Ok(makhnodri::Listed { count, box_tests }));
    assert_eq!(listed(&flat, count).as_ref(), Ok(&wanted));
    assert_eq!(listed(&flat, count + 9).as_ref(), Ok(&wanted));
    let pairs = wanted.iter().map(|&entry| {
        let makhnodri::Pair { kind, first, second } = makhnodri::Pair::of_entry(entry);
        flat.scene().settle_pair(kind, first, second).unwrap() as u8
    });
    assert_eq!(settled(&flat, count + 1, count + 3), Ok((wanted.clone(), pairs.collect())));
    if count > 0 {
        assert_eq!(listed(&flat, count - 1), Err((7, count as u64)));
        assert_eq!(settled(&flat, count - 1, count), Err((7, count as u64)));
        assert_eq!(settled(&flat, count, count - 1), Err((7, count as u64)));
    }
    count
}

#[test]
fn every_pair_and_piece_has_the_independent_words() {
    let (mut pieces, mut seen) = (0, [0; 5]);
    for (seed, scene) in small_scenes(40).filter(|(_, scene)| kept_in_range(scene)) {
        let got = words(&scene);
        assert_eq!(got, independent_words(&scene), "seed {seed}");
        for &(verdict, word) in got.iter().flatten().flatten() {
            assert_eq!(word.verdict(), verdict, "seed {seed}");
            pieces += 1;
            seen[word as usize] += 1;
        }
    }
    let often = [Settled::Hit, Settled::Miss, Settled::Touch, Settled::Apart].map(|word| seen[word as usize]);
    assert!(pieces > 100_000 && often.iter().all(|&times| times > 10_000), "{pieces} words, of which {often:?}");
}

#[test]
fn every_list_is_the_independent_one() {
    let listed: usize = small_scenes(120).filter(|(_, scene)| kept_in_range(scene)).map(|(_, scene)| hold_list(&scene)).sum();
    assert!(listed > 50_000, "{listed} listed pairs");
}

#[test]
fn the_twelve_shown_cases() {
    for case in compare::making::cases::shown() {
        let flat = Flat::of(&case.scene);
        let kind = library_kind(case.pair.kind);
        for (piece, &wanted) in case.pieces.iter().enumerate() {
            let got = flat.scene().judge_piece(kind, case.pair.first, case.pair.second, piece);
            assert_eq!(got, Ok(verdict_of(wanted)));
        }
        for (piece, &wanted) in case.settled.iter().enumerate() {
            let got = flat.scene().settle_piece(kind, case.pair.first, case.pair.second, piece);
            assert_eq!(got, Ok(settled_of(wanted)));
        }
        let pairs = flat.scene().listed().unwrap();
        assert_eq!(pairs.iter().any(|p| (p.kind, p.first, p.second) == (kind, case.pair.first, case.pair.second)), case.listed);
    }
}

/// Demand 3: a matrix of nonzero determinant, one shift for all starts and another for all ends; every word stays. So it does
/// where ends and corners are written in another order.
#[test]
fn words_survive_maps_and_the_order_of_corners() {
    let mut sent_on = 0;
    for (seed, scene) in small_scenes(40).filter(|(_, scene)| kept_in_range(scene)) {
        let before = words(&scene);
        let mut random = Random::new(!seed);
        let sent = Affine::draw(&mut random, &scene).send(&scene);
        if kept_in_range(&sent) {
            sent_on += 1;
            assert_eq!(words(&sent), before, "seed {seed}, sent on");
            hold_list(&sent);
        }
        assert_eq!(words(&rewritten(&mut random, &scene)), before, "seed {seed}, rewritten");
    }
    assert!(sent_on > 200, "{sent_on} maps");
}

/// Scenes with up to three faults: every function refuses as the independent one, or answers.
/// The word of a pair, and those of its pieces.
fn words_of(flat: &Flat, pair: Pair) -> (Answer<Settled>, Vec<Answer<Settled>>) {
    let (scene, kind, pieces) = (flat.scene(), library_kind(pair.kind), if pair.kind == Kind::EdgeEdge { 4 } else { 3 });
    let piece = |piece| scene.settle_piece(kind, pair.first, pair.second, piece).map_err(bare);
    (scene.settle_pair(kind, pair.first, pair.second).map_err(bare), (0..pieces).map(piece).collect())
}

/// Played backwards: the library turns a scene round as document 02 says, and then lists and settles the corresponding pairs alike.
#[test]
fn played_backwards_a_scene_has_the_same_contacts() {
    let (mut pairs, mut listed) = (0, 0);
    for (seed, scene) in small_scenes(20).filter(|(_, scene)| kept_in_range(scene)) {
        let scene = scene.unsewn();
        let flat = Flat::of(&scene);
        let back = turned(&flat).unwrap();
        assert_eq!(back, Flat::of(&backwards::turned(&scene)), "seed {seed}");
        assert_eq!(turned(&back).as_ref(), Ok(&flat), "seed {seed}");
        for pair in asked_for(&scene) {
            let (word, pieces) = words_of(&flat, pair);
            let other = words_of(&back, backwards::pair(&scene, pair));
            assert_eq!((word, pieces), (other.0, backwards::pieces(other.1)), "seed {seed}, {pair:?}");
            pairs += 1;
        }
        let ours = |(pair, word): (makhnodri::Pair, Settled)| {
            (Pair { kind: kind_of(pair.kind), first: pair.first, second: pair.second }, word as u8)
        };
        let order = |(pair, _): &(Pair, u8)| (pair.kind == Kind::EdgeEdge, pair.first, pair.second);
        let corresponding = |(pair, word): (Pair, u8)| (backwards::pair(&scene, pair), word);
        let mut wanted: Vec<_> = flat.scene().settled().unwrap().into_iter().map(ours).map(corresponding).collect();
        wanted.sort_by_key(order);
        assert_eq!(back.scene().settled().unwrap().into_iter().map(ours).collect::<Vec<_>>(), wanted, "seed {seed}");
        listed += wanted.len();
    }
    assert!(pairs > 10_000 && listed > 5_000, "{pairs} pairs, {listed} listed");
}

#[test]
fn damaged_scenes_are_refused_alike() {
    let mut refused = [0; 16];
    for (seed, scene) in small_scenes(60) {
        let mut random = Random::new(seed ^ 0xda3a6e);
        let mut flat = Flat::of(&scene);
        for _ in 0..random.below(4) {
            damage(&mut random, &mut flat);
        }
        let wanted = flat.independent(slices::scene);
        assert_eq!(flat.scene().check_scene().map_err(bare), wanted.as_ref().map(|_| ()).map_err(|&r| r), "seed {seed}");
        assert_eq!(listed(&flat, 5), flat.independent(|s| slices::list(s, 5)), "seed {seed}");
        let (first, second, piece) = (random.below(9), random.below(9), random.below(6));
        for kind in KINDS {
            let ask = (kind_of(kind), first as u64, second as u64);
            let pair = flat.independent(|s| slices::pair_verdict(s, ask.0, ask.1, ask.2)).map(verdict_of);
            assert_eq!(flat.scene().judge_pair(kind, first, second).map_err(bare), pair, "seed {seed}");
            let (low, high) = if kind == makhnodri::Kind::EdgeEdge && second < first { (ask.2, ask.1) } else { (ask.1, ask.2) };
            let one = flat.independent(|s| slices::piece_verdict(s, ask.0, low, high, piece as u64)).map(verdict_of);
            assert_eq!(flat.scene().judge_piece(kind, first, second, piece).map_err(bare), one, "seed {seed}");
            let word = flat.independent(|s| slices::pair_settled(s, ask.0, ask.1, ask.2)).map(settled_of);
            assert_eq!(flat.scene().settle_pair(kind, first, second).map_err(bare), word, "seed {seed}");
            let one_word = flat.independent(|s| slices::piece_settled(s, ask.0, low, high, piece as u64)).map(settled_of);
            assert_eq!(flat.scene().settle_piece(kind, first, second, piece).map_err(bare), one_word, "seed {seed}");
            for (number, _) in [pair.err(), one.err()].into_iter().flatten() {
                refused[number as usize] += 1;
            }
        }
    }
    let often = [1, 2, 3, 4, 5, 6, 15].iter().all(|&number| refused[number] > 20);
    assert!(refused[NOT_THERE as usize] > 100 && often, "{refused:?}");
}

fn damage(random: &mut Random, flat: &mut Flat) {
    let Flat { positions, edges, triangles, seams } = flat;
    let vertices = positions.len() / 6;
    match random.below(12) {
        0 if !positions.is_empty() => drop(positions.pop()),
        1 => edges.push(random.below(vertices + 1) as u16),
        2 => triangles.push(random.below(vertices + 1) as u16),
        3 if !positions.is_empty() => {
            let place = random.below(positions.len());
            positions[place] = random.pick(&[524_288, -524_288, i32::MAX, i32::MIN, 524_287, 262_144]);
        }
        4 if !edges.is_empty() => {
            let place = random.below(edges.len());
            edges[place] = random.pick(&[vertices as u16, u16::MAX, 0, edges[place ^ 1 & (edges.len() - 1)]]);
        }
        5 if !triangles.is_empty() => {
            let place = random.below(triangles.len());
            triangles[place] = random.pick(&[vertices as u16, u16::MAX, 0, triangles[place / 3 * 3]]);
        }
        6 => edges.extend([0, 1].repeat(random.pick(&[1, 1_025]))),
        7 => seams.push(random.below(vertices + 1) as u16),
        8 => seams.extend([0, 1].repeat(random.pick(&[1, 513]))),
        9 if !seams.is_empty() => {
            let place = random.below(seams.len());
            seams[place] = random.pick(&[vertices as u16, u16::MAX, 0, 1, seams[place ^ 1 & (seams.len() - 1)]]);
        }
        10 if !seams.is_empty() => {
            // a sewn vertex moves at one of its two times
            let vertex = seams[random.below(seams.len())] as usize;
            if let Some(number) = positions.get_mut(6 * vertex + random.below(6)) {
                *number += if *number > 0 { -1 } else { 1 };
            }
        }
        _ => triangles.extend([0, 1, 2].repeat(random.pick(&[1, 513]))),
    }
}

/// 512 vertices, 1,024 edges and 512 triangles, near each other and far apart.
#[test]
fn full_size_scenes() {
    for (seed, reach) in [(1, 3), (2, 40), (3, 524_287)] {
        let mut random = Random::new(seed);
        let mut scene = Scene::default();
        let near = |random: &mut Random, n: i64| (n + random.between(-9, 9)).clamp(-524_287, 524_287);
        for _ in 0..512 {
            let start = [0; 3].map(|_| random.between(-reach, reach));
            let end = start.map(|n| near(&mut random, n));
            scene.vertices.push([start[0], start[1], start[2], end[0], end[1], end[2]]);
        }
        scene.edges = (0..1_024).map(|i| [i % 512, (i % 512 + 1 + i / 512 * 7) % 512]).collect();
        scene.triangles = (0..512).map(|i| [(i + 1) % 512, i, (i + 2 + i % 3) % 512]).collect();
        let flat = Flat::of(&scene);
        let wanted = flat.independent(|slices| slices::list(slices, usize::MAX)).unwrap();
        let (list, bytes) = settled(&flat, wanted.len(), wanted.len()).unwrap();
        assert_eq!(list, wanted);
        assert!(list.len() <= makhnodri::PAIR_LIMIT);
        for (&entry, byte) in list.iter().zip(bytes).step_by(1 + list.len() / 2_000) {
            let makhnodri::Pair { kind, first, second } = makhnodri::Pair::of_entry(entry);
            let pair = compare::scene::Pair { kind: kind_of(kind), first, second };
            assert_eq!(byte, settled_of(settled::of_pair(&scene, pair)) as u8, "{pair:?}");
        }
    }
}
