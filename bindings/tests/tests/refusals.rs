//! The refusals that the report program never prints: 1, 5, 6 and 12, each with all its causes, and in their place in the order.
//! Each is asked of every function that can give it, and leaves every buffer as it was.

use compare::making::cases::PRINTED_SCENE;
use compare::text::read;
use makhnodri::{ClaimsRefusal, Kind, Refusal, Scene, TextRefusal, TEXT_LIMIT};
use makhnodri_tests::*;

/// Five vertices, three edges, two triangles, and pairs of both kinds that share nothing.
fn good() -> Flat {
    let mut flat = Flat::of(&read(PRINTED_SCENE.as_bytes()).unwrap());
    flat.edges.extend([1, 2]);
    flat.triangles.extend([2, 1, 0]);
    flat
}

fn refused_by_all(flat: &Flat, number: u64) {
    let before = flat.clone();
    for (question, answer) in every_answer(flat) {
        assert_eq!(answer, Err((number, 0)), "{question}");
    }
    assert_eq!(*flat, before);
}

fn with(change: impl Fn(&mut Flat)) -> Flat {
    let mut flat = good();
    change(&mut flat);
    flat
}

// ---- 1

/// Each way to have the wrong shape.
fn wrong_shapes() -> Vec<Flat> {
    let mut out = Vec::new();
    for extra in 1..6 {
        out.push(with(|flat| flat.positions.extend(vec![0; extra])));
        out.push(with(|flat| flat.positions.truncate(extra)));
    }
    out.push(with(|flat| flat.edges.push(0)));
    for extra in 1..3 {
        out.push(with(|flat| flat.triangles.extend(vec![0; extra])));
    }
    out.push(with(|flat| flat.positions.resize(6 * 513, 0)));
    out.push(with(|flat| flat.edges.extend([0, 1].repeat(1_022))));
    out.push(with(|flat| flat.triangles.extend([0, 1, 2].repeat(511))));
    out.push(with(|flat| flat.seams.push(0)));
    out.push(with(|flat| flat.seams.extend([1, 0].repeat(513))));
    out
}

#[test]
fn a_wrong_shape_is_refused_before_all_else() {
    for flat in wrong_shapes() {
        refused_by_all(&flat, 1);
        let worse = |change: &dyn Fn(&mut Flat)| {
            let mut flat = flat.clone();
            change(&mut flat);
            refused_by_all(&flat, 1);
        };
        worse(&|flat| flat.positions[0] = 524_288);
        worse(&|flat| flat.edges[0] = 60_000);
        worse(&|flat| flat.triangles[0] = flat.triangles[1]);
        worse(&|flat| flat.seams.extend([1, 0]));
    }
}

#[test]
fn the_sizes_themselves_are_taken() {
    let mut full = good();
    full.positions.resize(6 * 512, 9);
    full.edges.extend([0, 1].repeat(1_021));
    full.triangles.extend([0, 1, 2].repeat(510));
    assert_eq!(full.scene().check_scene(), Ok(()));
    assert_eq!(good().scene().check_scene(), Ok(()));
    assert_eq!(Flat::default().scene().check_scene(), Ok(()));
    assert_eq!(Flat::default().scene().settled(), Ok(vec![]));
}

// ---- 2, 3, 15, 4 of slices, each over the whole scene before the next

#[test]
fn the_checks_go_in_order_over_the_whole_scene() {
    let far: [fn(&mut Flat); 4] = [
        |flat| flat.positions[0] = 524_288,
        |flat| *flat.positions.last_mut().unwrap() = -524_288,
        |flat| flat.positions[7] = i32::MAX,
        |flat| flat.positions[7] = i32::MIN,
    ];
    let unknown: [fn(&mut Flat); 4] = [
        |flat| flat.edges[0] = 5,
        |flat| flat.edges[5] = u16::MAX,
        |flat| flat.triangles[0] = 5,
        |flat| flat.triangles[5] = u16::MAX,
    ];
    let twice: [fn(&mut Flat); 4] = [
        |flat| flat.edges[0] = flat.edges[1],
        |flat| flat.triangles[3] = flat.triangles[4],
        |flat| flat.triangles[3] = flat.triangles[5],
        |flat| flat.triangles[4] = flat.triangles[5],
    ];
    for first in far {
        refused_by_all(&with(first), 2);
        unknown.iter().chain(&twice).for_each(|second| refused_by_all(&with(|flat| (first(flat), second(flat)).1), 2));
    }
    for first in unknown {
        refused_by_all(&with(first), 3);
        twice.iter().for_each(|second| refused_by_all(&with(|flat| (second(flat), first(flat)).1), 3));
    }
    twice.iter().for_each(|fault| refused_by_all(&with(fault), 4));
    for edge in [524_287, -524_287, 262_144, -262_144] {
        assert_eq!(with(|flat| flat.positions[0] = edge).scene().check_scene(), Ok(()));
    }
}

// ---- 5

/// Places that are not there, some of which come to a small offset when they are multiplied in 64 bits.
fn beyond(count: usize) -> Vec<usize> {
    let wraps = [2, 3, 6].map(|width: u64| (u64::MAX / width + 1) as usize);
    let mut out = vec![count, count + 1, 65_535, 65_536, usize::MAX];
    out.extend(wraps.iter().flat_map(|&place| [place, place + 1]));
    out
}

/// The pair and these pieces, asked for in three words and in four; and the pair's contact.
fn asked(flat: &Flat, kind: Kind, first: usize, second: usize, pieces: &[usize]) -> Vec<Result<(), Refusal>> {
    let scene = flat.scene();
    let mut out = vec![scene.judge_pair(kind, first, second).map(drop), scene.settle_pair(kind, first, second).map(drop)];
    out.push(scene.contact_pair(kind, first, second).map(drop));
    for &piece in pieces {
        out.push(scene.judge_piece(kind, first, second, piece).map(drop));
        out.push(scene.settle_piece(kind, first, second, piece).map(drop));
    }
    out
}

#[test]
fn what_is_not_there_is_refused_before_what_it_shares() {
    let flat = good();
    let not_there = |kind: Kind, first: usize, second: usize| {
        for answer in asked(&flat, kind, first, second, &[0, 1, 2, 3, 4, usize::MAX]) {
            assert_eq!(answer, Err(Refusal::NotThere), "{kind:?} {first} {second}");
        }
    };
    let (vertices, edges, triangles) = (5, 3, 2);
    for place in beyond(vertices) {
        (0..triangles).for_each(|triangle| not_there(Kind::PointTriangle, place, triangle));
        beyond(triangles).iter().for_each(|&triangle| not_there(Kind::PointTriangle, place, triangle));
    }
    for place in beyond(triangles) {
        (0..vertices).for_each(|vertex| not_there(Kind::PointTriangle, vertex, place));
    }
    for place in beyond(edges) {
        (0..edges).for_each(|other| not_there(Kind::EdgeEdge, place, other));
        (0..edges).for_each(|other| not_there(Kind::EdgeEdge, other, place));
        beyond(edges).iter().for_each(|&other| not_there(Kind::EdgeEdge, place, other));
    }
}

#[test]
fn nothing_is_there_in_an_empty_scene() {
    for kind in KINDS {
        assert!(asked(&Flat::default(), kind, 0, 0, &[0, 3]).iter().all(|answer| *answer == Err(Refusal::NotThere)));
    }
}

#[test]
fn a_piece_that_is_not_there_is_refused_before_what_the_pair_shares() {
    let flat = good();
    for (kind, pieces) in [(Kind::PointTriangle, 3), (Kind::EdgeEdge, 4)] {
        for (first, second) in [(3, 0), (0, 0), (1, 0), (0, 1)] {
            for piece in beyond(pieces) {
                assert_eq!(flat.scene().judge_piece(kind, first, second, piece), Err(Refusal::NotThere));
                assert_eq!(flat.scene().settle_piece(kind, first, second, piece), Err(Refusal::NotThere));
            }
        }
    }
    assert!((0..3).all(|piece| flat.scene().judge_piece(Kind::PointTriangle, 3, 0, piece).is_ok()));
    assert!((0..3).all(|piece| flat.scene().settle_piece(Kind::PointTriangle, 3, 0, piece).is_ok()));
    assert!((0..4).all(|piece| flat.scene().judge_piece(Kind::EdgeEdge, 0, 1, piece).is_ok()));
    assert!((0..4).all(|piece| flat.scene().settle_piece(Kind::EdgeEdge, 0, 1, piece).is_ok()));
}

// ---- 6

#[test]
fn each_shared_corner_is_refused() {
    for order in [[0, 1, 2], [0, 2, 1], [1, 0, 2], [1, 2, 0], [2, 0, 1], [2, 1, 0]] {
        let flat = with(|flat| flat.triangles[..3].copy_from_slice(&order));
        for vertex in 0..3 {
            for answer in asked(&flat, Kind::PointTriangle, vertex, 0, &[0, 1, 2]) {
                assert_eq!(answer, Err(Refusal::SharedVertex));
            }
        }
        for vertex in 3..5 {
            assert!(asked(&flat, Kind::PointTriangle, vertex, 0, &[0, 1, 2]).iter().all(Result::is_ok));
        }
    }
}

#[test]
fn each_shared_end_is_refused_and_an_edge_with_itself() {
    // one end in common, in each of four ways; the same edge again; the same the other way round
    for second in [[0, 2], [2, 0], [1, 2], [2, 1], [0, 1], [1, 0]] {
        let flat = with(|flat| flat.edges[2..4].copy_from_slice(&second));
        for (first, second) in [(0, 1), (1, 0), (0, 0), (1, 1), (2, 2)] {
            for answer in asked(&flat, Kind::EdgeEdge, first, second, &[0, 1, 2, 3]) {
                assert_eq!(answer, Err(Refusal::SharedVertex));
            }
        }
    }
    assert!(asked(&good(), Kind::EdgeEdge, 0, 1, &[0, 1, 2, 3]).iter().all(Result::is_ok));
}

/// A pair that shares a vertex is in no list either, however its boxes lie.
#[test]
fn no_listed_pair_shares_a_vertex() {
    for pair in good().scene().listed().unwrap() {
        assert!(good().scene().judge_pair(pair.kind, pair.first, pair.second).is_ok());
    }
}

// ---- 7 last, with the count needed

#[test]
fn room_is_the_smaller_of_the_two_and_the_last_check() {
    let flat = good();
    let count = flat.scene().count_pairs().unwrap().count;
    assert!(count > 1);
    for room in 0..count {
        assert_eq!(listed(&flat, room), Err((7, count as u64)));
        assert_eq!(settled(&flat, room, count + 5), Err((7, count as u64)));
        assert_eq!(settled(&flat, count + 5, room), Err((7, count as u64)));
    }
    assert!(listed(&flat, count).is_ok() && settled(&flat, count, count).is_ok());
    let bad = with(|flat| flat.triangles[3] = flat.triangles[4]);
    assert_eq!(listed(&bad, 0), Err((4, 0)));
    assert_eq!(settled(&bad, 0, 0), Err((4, 0)));
}

// ---- 12

/// Reads into buffers of these lengths, and holds every number behind the scene, or all of them after a refusal, to what it was.
fn read_into(text: &[u8], lengths: [usize; 4]) -> Answer<Flat> {
    let mut positions: Vec<i32> = painted(lengths[0]);
    let mut rest: [Vec<u16>; 3] = [1, 2, 3].map(|place| painted(lengths[place]));
    let before = (positions.clone(), rest.clone());
    let [edges, triangles, seams] = &mut rest;
    let answer = makhnodri::read_scene(text, &mut positions, edges, triangles, seams);
    let counts = answer.unwrap_or_default();
    let (p, ends) = (6 * counts.vertices, [2 * counts.edges, 3 * counts.triangles, 2 * counts.seams]);
    assert_eq!(positions[p..], before.0[p..]);
    for list in 0..3 {
        assert_eq!(rest[list][ends[list]..], before.1[list][ends[list]..]);
        rest[list].truncate(ends[list]);
    }
    positions.truncate(p);
    let [edges, triangles, seams] = rest;
    answer.map(|_| Flat { positions, edges, triangles, seams }).map_err(of_text)
}

const LENT: [usize; 4] = [3_072, 2_048, 1_536, 1_024];

#[test]
fn a_short_buffer_is_refused_before_the_text_is_looked_at() {
    let (long, bad) = ([b'\n'; 32_769], b"x");
    for text in [PRINTED_SCENE.as_bytes(), b"", &long, bad] {
        for buffer in 0..4 {
            for short in [0, 1, LENT[buffer] - 6, LENT[buffer] - 1] {
                let mut lengths = LENT;
                lengths[buffer] = short;
                assert_eq!(read_into(text, lengths), Err((12, 0)));
                lengths[(buffer + 1) % 4] = 0;
                assert_eq!(read_into(text, lengths), Err((12, 0)));
            }
        }
        assert_eq!(read_into(text, [0; 4]), Err((12, 0)));
    }
    assert_eq!(read_into(&long, LENT), Err((8, 0)));
    assert_eq!(read_into(bad, LENT), Err((9, 1)));
}

#[test]
fn buffers_that_are_long_enough_hold_the_scene_in_front() {
    let printed = Flat::of(&read(PRINTED_SCENE.as_bytes()).unwrap());
    for more in [0, 1, 7] {
        assert_eq!(read_into(PRINTED_SCENE.as_bytes(), LENT.map(|length| length + more)), Ok(printed.clone()));
        assert_eq!(read_into(b"", LENT.map(|length| length + more)), Ok(Flat::default()));
    }
}

/// Refused with a line, or read: what the independent reader says, of every text at an edge of the rules.
#[test]
fn texts_at_the_edges_of_the_rules() {
    let mut numbers = std::collections::BTreeSet::new();
    for case in compare::making::cases::text_cases() {
        let wanted = compare::text::read_lent(&case.text, LENT);
        let wanted = wanted.map(|scene| Flat::of(&scene)).map_err(|refusal| (refusal.number, refusal.third));
        assert_eq!(read_into(&case.text, LENT), wanted, "{}", case.name);
        numbers.extend(wanted.err().map(|(number, _)| number));
    }
    assert_eq!(numbers.into_iter().collect::<Vec<u64>>(), [2, 3, 4, 8, 9, 10, 11, 15]);
}

#[test]
fn refusals_tell_what_they_are() {
    assert_eq!(Refusal::NotThere.to_string(), "refused 5: a vertex, edge, triangle or piece asked for that isn't there");
    let line = TextRefusal::Line { refusal: Refusal::BadLine, line: 3 };
    assert_eq!(line.to_string(), "line 3: refused 9: a line not of the form, or a last line without LF");
    assert_eq!(makhnodri::ListRefusal::NoRoom { needed: 2 }.to_string(), "refused 7: more listed pairs than room, 2 needed");
}

/// Claims: each refusal with what it carries, the answers, and what is left of the buffer.
#[test]
fn claims_are_answered_or_refused() {
    let flat = Flat::of(&compare::making::cases::shown()[0].scene);
    let scene = flat.scene();
    let (one, other) = ("pt\t3\t0\t1\t2\t2\t2\t0\t1\t1\n", "pt\t3\t0\t1\t2\t2\t2\t0\t1\t2\n");
    let two = format!("{one}{other}").into_bytes();
    assert_eq!(scene.claims_answered(&two), Ok(vec![true, false]));
    assert_eq!(scene.claims_answered(b""), Ok(vec![]));
    let mut answers = [7; 4];
    assert_eq!(scene.check_claims(&two, &mut answers), Ok(2));
    assert_eq!(answers, [1, 0, 7, 7]);
    for (text, wanted) in [
        (format!("{one}pt\t3\n"), ClaimsRefusal::Line { refusal: Refusal::BadLine, line: 2 }),
        (format!("{one}pt\t4\t0\t1\t2\t2\t2\t0\t1\t1\n"), ClaimsRefusal::Line { refusal: Refusal::NotThere, line: 2 }),
        ("pt\t0\t0\t1\t2\t2\t2\t0\t1\t1\n".into(), ClaimsRefusal::Line { refusal: Refusal::SharedVertex, line: 1 }),
        ("x".repeat(TEXT_LIMIT + 1), ClaimsRefusal::LongText),
        (one.repeat(5), ClaimsRefusal::NoRoom { needed: 5 }),
    ] {
        let mut answers = [7; 4];
        assert_eq!(scene.check_claims(text.as_bytes(), &mut answers), Err(wanted), "{text:.40}");
        assert_eq!(answers, [7; 4]);
        assert!(wanted.to_string().contains(&format!("refused {}", wanted.refusal().number())));
    }
    let half = Scene { positions: (&scene.positions[..3]).into(), ..scene.borrowed() };
    assert_eq!(half.check_claims(&two, &mut answers), Err(ClaimsRefusal::Scene(Refusal::Shape)));
}

// ---- 15, and 4 by seams

/// The good scene with vertices 5 and 6 where 0 is, 7 where 1 is, 8 where 0 is at the start alone and 9 where it is at the end alone.
fn cloth() -> Flat {
    with(|flat| {
        for (of, changed) in [(0, None), (0, None), (1, None), (0, Some(5)), (0, Some(1))] {
            let mut place = flat.positions[6 * of..6 * of + 6].to_vec();
            changed.into_iter().for_each(|number: usize| place[number] += 1);
            flat.positions.extend(place);
        }
        flat.seams = vec![5, 0];
    })
}

fn sewn(seams: &[u16]) -> Flat {
    Flat { seams: seams.to_vec(), ..cloth() }
}

#[test]
fn each_broken_seam_is_refused() {
    for fine in [&[][..], &[5, 0], &[6, 5], &[5, 0, 6, 0], &[5, 0, 6, 0, 7, 1]] {
        assert_eq!(sewn(fine).scene().check_scene(), Ok(()), "{fine:?}");
    }
    let broken = [
        &[5, 5][..],
        &[0, 5],
        &[6, 0, 5, 0],
        &[5, 0, 5, 0],
        &[5, 0, 6, 5],
        &[6, 5, 7, 6],
        &[1, 0],
        &[8, 0],
        &[9, 0],
        &[5, 0, 9, 0],
    ];
    for seams in broken {
        refused_by_all(&sewn(seams), 15);
        // 2 and 3 come before it, wherever they are, and 4 behind it
        refused_by_all(&Flat { positions: [&sewn(seams).positions[..59], &[524_288]].concat(), ..sewn(seams) }, 2);
        refused_by_all(&Flat { triangles: vec![0, 1, 10], ..sewn(seams) }, 3);
        refused_by_all(&sewn(&[seams, &[9, 10]].concat()), 3);
        refused_by_all(&Flat { edges: vec![0, 0], ..sewn(seams) }, 15);
        refused_by_all(&Flat { edges: vec![5, 0], ..sewn(seams) }, 15);
    }
}

/// Two corners that stand for one vertex, where one or both are replaced.
#[test]
fn a_part_with_two_corners_sewn_together_is_refused() {
    let three = sewn(&[5, 0, 6, 0, 7, 1]);
    for edge in [[0, 5], [5, 0], [5, 6], [6, 0], [1, 7]] {
        refused_by_all(&Flat { edges: edge.to_vec(), ..three.clone() }, 4);
        refused_by_all(&Flat { triangles: vec![0, 1, 2, edge[0], 3, edge[1]], ..three.clone() }, 4);
        assert_eq!(Flat { edges: edge.to_vec(), seams: vec![], ..three.clone() }.scene().check_scene(), Ok(()));
    }
}

/// Sharing by the vertex stood for: 6, on every way to ask; and a replaced vertex keeps its own pairs.
#[test]
fn what_is_sewn_shares_a_vertex() {
    let flat = Flat { edges: vec![5, 3, 0, 4, 7, 2], triangles: vec![7, 3, 4], ..sewn(&[5, 0, 7, 1]) };
    for (kind, first, second) in [(Kind::EdgeEdge, 0, 1), (Kind::PointTriangle, 1, 0), (Kind::PointTriangle, 7, 0)] {
        let pieces = if kind == Kind::EdgeEdge { &[0, 1, 2, 3][..] } else { &[0, 1, 2] };
        for answer in asked(&flat, kind, first, second, pieces) {
            assert_eq!(answer, Err(Refusal::SharedVertex));
        }
    }
    assert!(asked(&flat, Kind::EdgeEdge, 0, 2, &[0, 1, 2, 3]).iter().all(Result::is_ok));
    let same: Vec<_> = [0, 5].map(|vertex| asked(&flat, Kind::PointTriangle, vertex, 0, &[0, 1, 2])).into();
    assert!(same[0].iter().all(Result::is_ok) && same[0] == same[1]);
}

/// A scene that borrows, one that owns, and one that was read are one scene to every call.
#[test]
fn a_scene_borrows_or_owns() {
    let flat = sewn(&[5, 0, 6, 0]);
    let borrowed = flat.scene();
    let owned = borrowed.clone().into_owned();
    assert!(matches!(borrowed.positions, std::borrow::Cow::Borrowed(_)) && matches!(owned.seams, std::borrow::Cow::Owned(_)));
    assert_eq!((&borrowed, borrowed.settled()), (&owned.borrowed(), owned.settled()));
    let text = compare::text::write(&flat.independent(compare::calls::slices::scene).unwrap());
    let read = Scene::read(text.as_bytes()).unwrap();
    assert_eq!(read, owned);
    assert_eq!(read.turned(), Err(makhnodri::TurnRefusal::Seams));
    let unsewn = read.sewn(&[]);
    let turned = unsewn.turned().unwrap();
    assert_eq!(turned.turned().as_ref(), Ok(&unsewn));
    assert_eq!(turned.settled().unwrap().len(), unsewn.settled().unwrap().len());
    let half = Scene { positions: vec![0; 3].into(), ..unsewn };
    assert_eq!(half.turned(), Err(makhnodri::TurnRefusal::Scene(Refusal::Shape)));
}
