//! Seams by document 02, §6: each rule with its number and its line, in a text and in slices; what sewing leaves as it was; and that generated scenes
//! have the seams that they are said to have.

use compare::calls::slices::{self, flat, Slices};
use compare::list::listing::listed;
use compare::making::generate::{self, KINDS};
use compare::making::sewing::split;
use compare::numbers::random::Random;
use compare::report::report;
use compare::scene::affine::Affine;
use compare::scene::pieces::corners;
use compare::scene::refusal::*;
use compare::scene::*;
use compare::text::{read, write};
use compare::verdicts::settled;

/// Vertices at x 0, 1, 2, .. at both times; the two of a pair of letters stand in one place.
fn vertices(places: &str) -> String {
    places.chars().map(|place| format!("v\t{0}\t0\t0\t{0}\t1\t0\n", place as u32 - 'a' as u32)).collect()
}

/// The number and the line with which the last line of the text is refused.
fn refused(text: &str) -> Option<u64> {
    let lines = text.lines().count() as u64;
    let refusal = read(text.as_bytes()).err()?;
    assert_eq!(refusal.third, lines, "{text}");
    Some(refusal.number)
}

/// Document 02: 'in rising i, each i once: vertex i stands for j, j below i, j not itself replaced .. whose two positions differ at either time'.
#[test]
fn each_rule_of_seams() {
    // vertices 0, 1, 2, 3 in four places, 4 and 6 where 0 is, 5 where 1 is, 7 where 6 would be were it not for its end
    let above = vertices("abcdaba") + "v\t0\t0\t0\t0\t2\t0\nv\t0\t1\t0\t0\t1\t0\n";
    for (seams, number) in [
        ("w 4 0", None),
        ("w 4 0\nw 6 0", None),
        ("w 4 0\nw 5 1\nw 6 0", None),
        ("w 6 4", None),
        ("w 4 4", Some(BROKEN_SEAM)),
        ("w 0 4", Some(BROKEN_SEAM)),
        ("w 4 0\nw 6 4", Some(BROKEN_SEAM)),
        ("w 4 0\nw 4 0", Some(BROKEN_SEAM)),
        ("w 5 1\nw 4 0", Some(BROKEN_SEAM)),
        ("w 6 4\nw 4 0", Some(BROKEN_SEAM)),
        ("w 3 2", Some(BROKEN_SEAM)),
        ("w 7 0", Some(BROKEN_SEAM)),
        ("w 8 0", Some(BROKEN_SEAM)),
        ("w 9 0", Some(NO_SUCH_VERTEX)),
        ("w 0 9", Some(NO_SUCH_VERTEX)),
        ("w 9 9", Some(NO_SUCH_VERTEX)),
        ("w 4 00", Some(BAD_LINE)),
        ("w 4 0 0", Some(BAD_LINE)),
        ("w 4 -0", Some(BAD_LINE)),
        ("w 4", Some(BAD_LINE)),
        ("W 4 0", Some(BAD_LINE)),
        ("w 4 0\nt 0 1 2", Some(OUT_OF_ORDER)),
        ("w 4 0\ne 0 0", Some(OUT_OF_ORDER)),
        ("w 4 0\nv 0 0 0 0 0 524288", Some(OUT_OF_ORDER)),
    ] {
        let text = format!("{above}{}\n", seams.replace(' ', "\t"));
        assert_eq!(refused(&text), number, "{seams}");
    }
}

/// 'where two corners stand for one vertex, found at the `w` line that makes it so', also where both were replaced.
#[test]
fn a_part_with_a_vertex_twice() {
    let above = vertices("abcdabaa");
    for (rest, number) in [
        ("e 0 4\nw 4 0", Some(VERTEX_TWICE)),
        ("e 4 0\nw 4 0", Some(VERTEX_TWICE)),
        ("e 4 6\nw 4 0\nw 6 0", Some(VERTEX_TWICE)),
        ("e 6 4\nw 4 0\nw 6 0", Some(VERTEX_TWICE)),
        ("t 1 4 0\nw 4 0", Some(VERTEX_TWICE)),
        ("t 2 5 1\nw 4 0\nw 5 1", Some(VERTEX_TWICE)),
        ("t 6 2 4\nw 4 0\nw 6 0", Some(VERTEX_TWICE)),
        ("e 0 4\nw 6 0", None),
        ("e 6 7\nw 4 0\nw 6 0", None),
        // both faults: 15 is looked for first
        ("e 0 1\nw 1 0", Some(BROKEN_SEAM)),
        ("e 6 4\nw 4 0\nw 6 4", Some(BROKEN_SEAM)),
        // two edges, and two faces, that became one are no fault
        ("e 0 1\ne 4 5\nt 0 1 2\nt 2 4 5\nw 4 0\nw 5 1", None),
    ] {
        let text = format!("{above}{}\n", rest.replace(' ', "\t"));
        assert_eq!(refused(&text), number, "{rest}");
    }
    // the line that makes it so, and not the last one
    let text = format!("{above}e\t0\t4\nw\t4\t0\nw\t5\t1\n");
    assert_eq!(read(text.as_bytes()), Err(Refusal::new(VERTEX_TWICE, 10)));
    // at an e line by the numbers themselves
    assert_eq!(refused(&format!("{above}e\t4\t4\n")), Some(VERTEX_TWICE));
}

/// 1, 2, 3, 15, 4, each over the whole scene before the next.
#[test]
fn seams_in_slices() {
    let scene = read(format!("{}e\t0\t1\nt\t4\t2\t5\nw\t4\t0\nw\t5\t1\n", vertices("abcdab")).as_bytes()).unwrap();
    let flat = flat(&scene);
    let own = flat.slices();
    let number = |slices: Slices| slices::scene(slices).err().map(|refusal| refusal.number);
    assert_eq!(number(own), None);
    assert_eq!(number(Slices { seams: &[], ..own }), None);
    let repeated: Vec<u64> = [4, 0].repeat(513);
    for (seams, wanted) in [
        (&[4][..], BAD_SHAPE),
        (&[4, 0, 5], BAD_SHAPE),
        (&repeated, BAD_SHAPE),
        (&repeated[..1_024], BROKEN_SEAM),
        (&[6, 0], NO_SUCH_VERTEX),
        (&[4, 6], NO_SUCH_VERTEX),
        (&[65_535, 65_535], NO_SUCH_VERTEX),
        (&[5, 1, 4, 0], BROKEN_SEAM),
        (&[4, 0, 4, 0], BROKEN_SEAM),
        (&[4, 4], BROKEN_SEAM),
        (&[0, 4], BROKEN_SEAM),
        (&[3, 2], BROKEN_SEAM),
    ] {
        assert_eq!(number(Slices { seams, ..own }), Some(wanted), "{seams:?}");
    }
    // ties: each over the whole scene before the next
    let far = [vec![524_288], flat.positions[1..].to_vec()].concat();
    assert_eq!(number(Slices { positions: &far, seams: &[4], ..own }), Some(BAD_SHAPE));
    assert_eq!(number(Slices { positions: &far, seams: &[4, 9], ..own }), Some(OUT_OF_RANGE));
    assert_eq!(number(Slices { edges: &[0, 9], seams: &[4, 4], ..own }), Some(NO_SUCH_VERTEX));
    assert_eq!(number(Slices { edges: &[0, 0], seams: &[4, 4], ..own }), Some(BROKEN_SEAM));
    assert_eq!(number(Slices { edges: &[0, 0], seams: &[4, 0], ..own }), Some(VERTEX_TWICE));
    assert_eq!(number(Slices { edges: &[4, 0], ..own }), Some(VERTEX_TWICE));
    // a chain, of which the positions are fine
    let chain = read((vertices("aaa") + "w\t1\t0\n").as_bytes()).unwrap();
    let chain = slices::flat(&chain);
    let chained = Slices { seams: &[1, 0, 2, 1], ..chain.slices() };
    assert_eq!(slices::scene(chained), Err(Refusal::bare(BROKEN_SEAM)));
}

/// 511 seams are a scene, and no text has more: of 512 vertices only 511 can be replaced. So 11 is never given for a seam.
#[test]
fn as_many_seams_as_there_are() {
    let all = vertices(&"a".repeat(512)) + &(1..512).map(|i| format!("w\t{i}\t0\n")).collect::<String>();
    assert_eq!(read(all.as_bytes()).unwrap().seams.len(), 511);
    for more in ["w\t511\t0\n", "w\t1\t0\n", "w\t0\t0\n"] {
        assert_eq!(refused(&format!("{all}{more}")), Some(BROKEN_SEAM));
    }
    assert_eq!(refused(&format!("{all}w\t512\t0\n")), Some(NO_SUCH_VERTEX));
}

/// A vertex split in two and sewn again changes nothing: the list is the old one with the pairs of the copies, which are those of the vertex, and every
/// piece is cut as it was.
#[test]
fn split_and_sewn_is_as_before() {
    let (mut copies, mut recut, mut false_pairs) = (0, 0, 0);
    for seed in 0..10 * KINDS.len() as u64 {
        let whole = generate::scene(seed).unsewn();
        if whole.vertices.len() > 100 {
            continue;
        }
        let sewn = split(&mut Random::new(seed), whole.clone(), 3);
        assert_eq!(read(write(&sewn).as_bytes()).as_ref(), Ok(&sewn), "seed {seed}");
        let before = listed(&whole);
        let copy_of = |pair: &Pair| match pair.kind {
            Kind::PointTriangle => Pair::pt(sewn.stands_for(pair.first), pair.second),
            Kind::EdgeEdge => *pair,
        };
        for pair in listed(&sewn) {
            assert!(before.contains(&copy_of(&pair)), "seed {seed}: {pair:?} is new");
        }
        for pair in &before {
            assert!(listed(&sewn).contains(pair), "seed {seed}: {pair:?} is gone");
            for (copy, _) in sewn
                .seams
                .iter()
                .map(|seam| (seam[0], seam[1]))
                .filter(|seam| pair.kind == Kind::PointTriangle && seam.1 == pair.first)
            {
                copies += 1;
                assert!(
                    listed(&sewn).contains(&Pair::pt(copy, pair.second)),
                    "seed {seed}: the copy {copy} has no pair of its own"
                );
            }
            let places = |scene: &Scene| {
                corners(scene, *pair)
                    .into_iter()
                    .flatten()
                    .flatten()
                    .map(|c| (scene.stands_for(c.vertex), c.at_end))
                    .collect::<Vec<_>>()
            };
            assert_eq!(places(&sewn), places(&whole), "seed {seed}: {pair:?}");
            recut += (places(&sewn.unsewn()) != places(&sewn)) as u32;
            assert_eq!(settled::of_pieces(&sewn, *pair), settled::of_pieces(&whole, *pair), "seed {seed}: {pair:?}");
        }
        false_pairs += listed(&sewn.unsewn()).len() - listed(&sewn).len();
    }
    assert!(
        copies > 200 && recut > 200 && false_pairs > 500,
        "{copies} pairs of copies, {recut} cut otherwise without seams, {false_pairs} false pairs"
    );
}

/// Demand 3 keeps the same seams in both scenes.
#[test]
fn a_map_keeps_seams() {
    for seed in 0..2 * KINDS.len() as u64 {
        let scene = generate::scene(seed);
        let sent = Affine::draw(&mut Random::new(seed), &scene).send(&scene);
        assert_eq!(sent.seams, scene.seams);
    }
}

/// Every kind has scenes with seams and scenes without, and seams change what many of them report.
#[test]
fn every_kind_is_sewn_and_not() {
    let kinds = KINDS.len() as u64;
    let mut changed = 0;
    for kind in 0..kinds {
        let scenes: Vec<Scene> = (0..24).map(|round| generate::scene(round * kinds + kind)).collect();
        let sewn = scenes.iter().filter(|scene| !scene.seams.is_empty()).count();
        assert!(sewn > 2 && sewn < 24, "{}: {sewn} of 24 scenes have seams", KINDS[kind as usize].0);
        for scene in scenes.iter().filter(|scene| scene.vertices.len() < 40).take(4) {
            let of = |scene: &Scene| report(write(scene).as_bytes(), REPORT_ROOM);
            changed += (of(scene) != of(&scene.unsewn())) as u32;
        }
    }
    assert!(changed > 15, "{changed}");
}
