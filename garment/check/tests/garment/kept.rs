//! Pairs of some words alone, and rows in stretches of any length: what comes of them is what comes of all.

use compare::numbers::random::Random;
use garment::cutter::Cutter;
use garment::judge::{Answer, Judge, Question, Which};
use garment::mesh::Mesh;
use garment::report::{place, Row};
use garment_check::cloth::{cloth, drape, obj, KINDS};
use garment_check::ways::{mesh_of, mesh_within};
use makhnodri::{Settled, CONTACT_LIMIT};

/// A drape that falls lists more pairs than a call has room for, and tight cloth has more hits than the library keeps at once.
fn meshes() -> [Mesh; 2] {
    let falling = [4, 5].map(|frame| {
        let (places, faces) = drape(500, frame, 1);
        obj(&places, &faces)
    });
    let tight = cloth(KINDS[2], 3_000, 1).objs();
    [falling, tight].map(|texts| mesh_within(CONTACT_LIMIT, &texts, None, false).expect("a mesh"))
}

fn question(which: Which, wanted: [bool; 4], contacts: bool) -> Question<'static> {
    Question { which, choice: None, wanted, contacts }
}

/// Those of some words, with the contacts of hits.
fn of_words(all: &Answer, wanted: [bool; 4]) -> Vec<(u64, Settled, Option<Row>)> {
    let contact = |at: usize, word: Settled| all.contacts.get(at).copied().filter(|_| word == Settled::Hit);
    let told = all.told.iter().enumerate().map(|(at, &(pair, word))| (pair.entry(), word, contact(at, word)));
    told.filter(|&(_, word, _)| wanted[place(word)]).collect()
}

#[test]
fn kept_words_are_those_of_all() {
    for mesh in meshes() {
        let judge = Judge::new(&mesh).expect("a mesh");
        for (which, contacts) in [(Which::Listed, false), (Which::Near, false), (Which::Near, true)] {
            let all = judge.asked(0..judge.rows(), &question(which, [true; 4], contacts)).expect("all");
            for mask in [0b0001, 0b0101, 0b0000, 0b1110] {
                let wanted = [0, 1, 2, 3].map(|word| mask >> word & 1 == 1);
                let some = judge.asked(0..judge.rows(), &question(which, wanted, contacts)).expect("some");
                assert_eq!((some.tally, some.left), (all.tally, 0), "{which:?} {mask}");
                assert_eq!(of_words(&some, [true; 4]), of_words(&all, wanted), "{which:?} {mask}");
            }
        }
    }
}

/// More pairs than there is room for in a call, and many more than the library keeps at once.
#[test]
fn what_is_asked_has_many() {
    let judged = meshes().map(|mesh| {
        let judge = Judge::new(&mesh).expect("a mesh");
        judge.asked(0..judge.rows(), &question(Which::Listed, [false; 4], false)).expect("totals").tally
    });
    assert!(judged[0].listed() > 1 << 18, "{judged:?}");
    assert!(judged[1].of(Settled::Hit) > 2 * 8_192, "{judged:?}");
}

/// Whatever is learned, stretches are all rows in turn, none is of two kinds, and few are made where rows take nothing.
#[test]
fn stretches_are_all_rows() {
    for seed in 0..500 {
        let mut random = Random::new(seed);
        let (rows, threads) = (random.below(100_000), 1 + random.below(5));
        let border = random.below(rows + 1);
        let mut cutter = Cutter::new(rows, border, random.below(2_000), threads);
        let (mut next, mut count) = (0, 0);
        while let Some(some) = cutter.next() {
            assert!(some.start == next && some.end > some.start, "{some:?} behind {next}");
            assert!(some.end <= border || some.start >= border, "{some:?} goes over {border}");
            (next, count) = (some.end, count + 1);
            match random.below(3) {
                0 => {}
                1 => cutter.learn(&some, 0.0),
                _ => cutter.learn(&some, random.below(1_000) as f64 / 300.0),
            }
        }
        assert_eq!(next, rows);
        assert!(count <= 2 + rows.div_ceil(128), "{count} stretches of {rows} rows");
    }
    let mut cutter = Cutter::new(1_000_000, 250_000, 1_000, 1);
    let mut count = 0;
    while let Some(some) = cutter.next() {
        cutter.learn(&some, 0.0);
        count += 1;
    }
    assert!(count < 12, "{count} stretches");
}

/// Faces in any order are lent with an order, faces row by row without one; and whatever order is lent, the list and the words are the same.
#[test]
fn an_order_changes_nothing() {
    let orders = |any: bool| {
        let sheet = cloth(KINDS[0], 20_000, 1);
        let sheet = if any { sheet.in_any_order(5) } else { sheet };
        let mesh = mesh_of(&sheet.objs(), None, false).expect("a mesh");
        let judge = Judge::new(&mesh).expect("a mesh");
        [judge.lent(judge.border()).edge_order.len(), judge.lent(0).triangle_order.len()]
    };
    assert_eq!(orders(false), [0, 0]);
    assert!(orders(true).iter().all(|&length| length > 0));
    let mesh = mesh_of(&cloth(KINDS[1], 1_000, 1).in_any_order(5).objs(), None, false).expect("a mesh");
    let judge = Judge::new(&mesh).expect("a mesh");
    let backwards = |count: usize| (0..count as u32).rev().collect::<Vec<u32>>();
    let (border, scratch) = (judge.border(), &mut makhnodri::Scratch::default());
    let (edges, triangles) = (backwards(mesh.edges.len()), backwards(mesh.triangles.len()));
    for (rows, edges, triangles) in [(0..border, vec![], triangles), (border..judge.rows(), edges, vec![])] {
        let lent = judge.lent(rows.start);
        let plain = lent.settled_rows(scratch, Which::Listed, rows.clone()).expect("words");
        assert!(!plain.is_empty());
        assert_eq!(lent.clone().ordered(edges, triangles).settled_rows(scratch, Which::Listed, rows), Ok(plain));
    }
}

/// Rows of vertices are asked for without the edges, and rows of edges without the triangles: words and contacts are those of the whole mesh.
#[test]
fn rows_of_one_kind_need_no_parts_of_the_other() {
    for mesh in meshes() {
        let judge = Judge::new(&mesh).expect("a mesh");
        let (positions, edges, triangles) =
            (mesh.positions.as_flattened(), mesh.edges.as_flattened(), mesh.triangles.as_flattened());
        let whole = makhnodri::Mesh::new(positions, edges, triangles);
        assert!(judge.lent(0).edges.is_empty() && judge.lent(judge.border()).triangles.is_empty());
        for which in [Which::Listed, Which::Near] {
            for rows in [0..judge.border(), judge.border()..judge.rows()] {
                let lent = judge.lent(rows.start);
                let [all, alone] = [&whole, lent]
                    .map(|mesh| mesh.settled_rows(&mut makhnodri::Scratch::default(), which, rows.clone()).expect("words"));
                assert!(all == alone && !all.is_empty(), "{which:?} rows {rows:?}");
                let [all, alone] = [&whole, lent].map(|mesh| {
                    mesh.contacts_of_rows(&mut makhnodri::Scratch::default(), which, rows.clone()).expect("contacts")
                });
                assert!(all == alone && !all.is_empty(), "{which:?} rows {rows:?}");
            }
        }
    }
}
