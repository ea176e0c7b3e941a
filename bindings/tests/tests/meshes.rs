//! Meshes of any size against the independent program: rows, near rows, words, orders, certificates, refusals; and stretches by threads.

use compare::mesh::answering::Answering;
use compare::mesh::lent::{self, Ask, Call, Lent};
use compare::mesh::making::{certificate, closed, drawn, large};
use compare::mesh::wrong::Wrong;
use compare::numbers::random::Random;
use compare::scene;
use makhnodri::*;

const SEEDS: u64 = 63;

fn mesh_of(scene: &scene::Scene) -> Mesh<'static> {
    let lent = Lent::of_scene(scene);
    Mesh::new(lent.positions, lent.edges, lent.triangles).sewn(lent.seams)
}

fn kind_of(which: RowPairs) -> lent::RowPairs {
    match which {
        RowPairs::Listed => lent::RowPairs::Listed,
        RowPairs::Near => lent::RowPairs::Near,
    }
}

/// What a call over rows answers and leaves, by the independent program, with room for 40,000 pairs.
fn independent(scene: &scene::Scene, call: Call, asked: [u64; 3]) -> (u64, Lent) {
    let mut lent = Lent::of_scene(scene);
    (lent.table, lent.places, lent.boxes) = (vec![0; lent.table_room()], vec![0; lent.place_room()], vec![0; lent.box_room()]);
    (lent.list, lent.words, lent.told) = (vec![0; 40_000], vec![0; 40_000], vec![0; call.told()]);
    lent.contacts = vec![7; if call.finds_contacts() { 200_000 } else { 0 }];
    Answering::default().answer(&Ask { call, asked, lent }, Wrong::Nothing)
}

/// The entries and the words of a stretch, by the independent program.
fn wanted(scene: &scene::Scene, which: RowPairs, rows: [usize; 2]) -> (Vec<u64>, Vec<u8>) {
    let (number, left) = independent(scene, Call::Settle(kind_of(which)), [rows[0] as u64, rows[1] as u64, 0]);
    assert_eq!(number, 0);
    let count = left.told[0] as usize;
    (left.list[..count].to_vec(), left.words[..count].to_vec())
}

/// The four words by the bits of a number.
fn words_of(mask: u64) -> Wanted {
    let asked = |bit: u64| mask >> bit & 1 == 1;
    Wanted { hits: asked(0), misses: asked(1), touches: asked(2), aparts: asked(3) }
}

/// In any cut, with an order or without: the same rows.
#[test]
fn rows_are_those_of_the_independent_program() {
    let mut scratch = Scratch::default();
    for seed in 0..SEEDS {
        let (scene, mut random) = (drawn(seed), Random::new(seed));
        let mesh = mesh_of(&scene);
        let rows = mesh.row_count();
        let cut = random.below(rows + 1);
        for which in [RowPairs::Listed, RowPairs::Near] {
            for [first, end] in [[0, rows], [0, cut], [cut, rows]] {
                let (entries, _) = wanted(&scene, which, [first, end]);
                assert_eq!(mesh.count_rows(&mut scratch, which, first..end), Ok(entries.len() as u64), "seed {seed}");
                let mut list = vec![7; entries.len() + 2];
                assert_eq!(mesh.list_rows(&mut scratch, which, first..end, &mut list), Ok(entries.len() as u64));
                assert_eq!((&list[..entries.len()], &list[entries.len()..]), (&entries[..], &[7, 7][..]), "seed {seed}");
                let ordered =
                    mesh.clone().ordered(order(&mut random, scene.edges.len()), order(&mut random, scene.triangles.len()));
                let mut again = vec![7; list.len()];
                assert_eq!(ordered.list_rows(&mut scratch, which, first..end, &mut again), Ok(entries.len() as u64));
                assert_eq!(again, list);
            }
        }
    }
}

/// By every mask: the pairs of a stretch whose words are asked for, with the totals of all, and room for the kept ones alone.
#[test]
fn kept_rows_are_those_of_the_independent_program() {
    let (mut scratch, mut kept_some, mut left_some) = (Scratch::default(), 0, 0);
    for seed in 0..SEEDS {
        let scene = drawn(seed);
        let (mesh, asked_for) = (mesh_of(&scene), words_of(seed % 16));
        for which in [RowPairs::Listed, RowPairs::Near] {
            let rows = mesh.row_count();
            let (entries, bytes) = wanted(&scene, which, [0, rows]);
            let of = |word: Settled| bytes.iter().filter(|&&byte| byte == word as u8).count() as u64;
            let keeps = |byte: u8| asked_for.mask() >> byte & 1 == 1;
            let kept: Vec<(u64, u8)> =
                entries.iter().copied().zip(bytes.iter().copied()).filter(|&(_, byte)| keeps(byte)).collect();
            let (mut list, mut words) = (vec![7; kept.len() + 1], vec![7; kept.len() + 1]);
            let told = mesh.keep_rows(&mut scratch, which, 0..rows, asked_for, &mut list, &mut words).unwrap();
            let (count, listed) = (kept.len() as u64, entries.len() as u64);
            let totals = [of(Settled::Hit), of(Settled::Miss), of(Settled::Touch), of(Settled::Apart)];
            assert_eq!([told.count, told.listed], [count, listed], "seed {seed}");
            assert_eq!([told.hits, told.misses, told.touches, told.aparts], totals, "seed {seed}");
            assert_eq!((list.pop(), words.pop()), (Some(7), Some(7)));
            assert_eq!(list.into_iter().zip(words).collect::<Vec<_>>(), kept, "seed {seed}");
            if count > 0 {
                let refused = mesh.keep_rows(&mut scratch, which, 0..rows, asked_for, &mut vec![0; kept.len()], &mut []);
                assert_eq!(refused, Err(RowsRefusal::NoRoom { needed: count }));
            }
            (kept_some, left_some) = (kept_some + count, left_some + listed - count);
        }
    }
    assert!(kept_some > 100 && left_some > 100);
}

/// By every mask: the kept pairs, and in its row the contact of each hit among them; 16 where a coordinate is beyond the old range, before 7.
#[test]
fn kept_contacts_are_those_of_the_independent_program() {
    let (mut scratch, mut rows_left, mut beyond) = (Scratch::default(), 0, 0);
    for seed in 0..SEEDS {
        let scene = drawn(seed);
        let (mesh, asked_for) = (mesh_of(&scene), words_of(seed % 16));
        for which in [RowPairs::Listed, RowPairs::Near] {
            let rows = mesh.row_count();
            let (number, left) =
                independent(&scene, Call::KeepContacts(kind_of(which)), [0, rows as u64, asked_for.mask() as u64]);
            let count = if number == 0 { left.told[0] as usize } else { 3 };
            let (mut list, mut words, mut contacts) = (vec![0; count], vec![0; count], vec![7; CONTACT_LENGTH * count]);
            let told = mesh.keep_contacts(&mut scratch, which, 0..rows, asked_for, &mut list, &mut words, &mut contacts);
            if number > 0 {
                assert_eq!(told, Err(RowsRefusal::Mesh(Refusal::BeyondOldRange)), "seed {seed}");
                assert!(list == [0; 3] && words == [0; 3] && contacts == [7; 3 * CONTACT_LENGTH]);
                beyond += 1;
                continue;
            }
            let KeptRows { count: kept, listed, hits, misses, touches, aparts } = told.unwrap();
            assert_eq!([kept, listed, hits, misses, touches, aparts], left.told[..], "seed {seed}");
            assert_eq!((&list[..], &words[..]), (&left.list[..count], &left.words[..count]), "seed {seed}");
            assert_eq!(contacts, left.contacts[..CONTACT_LENGTH * count], "seed {seed}");
            rows_left += contacts.chunks_exact(CONTACT_LENGTH).filter(|row| **row != [7; CONTACT_LENGTH]).count();
            if count > 0 {
                let short = &mut contacts[1..];
                let refused = mesh.keep_contacts(&mut scratch, which, 0..rows, asked_for, &mut list, &mut words, short);
                assert_eq!(refused, Err(RowsRefusal::NoRoom { needed: count as u64 }));
            }
        }
    }
    assert!(rows_left > 50 && beyond > 0, "{rows_left} rows, {beyond} refused");
}

fn order(random: &mut Random, parts: usize) -> Vec<u32> {
    let mut order: Vec<u32> = (0..parts as u32).collect();
    (1..parts).for_each(|place| order.swap(place, random.below(place + 1)));
    order
}

/// More vertices than a scene may have; its stretches by threads, each with scratch of its own, joined.
#[test]
fn threads_take_stretches() {
    let scene = large(&mut Random::new(11));
    let mesh = mesh_of(&scene);
    assert!(mesh.check_mesh(&mut Scratch::default()).is_ok() && scene.vertices.len() > VERTEX_LIMIT);
    let rows = mesh.row_count();
    let mut all = vec![0; 40_000];
    let count = mesh.list_rows(&mut Scratch::default(), RowPairs::Near, 0..rows, &mut all).unwrap() as usize;
    let parts: Vec<Vec<u64>> = std::thread::scope(|threads| {
        let stretch = |part: usize| {
            let (mesh, rows) = (&mesh, rows * part / 4..rows * (part + 1) / 4);
            threads.spawn(move || {
                let (mut scratch, mut list) = (Scratch::default(), vec![0; 40_000]);
                let count = mesh.list_rows(&mut scratch, RowPairs::Near, rows, &mut list).unwrap();
                list.truncate(count as usize);
                list
            })
        };
        let started: Vec<_> = (0..4).map(stretch).collect();
        started.into_iter().map(|thread| thread.join().unwrap()).collect()
    });
    assert!(count > 100);
    assert_eq!(parts.concat(), all[..count]);
}

/// Each refusal, with the count needed where there is no room; nothing is written then.
#[test]
fn refusals_are_told() {
    let scene = closed(&mut Random::new(1), drawn(5));
    let (mesh, mut scratch) = (mesh_of(&scene), Scratch::default());
    let rows = mesh.row_count();
    let needed = mesh.count_rows(&mut scratch, RowPairs::Listed, 0..rows).unwrap();
    let mut list = vec![7; (needed as usize).saturating_sub(1)];
    if needed > 0 {
        let refusal = mesh.list_rows(&mut scratch, RowPairs::Listed, 0..rows, &mut list).unwrap_err();
        assert_eq!(refusal, RowsRefusal::NoRoom { needed });
        assert_eq!(refusal.to_string(), format!("refused 7: more listed pairs than room, {needed} needed"));
        assert!(list.iter().all(|&entry| entry == 7));
    }
    #[allow(clippy::reversed_empty_ranges)]
    for gone in [0..rows + 1, 1..0, usize::MAX..usize::MAX] {
        assert_eq!(mesh.count_rows(&mut scratch, RowPairs::Near, gone), Err(Refusal::NotThere));
    }
    let twice = mesh.clone().ordered(vec![0; scene.edges.len().max(2)], vec![]);
    assert_eq!(twice.count_rows(&mut scratch, RowPairs::Near, 0..0), Err(Refusal::WrongOrder));
    let far = Mesh::new(vec![600_000; 6], vec![], vec![]);
    assert_eq!(far.check_mesh(&mut scratch), Err(Refusal::Coordinate));
    assert_eq!(Mesh::new(vec![0; 5], vec![], vec![]).check_mesh(&mut scratch), Err(Refusal::Shape));
}

/// A certificate that is right, one that names another edge for a side, and an edge that stands twice.
#[test]
fn edges_are_checked() {
    let scene = large(&mut Random::new(2));
    let (mesh, mut scratch) = (mesh_of(&scene), Scratch::default());
    let (mut sides, order) = certificate(&scene);
    assert_eq!(mesh.check_edges(&mut scratch, &sides, &order), Ok(EdgesFound::Whole));
    sides[100] = (sides[100] + 1) % scene.edges.len() as u32;
    assert_eq!(mesh.check_edges(&mut scratch, &sides, &order), Ok(EdgesFound::Bare { side: 100 }));
    assert_eq!(mesh.check_edges(&mut scratch, &sides[1..], &order), Err(Refusal::WrongOrder));
    let mut twice = scene.clone();
    twice.edges.push([scene.edges[0][1], scene.edges[0][0]]);
    let (sides, order) = certificate(&twice);
    assert!(matches!(mesh_of(&twice).check_edges(&mut scratch, &sides, &order), Ok(EdgesFound::Twice { .. })));
}

/// An entry is taken apart and put together again.
#[test]
fn entries_come_apart() {
    for kind in [Kind::PointTriangle, Kind::EdgeEdge] {
        let pair = MeshPair { kind, first: (1 << 30) - 1, second: 70_000 };
        assert_eq!(MeshPair::of_entry(pair.entry()), pair);
    }
    assert_eq!(MeshPair { kind: Kind::EdgeEdge, first: 1, second: 2 }.entry(), (1 << 63) + (1 << 32) + 2);
}

/// An edge and a triangle of a scene, at either time, against the independent program.
#[test]
fn pierced_is_that_of_the_independent_program() {
    use compare::mesh::lent::Time;
    for seed in 0..SEEDS {
        let scene = drawn(seed);
        let narrow = |numbers: Vec<u32>| numbers.into_iter().map(|n| n as u16).collect::<Vec<u16>>();
        let lent = Lent::of_scene(&scene);
        let ours = Scene::new(lent.positions, narrow(lent.edges), narrow(lent.triangles)).sewn(narrow(lent.seams));
        for edge in 0..scene.edges.len().min(6) {
            for triangle in 0..scene.triangles.len().min(6) {
                let share = scene.edges[edge].iter().any(|&end| scene::Pair::pt(end, triangle).shares_a_vertex(&scene));
                let at = |time: Time| match share {
                    true => Err(Refusal::SharedVertex),
                    false => Ok(compare::mesh::rows::is_pierced(&scene, time, edge, triangle, Wrong::Nothing)),
                };
                assert_eq!(ours.pierced_at_start(edge, triangle), at(Time::Start), "seed {seed}");
                assert_eq!(ours.pierced_at_end(edge, triangle), at(Time::End), "seed {seed}");
            }
        }
        assert_eq!(ours.pierced_at_start(scene.edges.len(), 0), Err(Refusal::NotThere));
    }
}
