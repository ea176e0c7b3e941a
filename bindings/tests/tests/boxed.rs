//! A scene that keeps its boxes, through the wrapper: after any moves its boxes, its list and its words are those of the scene as it stands.

use compare::calls::stored::{self, Wrong};
use compare::making::generate;
use compare::numbers::random::Random;
use compare::scene;
use compare::text;
use makhnodri::{BoxedScene, ListRefusal, Refusal, Scene, TextRefusal};
use makhnodri_tests::*;

const LONGEST: usize = 60;

/// The boxes that the independent program works out.
fn boxes_of(scene: &scene::Scene) -> Vec<i32> {
    stored::boxes(scene, Wrong::None).into_iter().map(|number| number as i32).collect()
}

fn hold(boxed: &BoxedScene, own: &scene::Scene) {
    let flat = Flat::of(own);
    assert_eq!(*boxed.scene(), flat.scene());
    assert_eq!(boxed.boxes(), boxes_of(own));
    assert_eq!(Ok(boxed.count_stored()), flat.scene().count_pairs());
    assert_eq!(Ok(boxed.listed()), flat.scene().listed());
    assert_eq!(Ok(boxed.settled()), flat.scene().settled());
}

fn target(random: &mut Random) -> [i64; 6] {
    let reach = random.pick(&[3, 9, 200, scene::COORDINATE_LIMIT]);
    std::array::from_fn(|_| random.between(-reach, reach))
}

/// Chains of moves: of vertices alone, of sewn ones to their own place and elsewhere, of all that are sewn together.
#[test]
fn after_any_moves_all_is_that_of_the_scene() {
    let [mut moved, mut torn, mut together] = [0; 3];
    for seed in 0..190 {
        let mut own = generate::scene(seed);
        if own.vertices.is_empty() || own.vertices.len() > LONGEST {
            continue;
        }
        let mut random = Random::new(seed ^ 0xd7a6);
        let mut boxed = BoxedScene::new(Flat::of(&own).scene()).unwrap();
        hold(&boxed, &own);
        for _ in 0..6 {
            let vertex = random.below(own.vertices.len());
            let to = target(&mut random);
            let sewn = own.seams.iter().any(|seam| seam.contains(&vertex));
            let narrow = |to: [i64; 6]| to.map(|number| number as i32);
            if sewn && random.chance(2) {
                boxed.move_sewn(vertex, narrow(to)).unwrap();
                let stood_for = own.stands_for(vertex);
                (0..own.vertices.len()).filter(|&v| own.stands_for(v) == stood_for).collect::<Vec<_>>().into_iter().for_each(
                    |v| {
                        own.vertices[v] = to;
                    },
                );
                together += 1;
            } else if sewn && to != own.vertices[vertex] {
                assert_eq!(boxed.move_vertex(vertex, narrow(to)), Err(Refusal::BrokenSeam));
                hold(&boxed, &own);
                boxed.move_vertex(vertex, narrow(own.vertices[vertex])).unwrap();
                torn += 1;
            } else {
                boxed.move_vertex(vertex, narrow(to)).unwrap();
                own.vertices[vertex] = to;
                moved += 1;
            }
            hold(&boxed, &own);
        }
    }
    assert!(moved > 200 && torn > 10 && together > 10, "{moved} moved, {torn} torn, {together} together");
}

#[test]
fn a_refused_move_changes_nothing() {
    let mut boxed = BoxedScene::read(compare::making::cases::PRINTED_SCENE.as_bytes()).unwrap();
    let before = boxed.clone();
    let vertices = before.scene().positions.len() / 6;
    for (vertex, to, refusal) in [
        (vertices, [0; 6], Refusal::NotThere),
        (usize::MAX, [524_288; 6], Refusal::NotThere),
        (usize::MAX / 6 + 1, [0; 6], Refusal::NotThere),
        (0, [0, 0, 0, 0, 0, 524_288], Refusal::Coordinate),
        (0, [-524_288, 0, 0, 0, 0, 0], Refusal::Coordinate),
        (3, [i32::MIN; 6], Refusal::Coordinate),
    ] {
        assert_eq!(boxed.move_vertex(vertex, to), Err(refusal));
        assert_eq!(boxed.move_sewn(vertex, to), Err(refusal));
        assert_eq!(boxed, before);
    }
    boxed.move_vertex(0, [524_287, -524_287, 0, 0, 0, 0]).unwrap();
    assert_ne!(boxed, before);
}

#[test]
fn what_is_no_scene_keeps_no_boxes() {
    assert_eq!(BoxedScene::new(Scene::new(&[0; 7], &[], &[])), Err(Refusal::Shape));
    assert_eq!(BoxedScene::new(Scene::new(&[600_000; 6], &[], &[])), Err(Refusal::Coordinate));
    assert_eq!(BoxedScene::new(Scene::new(&[0; 12], &[], &[]).sewn(&[0, 1])), Err(Refusal::BrokenSeam));
    assert_eq!(BoxedScene::read(b"v\n"), Err(TextRefusal::Line { refusal: Refusal::BadLine, line: 1 }));
    let empty = BoxedScene::new(Scene::default()).unwrap();
    assert_eq!((empty.boxes(), empty.listed()), (&[][..], vec![]));
    assert_eq!(empty.into_scene(), Scene::default());
}

/// A text is read with its boxes; a scene that was lent is copied.
#[test]
fn it_owns_what_it_keeps() {
    let own = text::read(compare::making::cases::PRINTED_SCENE.as_bytes()).unwrap();
    let mut flat = Flat::of(&own);
    let boxed = BoxedScene::new(flat.scene()).unwrap();
    flat.positions[0] += 1;
    hold(&boxed, &own);
    assert_eq!(Ok(&boxed), BoxedScene::read(compare::making::cases::PRINTED_SCENE.as_bytes()).as_ref());
    assert_eq!(boxed.into_scene(), Flat::of(&own).scene());
}

/// Rooms that are too short, just enough, and left over: the rest is unchanged, and all of it after a refusal.
#[test]
fn the_rest_is_unchanged() {
    let own =
        text::read(&std::fs::read(concat!(env!("CARGO_MANIFEST_DIR"), "/../../scenes/sleeve-sewn.scene")).unwrap()).unwrap();
    let flat = Flat::of(&own);
    let boxed = BoxedScene::new(flat.scene()).unwrap();
    let count = boxed.count_stored().count;
    assert!(count > 2);
    for (room, bytes) in [(0, 0), (count - 1, count), (count, count - 1), (count, count), (count + 9, count + 3)] {
        let (mut list, mut words): (Vec<u32>, Vec<u8>) = (painted(room), painted(bytes));
        let wanted = settled(&flat, room, bytes);
        let answer = boxed.settle_stored(&mut list, &mut words);
        let front = answer.unwrap_or(0);
        assert_eq!(answer.map(|_| (list[..front].to_vec(), words[..front].to_vec())).map_err(of_list), wanted);
        assert_eq!((&list[front..], &words[front..]), (&painted(room)[front..], &painted(bytes)[front..]));
        let mut alone: Vec<u32> = painted(room);
        let answer = boxed.list_stored(&mut alone);
        if room < count {
            assert_eq!(answer, Err(ListRefusal::NoRoom { needed: count }));
            assert_eq!(alone, painted::<u32>(room));
        } else {
            assert_eq!(answer, Ok(boxed.count_stored()));
            assert_eq!((Ok(alone[..count].to_vec()), &alone[count..]), (listed(&flat, room), &painted(room)[count..]));
        }
    }
}
