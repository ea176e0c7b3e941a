//! Ways that are wrong in one respect each: the comparisons of the other tests notice every one of them.

use compare::making::generate;
use compare::scene::{Scene as ExactScene, REPORT_ROOM};
use garment::boxes::{of_parts, of_vertices, Swept};
use garment::judging::{contact, settle, Alone, Packed, TOGETHER};
use garment::mesh::Mesh;
use garment::pairs::{Kind, Pair};
use garment::report::Row;
use garment::scene_text;
use garment_check::cells::{cell_of, cells_of, Cells};
use garment_check::cloth::{cloth, KINDS};
use garment_check::exact;
use garment_check::ways::{as_it_is, made, mesh_within};
use makhnodri::{Contact, OwnRefusal, Refusal, Settled, CONTACT_LIMIT};

/// Meshes from seeds, with what the independent program says of each of their pairs.
fn judged() -> Vec<(Mesh, Vec<(Pair, Settled)>)> {
    let mut meshes: Vec<Mesh> = (0..200).filter(|seed| seed % 20 != 19).map(|seed| as_it_is(&generate::scene(seed))).collect();
    meshes.push(made(&cloth(KINDS[1], 300, 1)));
    let with_words = |mesh: Mesh| {
        let scene = exact::scene(&mesh);
        let words = exact::listed(&mesh).into_iter().map(|pair| (pair, exact::settled(&scene, pair))).collect();
        (mesh, words)
    };
    meshes.into_iter().map(with_words).collect()
}

/// How many words another way to make a pair's own scene changes, of each kind.
fn changed(judged: &[(Mesh, Vec<(Pair, Settled)>)], wrong: impl Fn(&Mesh, Pair) -> Alone) -> [usize; 2] {
    let mut counts = [0; 2];
    for (mesh, words) in judged {
        for &(pair, word) in words {
            counts[pair.kind as usize] += (wrong(mesh, pair).settle() != Ok(word)) as usize;
        }
    }
    counts
}

#[test]
fn what_a_pair_alone_must_keep() {
    let judged = judged();
    assert_eq!(changed(&judged, Alone::of), [0, 0]);
    for (mesh, words) in &judged {
        assert!(words.iter().all(|&(pair, word)| settle(mesh, pair) == Ok(word)));
    }
    // vertices numbered from last to first
    let turned = changed(&judged, |mesh, pair| {
        let mut alone = Alone::of(mesh, pair);
        alone.positions = rows_of(alone.positions, [3, 2, 1, 0]);
        alone.places = alone.places.map(|place| 3 - place);
        alone
    });
    assert!(turned[0] > 50 && turned[1] > 50, "{turned:?}");
    // vertices numbered as the faces and edges write them
    let as_written = changed(&judged, |mesh, pair| {
        let sorted = Alone::of(mesh, pair);
        let positions = rows_of(sorted.positions, sorted.places.map(usize::from));
        Alone { positions, places: [0, 1, 2, 3], ..sorted }
    });
    assert!(as_written[0] > 50 && as_written[1] > 50, "{as_written:?}");
    // the higher edge first: pieces AB and BA change places. A pair has the same word then, and its pieces have not
    let pieces = |alone: &Alone| [0, 1, 2, 3].map(|piece| pieces_of(alone, piece));
    let mut exchanged = 0;
    for (mesh, words) in &judged {
        for &(pair, _) in words.iter().filter(|(pair, _)| pair.kind == Kind::EdgeEdge) {
            let alone = Alone::of(mesh, pair);
            let mut wrong = alone.clone();
            wrong.places.rotate_left(2);
            assert_eq!(wrong.settle(), alone.settle());
            exchanged += (pieces(&wrong) != pieces(&alone)) as usize;
        }
    }
    assert!(exchanged > 50, "{exchanged}");
}

/// Pairs side by side in one scene have the words and contacts that each has alone, in their order: of each count up to a full scene, and in an order
/// in which kinds take turns.
#[test]
fn pairs_together_are_pairs_alone() {
    let mesh = mesh_within(CONTACT_LIMIT, &cloth(KINDS[1], 600, 1).objs(), None, false).expect("a mesh");
    let mut pairs = exact::listed(&mesh);
    pairs.sort_by_key(|pair| (pair.first, pair.second));
    let kinds = pairs.windows(2).filter(|two| two[0].kind != two[1].kind).count();
    assert!(pairs.len() > 3 * TOGETHER && kinds > TOGETHER, "{} pairs, {kinds} changes of kind", pairs.len());
    let mut packed = Packed::default();
    for (count, from) in (0..=TOGETHER).zip((0..).step_by(7)) {
        let from = from % (pairs.len() - TOGETHER);
        let some = &pairs[from..from + count];
        let words: Vec<Settled> = some.iter().map(|&pair| settle(&mesh, pair).expect("a word")).collect();
        assert_eq!(packed.settle(&mesh, some).expect("words").collect::<Vec<Settled>>(), words);
        let contacts: Vec<Option<Row>> = some.iter().map(|&pair| row_of(contact(&mesh, pair).expect("a contact"))).collect();
        let given = packed.contact(&mesh, some).expect("contacts");
        let (given, rows): (Vec<Settled>, Vec<Option<Row>>) =
            given.map(|(word, row)| (word, (word == Settled::Hit).then_some(row))).unzip();
        assert_eq!((given, rows), (words, contacts));
    }
}

/// What the library refuses of pairs together is told: 2 of the whole scene.
#[test]
fn a_refusal_of_pairs_together_is_told() {
    let mut mesh = made(&cloth(KINDS[1], 300, 1));
    let pairs = exact::listed(&mesh);
    mesh.positions[pairs[3].first as usize][0] = 524_288;
    let refusal = Packed::default().settle(&mesh, &pairs[..9]).err();
    assert_eq!(refusal, Some(OwnRefusal::Scene(Refusal::Coordinate)));
}

/// How many contacts another way to make a pair's own scene changes, of each kind.
fn contacts_changed(meshes: &[Mesh], wrong: impl Fn(&Mesh, Pair) -> Alone) -> [usize; 2] {
    let mut counts = [0; 2];
    for mesh in meshes {
        let scene = exact::scene(mesh);
        for pair in exact::listed(mesh) {
            if let Some(contact) = exact::contact(&scene, pair) {
                let given = wrong(mesh, pair).contact().expect("it is in range");
                counts[pair.kind as usize] += (row_of(given) != Some(contact.row())) as usize;
            }
        }
    }
    counts
}

/// The numbers of a hit; nothing of any other word.
fn row_of(contact: Contact) -> Option<Row> {
    match contact {
        Contact::PointHit { piece, k, shares: [low, middle, high], .. } => Some([piece as u32, k, low, middle, high]),
        Contact::EdgeHit { piece, k, shares: [first, second], .. } => Some([piece as u32, k, first, second, 0]),
        _ => None,
    }
}

#[test]
fn what_a_contact_must_keep() {
    let near = |scene: &ExactScene| compare::contacts::in_old_range(scene);
    let meshes: Vec<Mesh> = (0..120).map(generate::scene).filter(near).map(|scene| as_it_is(&scene)).collect();
    assert!(meshes.iter().filter(|mesh| mesh.seams() > 0).count() > 20);
    assert_eq!(contacts_changed(&meshes, Alone::of), [0, 0]);
    let turned = contacts_changed(&meshes, |mesh, pair| {
        let mut alone = Alone::of(mesh, pair);
        alone.positions = rows_of(alone.positions, [3, 2, 1, 0]);
        alone.places = alone.places.map(|place| 3 - place);
        alone
    });
    assert!(turned[0] > 50 && turned[1] > 50, "{turned:?}");
    // by own numbers, where the mesh is sewn
    let own = contacts_changed(&meshes, |mesh, pair| Alone::of(&Mesh { stands: Vec::new(), ..mesh.clone() }, pair));
    assert!(own[0] > 5 && own[1] > 5, "{own:?}");
    // the higher edge first: a pair's word does not notice it, its contact does
    let exchanged = contacts_changed(&meshes, |mesh, pair| {
        let mut alone = Alone::of(mesh, pair);
        if pair.kind == Kind::EdgeEdge {
            alone.places.rotate_left(2);
        }
        alone
    });
    assert!(exchanged[0] == 0 && exchanged[1] > 50, "{exchanged:?}");
}

/// 16 goes by the whole mesh: four vertices in range speak for a mesh with a fifth beyond it, and the independent program refuses that mesh.
#[test]
fn sixteen_by_four_vertices_is_noticed() {
    let mut mesh = as_it_is(&generate::scene(0));
    mesh.positions.push([262_144, 0, 0, 0, 0, 0]);
    assert_eq!(exact::contacts(&mesh), "refused\t16\t0\n");
    let alone = exact::listed(&mesh).into_iter().filter(|&pair| Alone::of(&mesh, pair).contact().is_ok()).count();
    assert!(alone > 0);
}

/// Seam lines that are left out, or in another order, give another report or none.
#[test]
fn what_seam_lines_must_keep() {
    let (mut sewn, mut left_out) = (0, 0);
    for mesh in (0..200).map(|seed| as_it_is(&generate::scene(seed))).filter(|mesh| mesh.seams() > 0) {
        let text = scene_text::of_mesh(&mesh);
        let scene = compare::text::read(text.as_bytes()).expect("a scene");
        assert_eq!(scene, exact::scene(&mesh));
        let whole = compare::report::report(text.as_bytes(), REPORT_ROOM);
        let (other, seams) = text.split_at(text.find("\nw\t").expect("a seam line") + 1);
        left_out += (compare::report::report(other.as_bytes(), REPORT_ROOM) != whole) as usize;
        let turned: Vec<&str> = seams.split_inclusive('\n').rev().collect();
        if turned.len() > 1 {
            let report = compare::report::report(format!("{other}{}", turned.concat()).as_bytes(), REPORT_ROOM);
            assert!(report.starts_with("refused\t15\t"), "{report}");
        }
        sewn += 1;
    }
    assert!(sewn > 50 && left_out > sewn / 2, "{left_out} of {sewn}");
}

/// The four vertices in another order.
fn rows_of(positions: [i32; 24], order: [usize; 4]) -> [i32; 24] {
    let rows = order.map(|place| <[i32; 6]>::try_from(&positions[6 * place..6 * place + 6]).expect("a vertex"));
    rows.as_flattened().try_into().expect("four vertices")
}

fn pieces_of(alone: &Alone, piece: usize) -> Settled {
    let scene = makhnodri::Scene::new(&alone.positions, &alone.places, &[]);
    scene.settle_ee_piece(0, 1, piece).expect("a piece of two edges")
}

/// A way to find the boxes among some that meet each of others.
type Way = fn(asked: &Swept, boxes: &[Swept], side: u32) -> Vec<u32>;

fn right(asked: &Swept, boxes: &[Swept], side: u32) -> Vec<u32> {
    let mut found = Vec::new();
    Cells::with_side(boxes, side).meeting(asked, boxes, 0, |part| found.push(part));
    found
}

/// A box whose high end is the first coordinate of a cell is not put into that cell.
fn border_missed(asked: &Swept, boxes: &[Swept], side: u32) -> Vec<u32> {
    let short = |one: &Swept| Swept { low: one.low, high: [0, 1, 2].map(|axis| one.low[axis].max(one.high[axis] - 1)) };
    let cells = Cells::with_side(&boxes.iter().map(short).collect::<Vec<Swept>>(), side);
    let mut found = Vec::new();
    cells.meeting(asked, boxes, 0, |part| found.push(part));
    found
}

/// Taken in every cell that both reach into.
fn twice(asked: &Swept, boxes: &[Swept], side: u32) -> Vec<u32> {
    let (cells, mut found) = (Cells::with_side(boxes, side), Vec::new());
    cells_of(asked, side, |cell| found.extend(cells.within(cell, 0).filter(|&part| asked.meets(&boxes[part as usize]))));
    found
}

/// Taken in the cell of the low corner of the one that is asked for.
fn own_corner(asked: &Swept, boxes: &[Swept], side: u32) -> Vec<u32> {
    let cells = Cells::with_side(boxes, side);
    let cell = cell_of(asked.low, side);
    cells.within(cell, 0).filter(|&part| asked.meets(&boxes[part as usize])).collect()
}

/// Boxes whose ends are equal are taken to miss each other.
fn ends_left_out(asked: &Swept, boxes: &[Swept], side: u32) -> Vec<u32> {
    let inside = |part: u32| {
        (0..3).all(|axis| {
            let other = &boxes[part as usize];
            asked.low[axis] < other.high[axis] && other.low[axis] < asked.high[axis]
        })
    };
    right(asked, boxes, side).into_iter().filter(|&part| inside(part)).collect()
}

/// Whether a way finds each box that meets, once, for all sides of a cell.
fn held(way: Way, meshes: &[Mesh]) -> bool {
    meshes.iter().all(|mesh| {
        let vertices = of_vertices(mesh);
        let triangles = of_parts(&vertices, &mesh.triangles);
        (2..12).step_by(3).all(|side| {
            vertices.iter().all(|asked| {
                let mut found = way(asked, &triangles, side);
                found.sort_unstable();
                let all = (0..triangles.len() as u32).filter(|&triangle| asked.meets(&triangles[triangle as usize]));
                found == all.collect::<Vec<u32>>()
            })
        })
    })
}

#[test]
fn what_the_search_must_keep() {
    // small places: boxes are some cells wide, and no more
    let small = |mesh: &Mesh| mesh.positions.iter().flatten().all(|n| n.abs() < 300);
    let meshes: Vec<Mesh> = (0..200).map(|seed| as_it_is(&generate::scene(seed))).filter(small).collect();
    assert!(meshes.len() > 50, "{}", meshes.len());
    assert!(held(right, &meshes));
    let wrong: [(&str, Way); 4] =
        [("border missed", border_missed), ("found twice", twice), ("own corner", own_corner), ("ends left out", ends_left_out)];
    for (name, way) in wrong {
        assert!(!held(way, &meshes), "{name} is not noticed");
    }
}
