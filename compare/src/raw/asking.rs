//! Questions from seeds.

use super::bounds::{beyond, LONGEST_JUDGED, NO_TESTS};
use super::harm::{harm, SCENE_CHECKS};
use super::meshes;
use super::pierced;
use super::question::*;
use super::series;
use super::stored;
use crate::calls::stored::BOX_NUMBERS;
use crate::claims::{self, making};
use crate::contacts::making as contact_scenes;
use crate::list::box_tests;
use crate::list::listing;
use crate::making::cases;
use crate::making::generate;
use crate::numbers::random::Random;
use crate::obj::making as obj_files;
use crate::report::trials;
use crate::scene::affine::Affine;
use crate::scene::backwards;
use crate::scene::*;
use crate::text::crossed;
use crate::text::damage::damaged;
use crate::text::faults::cells;
use crate::text::{self, write};

/// Pairs that are asked about in one scene, and cells of the table of faults in texts that a seed takes.
const MOST_PAIRS: usize = 24;
const CELLS: usize = 4;
/// A scene of full size comes with one seed in so many.
const SELDOM: u64 = 40;

/// The twelve shown cases, and each text at an edge of the rules.
pub fn fixed() -> Vec<Question> {
    let mut random = Random::new(0);
    let mut out = Vec::new();
    for case in cases::shown() {
        out.extend(whole(&mut random, &case.scene));
        out.extend(about(&case.scene, case.pair));
    }
    out.extend(trials::fixed().into_iter().flat_map(|trial| about_text(&mut random, trial.text)));
    out.extend(box_tests::SIZES.into_iter().flat_map(about_runs));
    out.extend(about_long_texts());
    out.extend(stored::fixed());
    out.extend(obj_files::fixed().into_iter().flat_map(|trial| about_files(&mut random, trial)));
    out.extend(series::fixed());
    out.extend(meshes::fixed());
    out
}

/// Strips and heaps of so many triangles, counted and listed: the box tests change where a run begins, and long lists are walked twice.
fn about_runs(triangles: usize) -> Vec<Question> {
    let ask = |scene: Scene| {
        let room = listing::listed(&scene).len();
        let stored = [stored::with_room(Call::CountStored, &scene, 0, 0), stored::with_room(Call::ListStored, &scene, room, 0)];
        [with_room(Call::CountPairs, &scene, 0, 0), with_room(Call::ListPairs, &scene, room, 0)].into_iter().chain(stored)
    };
    let heap = triangles.min(128);
    [box_tests::strip(triangles), box_tests::heap(heap)].into_iter().flat_map(ask).collect()
}

pub fn seeded(seed: u64) -> Vec<Question> {
    let mut random = Random::new(seed ^ 0x5eed);
    let scene = generate::scene(seed);
    let mut out = whole(&mut random, &scene);
    out.extend(pairs(&mut random, &scene));
    let small = if fit_to_harm(&scene) { scene.clone() } else { text::read(cases::PRINTED_SCENE.as_bytes()).unwrap() };
    out.extend(asked_for_wrongly(&mut random, &small));
    out.extend(harmed(&mut random, &small));
    out.extend(texts(&mut random, &scene, seed));
    if seed % SELDOM == 1 {
        let full = generate::sizes(&mut random);
        out.extend(whole(&mut random, &full));
        out.extend(pairs(&mut random, &full));
    }
    out.extend(scenes_for_contacts(seed));
    out.extend(obj_files::seeded(seed).into_iter().flat_map(|trial| about_files(&mut random, trial)));
    out.extend(series::seeded(seed));
    out.extend(meshes::seeded(seed));
    out
}

/// Scenes that are hard to cut: each pair of them, and all in one call; one in the old range and its image under a map.
fn scenes_for_contacts(seed: u64) -> Vec<Question> {
    let mut random = Random::new(seed ^ 0xc0171);
    let inside = contact_scenes::within(&generate::scene(seed));
    let sent = contact_scenes::within(&Affine::draw(&mut random, &inside).send(&inside));
    let mut scenes = (7 * seed..7 * seed + 7).map(contact_scenes::scene).collect::<Vec<Scene>>();
    scenes.extend([inside, sent]);
    // a scene of full size has been asked about as a whole, and takes its time
    scenes.retain(|scene| scene.vertices.len() <= 100);
    let mut out = Vec::new();
    for scene in scenes {
        out.extend(about_contacts(&mut random, &scene));
        let mut pairs: Vec<Pair> = all_pairs(&scene).into_iter().filter(|pair| !pair.shares_a_vertex(&scene)).collect();
        (0..pairs.len().saturating_sub(MOST_PAIRS)).for_each(|_| {
            pairs.swap_remove(random.below(pairs.len()));
        });
        out.extend(pairs.into_iter().flat_map(|pair| contact_of(&scene, pair)));
    }
    out
}

/// The contact of a pair; of two edges in either order.
fn contact_of(scene: &Scene, pair: Pair) -> Vec<Question> {
    let ask = |first: usize, second: usize| {
        let lent = Lent { contacts: marks_of_32(ROW), ..Lent::of_scene(scene) };
        Question { call: Call::Contact(Asked::of(pair.kind, false)), asked: [first as u64, second as u64, 0], lent }
    };
    let mut out = vec![ask(pair.first, pair.second)];
    out.extend((pair.kind == Kind::EdgeEdge).then(|| ask(pair.second, pair.first)));
    out
}

/// All contacts of a scene in one call: rooms that are just enough, each of the three too short by one number, more than enough, none.
fn about_contacts(random: &mut Random, scene: &Scene) -> Vec<Question> {
    let count = listing::listed(scene).len();
    let more = count + 1 + random.below(20);
    let less = count.saturating_sub(1);
    let mut rooms = vec![(0, 0, 0)];
    // a longer list would lend more than the driver holds
    if count <= LONGEST_JUDGED {
        rooms.extend([(count, count, (ROW * count).saturating_sub(1)), (less, count, ROW * count)]);
        rooms.extend([(count, less, ROW * count), (more, more, ROW * less), (less, less, ROW * less)]);
        rooms.extend([(count, count, ROW * count), (more, count, ROW * count + 4), (more, more, ROW * more)]);
    }
    let ask = |(list, words, contacts): (usize, usize, usize)| {
        let rooms =
            Lent { list: marks_of_32(list), words: marks(words), contacts: marks_of_32(contacts), ..Lent::of_scene(scene) };
        Question::new(Call::ContactScene, rooms)
    };
    rooms.into_iter().map(ask).collect()
}

fn fit_to_harm(scene: &Scene) -> bool {
    (4..=40).contains(&scene.vertices.len()) && scene.edges.len() > 1 && !scene.triangles.is_empty()
}

fn scene_calls() -> Vec<Call> {
    calls().into_iter().filter(|call| call.takes_a_scene() && !call.takes_boxes()).collect()
}

/// A call on a scene with room for so many numbers and so many words.
fn with_room(call: Call, scene: &Scene, list: usize, words: usize) -> Question {
    let mut lent = Lent::of_scene(scene);
    if call.lists() {
        lent.list = marks_of_32(list);
    }
    if call == Call::SettleScene {
        lent.words = marks(words);
    }
    if call.tells_tests() {
        lent.counts = vec![NO_TESTS];
    }
    Question::new(call, lent)
}

/// Questions about the scene as a whole: room that is just enough, one too little, none, more than enough; and, without its seams played
/// backwards, room that is just enough again.
fn whole(random: &mut Random, scene: &Scene) -> Vec<Question> {
    let count = listing::listed(scene).len();
    let calls = [Call::CheckScene, Call::CountPairs, Call::TurnScene];
    let mut out = calls.map(|call| with_room(call, scene, 0, 0)).to_vec();
    let more = 1 + random.below(40);
    let mut lists = vec![count, count + 1, count + more, 0];
    lists.extend([1, 2].map(|less| count.saturating_sub(less)));
    out.extend(lists.iter().map(|&list| with_room(Call::ListPairs, scene, list, 0)));
    let fewer = count.saturating_sub(1);
    let mut rooms = vec![(0, 0), (count, 0), (0, count), (count, fewer), (fewer, count), (fewer, fewer)];
    if count <= LONGEST_JUDGED {
        rooms.extend([(count, count), (count + more, count), (count, count + more), (count + more, count + more)]);
    }
    out.extend(rooms.into_iter().map(|(list, words)| with_room(Call::SettleScene, scene, list, words)));
    let unsewn = scene.unsewn();
    let count = listing::listed(&unsewn).len();
    if count <= LONGEST_JUDGED {
        out.push(with_room(Call::SettleScene, &backwards::turned(&unsewn), count, count));
    }
    // numbers of their own, so that the other questions are those that they would be without claims and contacts
    out.extend(about_claims(&mut random.clone(), scene));
    out.extend(about_contacts(&mut random.clone(), scene));
    out.extend(about_own_lists(&mut random.clone(), scene));
    out.extend(about_saving(&mut random.clone(), scene));
    out.extend(stored::about(&mut random.clone(), scene));
    out.extend(pierced::about(&mut random.clone(), scene));
    out
}

/// Entries of pairs that share no vertex, in any order and some twice; two edges either way round.
fn own_entries(random: &mut Random, scene: &Scene) -> Vec<u32> {
    let sound: Vec<Pair> = all_pairs(scene).into_iter().filter(|pair| !pair.shares_a_vertex(scene)).collect();
    let length = if sound.is_empty() { 0 } else { random.below(MOST_PAIRS) };
    let entry = |random: &mut Random| {
        let pair = random.pick(&sound);
        let (first, second) = (pair.first as u32, pair.second as u32);
        match pair.kind {
            Kind::PointTriangle => (first << 10) + second,
            Kind::EdgeEdge if random.below(2) == 0 => (1 << 20) + (first << 10) + second,
            Kind::EdgeEdge => (1 << 20) + (second << 10) + first,
        }
    };
    (0..length).map(|_| entry(random)).collect()
}

/// An entry that is refused: no pair's number, a part that isn't there, a pair that shares a vertex.
fn bad_entry(random: &mut Random, scene: &Scene) -> u32 {
    let [vertices, edges, triangles] = [scene.vertices.len(), scene.edges.len(), scene.triangles.len()].map(|n| n as u32);
    let none = [1 << 21, 1 << 31, u32::MAX, 3 << 20, (1 << 21) + 1].to_vec();
    let mut missing = vec![vertices.min(1_023) << 10, triangles.min(1_023), 1_023, (1 << 20) + 1_023 * 1_025];
    missing.push((1 << 20) + (edges.min(1_023) << 10));
    let sharing = all_pairs(scene).into_iter().find(|pair| pair.shares_a_vertex(scene));
    let shared =
        sharing.map(|pair| ((pair.kind == Kind::EdgeEdge) as u32) << 20 | (pair.first as u32) << 10 | pair.second as u32);
    let sort = random.below(3);
    match (sort, shared) {
        (0, _) => random.pick(&none),
        (1, _) | (_, None) => random.pick(&missing),
        (_, Some(shared)) => shared,
    }
}

/// Lists of one's own: all entries sound, one or two at fault in any place, rooms that are just enough, too short and left over.
fn about_own_lists(random: &mut Random, scene: &Scene) -> Vec<Question> {
    let mut out = Vec::new();
    for faults in [0, 0, 0, 1, 1, 2, 3] {
        let mut list = own_entries(random, scene);
        for _ in 0..faults {
            list.insert(random.below(list.len() + 1), bad_entry(random, scene));
        }
        let count = list.len();
        let words = random.pick(&[count, count, count + 3, count.saturating_sub(1), 0]);
        let rows = random.pick(&[ROW * count, ROW * (count + 2), ROW * count + 4, (ROW * count).saturating_sub(1), 0]);
        let lent = Lent { list, words: marks(words), ..Lent::of_scene(scene) };
        out.push(Question::new(Call::SettleList, lent.clone()));
        out.push(Question::new(Call::ContactList, Lent { contacts: marks_of_32(rows), ..lent }));
    }
    out
}

/// The scene as text: its length, and rooms that are just enough, one byte too short, more than enough, none; what was written is read again.
fn about_saving(random: &mut Random, scene: &Scene) -> Vec<Question> {
    let length = write(scene).len();
    let more = length + 1 + random.below(40);
    let mut out = vec![Question::new(Call::SavedLength, Lent::of_scene(scene))];
    let rooms = [length, length.saturating_sub(1), more, 0];
    out.extend(rooms.map(|room| Question::new(Call::SaveScene, Lent { text: marks(room), ..Lent::of_scene(scene) })));
    out
}

/// Scenes whose text is as long as a text may be, and one byte longer, and much longer; with room for it and without.
fn about_long_texts() -> Vec<Question> {
    let mut out = Vec::new();
    for over in [0, 1, 4_000] {
        let scene = text::as_long_as(TEXT_LIMIT + over);
        out.push(Question::new(Call::SavedLength, Lent::of_scene(&scene)));
        let rooms = [TEXT_LIMIT + over, TEXT_LIMIT + over - 1, TEXT_LIMIT + over + 9, 0];
        out.extend(rooms.map(|room| Question::new(Call::SaveScene, Lent { text: marks(room), ..Lent::of_scene(&scene) })));
    }
    out
}

/// Claims beside the scene: room that is just enough, one too little, none, more than enough; the same with faults.
fn about_claims(random: &mut Random, scene: &Scene) -> Vec<Question> {
    let made = making::claims(random, scene);
    let text: String = made.iter().map(claims::line).collect();
    let ask = |text: &[u8], room: usize| {
        let lent = Lent { text: text.to_vec(), words: marks(room), ..Lent::of_scene(scene) };
        Question::new(Call::CheckClaims, lent)
    };
    let more = made.len() + 1 + random.below(20);
    let mut out: Vec<Question> =
        [made.len(), made.len().saturating_sub(1), 0, more].map(|room| ask(text.as_bytes(), room)).into();
    for _ in 0..3 {
        out.push(ask(&making::damaged(random, &text), random.pick(&[0, more])));
    }
    // one byte more than a text may have
    let line = made.first().map_or("x\n".to_string(), claims::line);
    let mut long = line.repeat(1 + TEXT_LIMIT / line.len()).into_bytes();
    long.resize(TEXT_LIMIT + random.below(2), b'\n');
    out.push(ask(&long, more));
    out
}

/// Everything that can be asked about a pair: in three and in four words, the pair and each piece; two edges in either order.
fn about(scene: &Scene, pair: Pair) -> Vec<Question> {
    let lent = Lent::of_scene(scene);
    let pieces = if pair.kind == Kind::EdgeEdge { 4 } else { 3 };
    let mut orders = vec![[pair.first as u64, pair.second as u64]];
    if pair.kind == Kind::EdgeEdge {
        orders.push([pair.second as u64, pair.first as u64]);
    }
    let mut out = Vec::new();
    for [first, second] in orders {
        let (whole, piece) = (Asked::of(pair.kind, false), Asked::of(pair.kind, true));
        let mut ask = |call: Call, piece: u64| out.push(Question { call, asked: [first, second, piece], lent: lent.clone() });
        [Call::Judge(whole), Call::Settle(whole)].iter().for_each(|&call| ask(call, 0));
        (0..pieces).for_each(|place| [Call::Judge(piece), Call::Settle(piece)].iter().for_each(|&call| ask(call, place)));
    }
    out.extend(contact_of(scene, pair));
    out
}

/// Some pairs, listed or not; those that share a vertex too.
fn pairs(random: &mut Random, scene: &Scene) -> Vec<Question> {
    let mut all = listing::listed(scene);
    let listed = all.len().min(MOST_PAIRS / 2);
    for place in 0..listed {
        let other = random.between(place as i64, all.len() as i64 - 1) as usize;
        all.swap(place, other);
    }
    all.truncate(listed);
    let rest = crate::scene::all_pairs(scene);
    if !rest.is_empty() {
        all.extend((listed..MOST_PAIRS).map(|_| random.pick(&rest)));
    }
    all.into_iter().flat_map(|pair| about(scene, pair)).collect()
}

/// Places and pieces beyond each bound, and pairs that share each vertex.
fn asked_for_wrongly(random: &mut Random, scene: &Scene) -> Vec<Question> {
    let mut out = Vec::new();
    for call in scene_calls() {
        let Some(asked) = call.asked() else { continue };
        let (firsts, seconds, pieces) = match asked.kind() {
            Kind::PointTriangle => (scene.vertices.len(), scene.triangles.len(), 3),
            Kind::EdgeEdge => (scene.edges.len(), scene.edges.len(), 4),
        };
        let mut ask = |first: u64, second: u64, piece: u64| {
            let mut lent = Lent::of_scene(scene);
            lend_a_row(call, &mut lent);
            out.push(Question { call, asked: [first, second, piece], lent });
        };
        let inside = [firsts, seconds, pieces].map(|count| random.below(count) as u64);
        for place in 0..3 {
            let mut just = inside;
            just[place] = [firsts, seconds, pieces][place] as u64;
            let mut far = inside;
            far[place] = beyond(random, [firsts, seconds, pieces][place]);
            [just, far].iter().for_each(|&[first, second, piece]| ask(first, second, piece));
        }
        for (first, second) in sharing(random, scene, asked.kind()) {
            ask(first, second, random.below(pieces) as u64);
            ask(first, second, beyond(random, pieces));
        }
    }
    out
}

/// A pair's contact has one length.
fn lend_a_row(call: Call, lent: &mut Lent) {
    if matches!(call, Call::Contact(_)) {
        lent.contacts = marks_of_32(ROW);
    }
}

/// Pairs that share a vertex: a triangle with each of its corners and what stands for one, an edge with itself and with those that meet it.
fn sharing(random: &mut Random, scene: &Scene, kind: Kind) -> Vec<(u64, u64)> {
    match kind {
        Kind::PointTriangle => {
            let triangle = random.below(scene.triangles.len());
            let shares = |&vertex: &usize| Pair::pt(vertex, triangle).shares_a_vertex(scene);
            (0..scene.vertices.len()).filter(shares).map(|vertex| (vertex as u64, triangle as u64)).collect()
        }
        Kind::EdgeEdge => {
            let edge = random.below(scene.edges.len());
            let meets = |&other: &usize| Pair::ee(edge, other).shares_a_vertex(scene);
            let met = (0..scene.edges.len()).filter(meets).take(6);
            met.flat_map(|other| [(edge as u64, other as u64), (other as u64, edge as u64)]).collect()
        }
    }
}

/// Scenes that are refused: each fault alone, and each two at once; every call, with places that are there, with places that are
/// not, with a shared vertex; with room and without.
fn harmed(random: &mut Random, scene: &Scene) -> Vec<Question> {
    let mut out = Vec::new();
    for (i, &number) in SCENE_CHECKS.iter().enumerate() {
        for &other in &SCENE_CHECKS[i..] {
            let mut lent = Lent::of_scene(scene);
            harm(random, &mut lent, number);
            if other != number {
                harm(random, &mut lent, other);
            }
            for call in scene_calls() {
                out.extend(on_harmed(random, call, &lent));
            }
            out.extend(stored::on_harmed(&mut random.clone(), scene, &lent));
        }
    }
    out
}

fn on_harmed(random: &mut Random, call: Call, harmed: &Lent) -> Vec<Question> {
    let mut lent = harmed.clone();
    if call.lists() {
        lent.list = marks_of_32(random.pick(&[0, 1_000]));
    }
    if call.settles_a_scene() {
        lent.words = marks(random.pick(&[0, 1_000]));
    }
    if call.tells_tests() {
        lent.counts = vec![NO_TESTS];
    }
    if call == Call::ContactScene {
        lent.contacts = marks_of_32(ROW * lent.words.len());
    }
    if call.takes_a_list() {
        let mut own = random.clone();
        lent.list = own.pick(&[&[][..], &[0, 1 << 21], &[u32::MAX]]).to_vec();
        lent.words = marks(own.below(3));
        lent.contacts = marks_of_32(if call == Call::ContactList { ROW * own.below(3) } else { 0 });
    }
    lend_a_row(call, &mut lent);
    if call == Call::SaveScene {
        lent.text = marks(random.clone().pick(&[0, 40_000]));
    }
    if call == Call::CheckClaims {
        let mut own = random.clone();
        lent.text = own.pick(&[b"x\n".repeat(20_000).as_slice(), b"x\n", b""]).to_vec();
        lent.words = marks(own.below(3));
    }
    let Some(asked) = call.asked() else { return vec![Question::new(call, lent)] };
    let shared = match asked.kind() {
        Kind::PointTriangle => [lent.triangles.first().copied().unwrap_or(0) as u64, 0],
        Kind::EdgeEdge => [0, 0],
    };
    let places = [[0, 1, 0], [shared[0], shared[1], 0], [beyond(random, 2_000), 0, 0], [0, 0, 4]];
    places.map(|asked| Question { call, asked, lent: lent.clone() }).to_vec()
}

/// Texts as they are, damaged, and of some cells of the table of faults: read and reported.
fn texts(random: &mut Random, scene: &Scene, seed: u64) -> Vec<Question> {
    let made = write(scene);
    let mut texts = vec![damaged(random, &made), made.into_bytes()];
    let cells = cells();
    for step in 0..CELLS {
        texts.push(crossed::text(random, cells[(seed as usize * CELLS + step) % cells.len()]));
    }
    texts.into_iter().flat_map(|text| about_text(random, text)).collect()
}

/// Read into buffers of just the length, longer ones, and each too short by one, or empty; and reported.
fn about_text(random: &mut Random, text: Vec<u8>) -> Vec<Question> {
    let lengths = text::LENT_LENGTHS;
    let short = random.below(4);
    let mut short_of = lengths.map(|length| length + random.below(9));
    short_of[short] = random.pick(&[lengths[short] - 1, lengths[short] - 1, 0]);
    let longer = lengths.map(|length| length + random.below(100));
    let read = |[positions, edges, triangles, seams]: [usize; 4]| {
        let lent = Lent {
            positions: marks_of_16(positions).into_iter().map(|n| n as i32 * 30_011).collect(),
            edges: marks_of_16(edges),
            triangles: marks_of_16(triangles),
            seams: marks_of_16(seams),
            text: text.clone(),
            counts: vec![u64::MAX - 1, 77, 1 << 40, 5],
            ..Lent::default()
        };
        Question::new(Call::ReadScene, lent)
    };
    let reported = Lent { text: text.clone(), report: marks(65_536), ..Lent::default() };
    let mut out = vec![read(lengths), read(longer), read(short_of), Question::new(Call::WriteReport, reported)];
    out.extend(stored::about_reading(
        &mut random.clone(),
        [read(lengths), read(longer), read(short_of)].map(|question| question.lent),
    ));
    // and of a text that is a scene: what was read is saved as the same bytes
    if let Ok(scene) = text::read(&text) {
        assert_eq!(write(&scene).as_bytes(), text, "there is one text for a scene");
        out.extend(about_saving(&mut random.clone(), &scene));
    }
    out
}

/// Two files, brought into buffers of just the length or longer ones; at times into one that is too short by one number, or empty.
fn about_files(random: &mut Random, trial: obj_files::Trial) -> Vec<Question> {
    let [p, e, t, s] = text::LENT_LENGTHS;
    let lengths = [p, e, t, s, BOX_NUMBERS];
    let ask = |[positions, edges, triangles, seams, boxes]: [usize; 5]| {
        let lent = Lent {
            positions: marks_of_16(positions).into_iter().map(|n| n as i32 * 30_011).collect(),
            edges: marks_of_16(edges),
            triangles: marks_of_16(triangles),
            seams: marks_of_16(seams),
            text: trial.start.clone(),
            ending: trial.end.clone(),
            boxes: marks_of_16(boxes).into_iter().map(|n| n as i32 * -20_011).collect(),
            counts: vec![3, u64::MAX, 1 << 40, 8],
            ..Lent::default()
        };
        Question::new(Call::ImportScene, lent)
    };
    let mut out = vec![ask(if random.chance(2) { lengths } else { lengths.map(|length| length + random.below(40)) })];
    if random.chance(4) {
        let mut short = lengths.map(|length| length + random.below(9));
        let at = random.below(short.len());
        short[at] = random.pick(&[lengths[at] - 1, lengths[at] - 1, 0]);
        out.push(ask(short));
    }
    out
}
