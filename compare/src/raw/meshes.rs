//! The calls over meshes of any size: questions, the sorts of question, and answers of wrong programs.

use super::change::{damage, Damage};
use super::question::*;
use crate::mesh::answering::Answering;
use crate::mesh::lent::{self as mesh, Ask, RowPairs};
use crate::mesh::making;
use crate::mesh::wrong::{Wrong, ALL};
use crate::scene::refusal::*;
use crate::scene::VERTEX_LIMIT;

fn questions(asks: Vec<Ask>) -> Vec<Question> {
    let asked =
        |Ask { call, asked, lent }: Ask| Question { call: Call::Mesh(call), asked, lent: Lent { mesh: lent, ..Lent::default() } };
    asks.into_iter().map(asked).collect()
}

pub fn fixed() -> Vec<Question> {
    questions(making::fixed())
}

pub fn seeded(seed: u64) -> Vec<Question> {
    questions(making::seeded(seed))
}

// ---- sorts

/// What a call over rows may be refused with, in the order of the checks.
const CHECKS: [u64; 9] = [
    LENT_TOO_SHORT, BAD_SHAPE, OUT_OF_RANGE, NO_SUCH_VERTEX, BROKEN_SEAM, VERTEX_TWICE, WRONG_ORDER, NOT_THERE, BEYOND_OLD_RANGE,
];
const ANSWERED: [&str; 5] =
    ["answered", "answered with seams", "more vertices than a scene has", "vertex numbers beyond 16 bits", "an order lent"];
const SHORT: [&str; 3] = ["12, table", "12, places", "12, boxes"];
const ROOMS: [&str; 4] = ["just the room", "room left over", "one too few", "no room at all"];
const HELD: [&str; 2] = ["entries held in the places", "more entries than the places hold"];
const EDGES: [&str; 4] = ["all is well", "a bare side", "ends that do not rise", "12, places"];

fn refusals(call: mesh::Call) -> Vec<u64> {
    match call {
        mesh::Call::CheckMesh => [&CHECKS[..6]].concat(),
        mesh::Call::CheckEdges => [LENT_TOO_SHORT, BAD_SHAPE, WRONG_ORDER].to_vec(),
        _ if call.finds_contacts() => CHECKS.to_vec(),
        _ => CHECKS[..8].to_vec(),
    }
}

pub fn sorts() -> Vec<String> {
    let mut out = Vec::new();
    for call in mesh::calls() {
        let name = call.name();
        let mut add = |sort: &str| out.push(format!("{name}: {sort}"));
        // a mesh alone is harmed by the calls over its rows
        let numbers = if call == mesh::Call::CheckMesh { vec![LENT_TOO_SHORT] } else { refusals(call) };
        numbers.iter().for_each(|number| add(&format!("refused {number}")));
        match call {
            mesh::Call::CheckMesh => ANSWERED[..4].iter().for_each(|sort| add(sort)),
            mesh::Call::CheckEdges => EDGES.iter().for_each(|sort| add(sort)),
            _ => ANSWERED.iter().chain(&SHORT).for_each(|sort| add(sort)),
        }
        if call.takes_rows() {
            ["all rows", "no row", "rows of vertices and of edges"].iter().for_each(|sort| add(sort));
            (1..numbers.len()).for_each(|later| add(&format!("{} before {}", LENT_TOO_SHORT, numbers[later])));
            [BAD_SHAPE, OUT_OF_RANGE].iter().for_each(|number| add(&format!("{number} before {WRONG_ORDER}")));
            add(&format!("{WRONG_ORDER} before {NOT_THERE}"));
        }
        if call.lists() {
            ROOMS.iter().for_each(|sort| add(sort));
        }
        if holds(call) {
            HELD.iter().for_each(|sort| add(sort));
        }
        if call.pairs() == RowPairs::Near {
            add("a far pair left out");
        }
    }
    out
}

/// Whether a call holds its entries in the places until it is known that all of them have room.
fn holds(call: mesh::Call) -> bool {
    call.lists() && !call.keeps() && !matches!(call, mesh::Call::Pierced(_))
}

/// The numbers that would be given if nothing came before: each fault is looked at on its own, by an answer to the question without the others.
fn faults(ask: &Ask) -> Vec<u64> {
    let lent = &ask.lent;
    let mut out = Vec::new();
    let mended = |change: &dyn Fn(&mut Ask)| {
        let mut other = ask.clone();
        change(&mut other);
        other.lent.table = vec![0; other.lent.table_room()];
        other.lent.places = vec![0; other.lent.place_room()];
        other.lent.boxes = vec![0; other.lent.box_room()];
        Answering::default().answer(&other, Wrong::Nothing).0
    };
    let counts = mesh::Call::Count(RowPairs::Listed);
    let short =
        lent.table.len() < lent.table_room() || lent.places.len() < lent.place_room() || lent.boxes.len() < lent.box_room();
    out.extend(short.then_some(LENT_TOO_SHORT));
    let of_mesh = mended(&|other| other.call = mesh::Call::CheckMesh);
    out.extend((of_mesh > 0).then_some(of_mesh));
    let rows = [lent.positions.len() / 6 + lent.edges.len() / 2, lent.edges.len() / 2]
        [matches!(ask.call, mesh::Call::Pierced(_)) as usize];
    let empty = |other: &mut Ask| {
        let parts = other.lent.clone();
        // no part but those that the orders speak of: edges and triangles over three vertices
        other.lent = mesh::Lent {
            positions: vec![0; 18],
            edges: (0..parts.edges.len() / 2).flat_map(|_| [0, 1]).collect(),
            triangles: (0..parts.triangles.len() / 3).flat_map(|_| [0, 1, 2]).collect(),
            edge_order: parts.edge_order,
            triangle_order: parts.triangle_order,
            told: vec![0],
            ..mesh::Lent::default()
        };
        (other.call, other.asked) = (counts, [0; 3]);
    };
    if !(lent.edge_order.is_empty() && lent.triangle_order.is_empty()) {
        out.extend((mended(&empty) == WRONG_ORDER).then_some(WRONG_ORDER));
    }
    let [first, end, _] = ask.asked;
    out.extend((end < first || end > rows as u64).then_some(NOT_THERE));
    let beyond = lent.positions.iter().any(|n| n.unsigned_abs() > 262_143);
    out.extend((ask.call.finds_contacts() && beyond).then_some(BEYOND_OLD_RANGE));
    out
}

pub fn sorts_of(question: &Question, answer: &Answer) -> Vec<String> {
    let Call::Mesh(call) = question.call else { return vec![] };
    let (lent, given) = (&question.lent.mesh, answer.number);
    let mut out = Vec::new();
    let mut add = |holds: bool, sort: &str| out.extend(holds.then(|| format!("{}: {sort}", call.name())));
    let wanted = refusals(call).contains(&given) && (call != mesh::Call::CheckMesh || given == LENT_TOO_SHORT);
    add(wanted, &format!("refused {given}"));
    let told = |place: usize| {
        let bytes = answer.buffers[BUFFERS.len() - 1].get(MARGIN + 8 * place..MARGIN + 8 * place + 8);
        bytes.map_or(0, |bytes| u64::from_le_bytes(bytes.try_into().unwrap()))
    };
    if call == mesh::Call::CheckEdges {
        add(given == 0, ["all is well", "a bare side", "ends that do not rise"][told(0).min(2) as usize]);
        add(given == LENT_TOO_SHORT && lent.table.len() >= lent.table_room(), "12, places");
        return out;
    }
    let numbers = lent.edges.iter().chain(&lent.triangles).chain(&lent.seams);
    let [first, end, _] = question.asked;
    if given == 0 {
        add(true, "answered");
        add(!lent.seams.is_empty(), "answered with seams");
        add(lent.positions.len() > 6 * VERTEX_LIMIT, "more vertices than a scene has");
        add(numbers.clone().any(|&vertex| vertex > 65_535), "vertex numbers beyond 16 bits");
    }
    if !call.takes_rows() {
        return out;
    }
    let ask = Ask { call, asked: question.asked, lent: lent.clone() };
    let vertices = lent.positions.len() / 6;
    let rows = if matches!(call, mesh::Call::Pierced(_)) { lent.edges.len() / 2 } else { vertices + lent.edges.len() / 2 };
    if given == 0 {
        add(!lent.edge_order.is_empty() || !lent.triangle_order.is_empty(), "an order lent");
        add(first == 0 && end == rows as u64 && rows > 0, "all rows");
        add(first == end, "no row");
        // of pierced edges all rows are edges'
        add(
            (first as usize) < vertices && end as usize > vertices || rows < vertices && end > first,
            "rows of vertices and of edges",
        );
    }
    if given == LENT_TOO_SHORT {
        add(lent.table.len() < lent.table_room(), "12, table");
        add(lent.places.len() < lent.place_room(), "12, places");
        add(lent.boxes.len() < lent.box_room(), "12, boxes");
    }
    if given > 0 && given != NO_ROOM && lent.positions.len() <= 6 * VERTEX_LIMIT {
        for other in faults(&ask).into_iter().filter(|&other| other != given) {
            add(
                given == LENT_TOO_SHORT || other == WRONG_ORDER && [BAD_SHAPE, OUT_OF_RANGE].contains(&given),
                &format!("{given} before {other}"),
            );
            add(given == WRONG_ORDER && other == NOT_THERE, &format!("{given} before {other}"));
        }
    }
    if call.lists() && (given == 0 || given == NO_ROOM) && told(0) > 0 {
        let (count, mut room) = (told(0) as usize, lent.list.len());
        if call.settles() {
            room = room.min(lent.words.len());
        }
        if call.finds_contacts() {
            room = room.min(lent.contacts.len() / ROW);
        }
        add(room == count, "just the room");
        add(room > count, "room left over");
        add(room + 1 == count, "one too few");
        add(room == 0, "no room at all");
        let held = 2 * (lent.edge_order.len() + lent.triangle_order.len() + count) <= lent.places.len();
        add(holds(call) && given == 0, HELD[!held as usize]);
    }
    if call.pairs() == RowPairs::Near && given == 0 && lent.positions.len() <= 6 * VERTEX_LIMIT {
        let all = Ask { call: mesh::Call::Count(RowPairs::Listed), ..ask };
        let (_, left) = Answering::default().answer(&all, Wrong::Nothing);
        add(left.told.first().is_some_and(|&listed| listed > told(if call.keeps() { 1 } else { 0 })), "a far pair left out");
    }
    out
}

// ---- wrong programs

/// Those that show in the calls that the library has.
const SHOWN: [Wrong; 27] = [
    Wrong::FarWhereEqual,
    Wrong::FarAtTheStart,
    Wrong::NearIsListed,
    Wrong::LastRowTaken,
    Wrong::FirstRowLeft,
    Wrong::EdgesBothWays,
    Wrong::VerticesOnly,
    Wrong::KindAt62,
    Wrong::PlacesCutTo16,
    Wrong::SeamsUnseen,
    Wrong::WrittenUntilFull,
    Wrong::NeededNotTold,
    Wrong::RestCleared,
    Wrong::TwelveBehindTheMesh,
    Wrong::OneOfAScene,
    Wrong::OrdersBehindRows,
    Wrong::OrderRepeats,
    Wrong::RowsCut,
    Wrong::SidesOneWay,
    Wrong::TwiceUnseen,
    Wrong::WantedInARow,
    Wrong::WantedAll,
    Wrong::TotalsOfTheKept,
    Wrong::ListedIsKept,
    Wrong::RoomForAll,
    Wrong::KeptInPlace,
    Wrong::RowsInPlace,
];

pub fn damages() -> Vec<Damage> {
    let change = |wrong: Wrong| {
        let says = ALL.iter().find(|(other, _)| *other == wrong).expect("it is one of them").1;
        damage(format!("a mesh: {says}"), move |question, answer| {
            if let Call::Mesh(call) = question.call {
                // any other call has the right answer, and to find that for each of thousands is dear
                if wrong == Wrong::RowsInPlace && !(call.keeps() && call.finds_contacts()) {
                    return;
                }
                let ask = Ask { call, asked: question.asked, lent: question.lent.mesh.clone() };
                let (number, mesh) = Answering::default().answer(&ask, wrong);
                *answer = Answer { number, buffers: Lent { mesh, ..question.lent.clone() }.bytes() };
            }
        })
    };
    SHOWN.map(change).into()
}
