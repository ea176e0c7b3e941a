//! The rooms of the scratch, and the checks of a mesh and of a stretch of its rows, in order.

use super::lent::{Ask, Call, Lent};
use super::wrong::Wrong;
use crate::calls::slices::{self, Slices};
use crate::scene::refusal::*;
use crate::scene::{Scene, FIRST_COORDINATE_LIMIT, VERTEX_LIMIT};

/// At most so many parts of each kind.
pub const PART_LIMIT: usize = 1 << 30;

impl Lent {
    /// Vertices, edges and triangles, rounded down.
    pub fn counts(&self) -> [usize; 3] {
        [self.positions.len() / 6, self.edges.len() / 2, self.triangles.len() / 3]
    }

    /// One number a vertex, and none where there are no seams.
    pub fn table_room(&self) -> usize {
        if self.seams.is_empty() {
            return 0;
        }
        self.counts()[0]
    }

    /// One for each edge and each triangle, and twice as many again for each order that is lent.
    pub fn place_room(&self) -> usize {
        let [_, edges, triangles] = self.counts();
        edges + triangles + 2 * (self.edge_order.len() + self.triangle_order.len())
    }

    /// Six for each part, and for each node of a tree over the edges and of one over the triangles.
    pub fn box_room(&self) -> usize {
        let [vertices, edges, triangles] = self.counts();
        let tree = |parts: usize| parts / 15 + 16;
        6 * (vertices + edges + triangles + tree(edges) + tree(triangles))
    }
}

/// 1, 2, 3, 15, 4 of a mesh.
pub fn mesh(lent: &Lent, wrong: Wrong) -> Result<Scene, u64> {
    let wide = |numbers: &[u32]| numbers.iter().map(|&n| n as u64).collect::<Vec<u64>>();
    let positions: Vec<i64> = lent.positions.iter().map(|&n| n as i64).collect();
    let [edges, triangles, seams] = [&lent.edges, &lent.triangles, &lent.seams].map(|numbers| wide(numbers));
    let most = if wrong == Wrong::OneOfAScene { VERTEX_LIMIT } else { PART_LIMIT };
    let slices = Slices { positions: &positions, edges: &edges, triangles: &triangles, seams: &seams };
    slices::within(slices, [most, PART_LIMIT, PART_LIMIT, PART_LIMIT]).map_err(|refusal| refusal.number)
}

/// 12 of the table alone.
pub fn table_short(lent: &Lent, wrong: Wrong) -> bool {
    let room = if wrong == Wrong::TwelveWithoutSeams { lent.counts()[0] } else { lent.table_room() };
    lent.table.len() < room
}

/// 12 for a stretch of rows.
fn scratch_short(lent: &Lent, wrong: Wrong) -> bool {
    let [vertices, edges, triangles] = lent.counts();
    let places = if wrong == Wrong::TwelveWithoutOrders { edges + triangles } else { lent.place_room() };
    let boxes = if wrong == Wrong::TwelveWithoutTrees { 6 * (vertices + edges + triangles) } else { lent.box_room() };
    table_short(lent, wrong) || lent.places.len() < places || lent.boxes.len() < boxes
}

/// An order of n parts has each number below n once.
pub fn is_no_order(parts: usize, order: &[u32], wrong: Wrong) -> bool {
    let mut times = vec![0; parts];
    let mut beyond = false;
    for &part in order {
        match times.get_mut(part as usize) {
            Some(count) => *count += 1,
            None => beyond = true,
        }
    }
    let (twice, missing) = (times.iter().any(|&count| count > 1), times.contains(&0));
    match wrong {
        Wrong::OrderTooLong => beyond || order.len() == parts && (twice || missing),
        Wrong::OrderRepeats => order.len() != parts || beyond,
        Wrong::OrderBeyond => order.len() != parts || twice,
        _ => order.len() != parts || beyond || twice || missing,
    }
}

/// 18: a lent order that is none. An empty one is not lent.
fn wrong_order(lent: &Lent, wrong: Wrong) -> bool {
    let [_, edges, triangles] = lent.counts();
    let is_wrong =
        |parts: usize, order: &[u32]| (!order.is_empty() || wrong == Wrong::NoOrderRefused) && is_no_order(parts, order, wrong);
    is_wrong(edges, &lent.edge_order) || is_wrong(triangles, &lent.triangle_order)
}

/// 5: the end before the first row, or beyond the rows.
fn rows_gone(ask: &Ask, wrong: Wrong) -> bool {
    let [first, end, _] = ask.asked;
    let [vertices, edges, _] = ask.lent.counts();
    let rows = match ask.call {
        Call::Pierced(_) if wrong != Wrong::PiercedRowsOfAll => edges,
        _ => vertices + edges,
    };
    end < first && wrong != Wrong::RowsEmpty || end > rows as u64 && wrong != Wrong::RowsCut
}

/// 16: a coordinate beyond the old range, whichever rows are asked for.
fn beyond_range(ask: &Ask, wrong: Wrong) -> bool {
    let beyond = |numbers: &[i32]| numbers.iter().any(|&n| (n as i64).abs() > FIRST_COORDINATE_LIMIT);
    let [first, end, _] = ask.asked.map(|row| row as usize);
    match wrong {
        Wrong::RangeUnseen => false,
        Wrong::RangeOfTheRows => {
            let rows = first.min(ask.lent.counts()[0])..end.min(ask.lent.counts()[0]);
            rows.start < rows.end && beyond(&ask.lent.positions[6 * rows.start..6 * rows.end])
        }
        _ => beyond(&ask.lent.positions),
    }
}

#[derive(Clone, Copy, PartialEq, Eq)]
enum Check {
    Short,
    Mesh,
    Order,
    Gone,
    Range,
}

/// The checks in front of 7, and whether 16 comes behind it.
pub fn before_room(ask: &Ask, wrong: Wrong) -> Result<Scene, u64> {
    use Check::*;
    let order = match wrong {
        Wrong::TwelveBehindTheMesh => [Mesh, Short, Order, Gone, Range],
        Wrong::OrdersFirst => [Short, Order, Mesh, Gone, Range],
        Wrong::OrdersBehindRows => [Short, Mesh, Gone, Order, Range],
        Wrong::RowsBehindRange => [Short, Mesh, Order, Range, Gone],
        _ => [Short, Mesh, Order, Gone, Range],
    };
    let scene = mesh(&ask.lent, wrong);
    for check in order {
        let refused = match check {
            Short => scratch_short(&ask.lent, wrong).then_some(LENT_TOO_SHORT),
            Mesh => scene.as_ref().err().copied(),
            Order => wrong_order(&ask.lent, wrong).then_some(WRONG_ORDER),
            Gone => rows_gone(ask, wrong).then_some(NOT_THERE),
            Range if wrong == Wrong::RangeBehindRoom => None,
            Range => out_of_range(ask, wrong),
        };
        if let Some(number) = refused {
            return Err(number);
        }
    }
    scene
}

/// 16, of calls that give contacts.
pub fn out_of_range(ask: &Ask, wrong: Wrong) -> Option<u64> {
    (ask.call.finds_contacts() && beyond_range(ask, wrong)).then_some(BEYOND_OLD_RANGE)
}
