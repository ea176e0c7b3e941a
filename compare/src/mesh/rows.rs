//! Rows, near pairs, entries, and edges that are through a triangle at one time.

use super::lent::{Lent, RowPairs, Time};
use super::wrong::Wrong;
use crate::list::listing;
use crate::numbers::equations::{meet, Point, Solutions};
use crate::scene::{all_pairs, Kind, Pair, Scene};
use std::collections::HashSet;

/// Start x y z, or end x y z.
fn stands_at(scene: &Scene, time: Time, vertex: usize) -> [i64; 3] {
    let six = scene.vertices[vertex];
    match time {
        Time::Start => [six[0], six[1], six[2]],
        Time::End => [six[3], six[4], six[5]],
    }
}

/// On one axis, the smallest and the largest value of some vertices at one time.
fn extent_at(scene: &Scene, time: Time, vertices: &[usize], axis: usize) -> (i64, i64) {
    let values = vertices.iter().map(|&vertex| stands_at(scene, time, vertex)[axis]);
    (values.clone().min().expect("a part has vertices"), values.max().expect("a part has vertices"))
}

/// On one axis, whether the first part lies strictly below the second at the start and at the end; and whether the second does so.
fn below_on(scene: &Scene, pair: Pair, axis: usize, wrong: Wrong) -> [[bool; 2]; 2] {
    let (first, second) = pair.parts(scene);
    let below = |time: Time, low: &[usize], high: &[usize]| {
        let (top, bottom) = (extent_at(scene, time, low, axis).1, extent_at(scene, time, high, axis).0);
        top < bottom || wrong == Wrong::FarWhereEqual && top == bottom
    };
    [(first, second), (second, first)].map(|(low, high)| [Time::Start, Time::End].map(|time| below(time, low, high)))
}

/// On one axis one part lies strictly below the other at the start and at the end, the same one.
fn far_on(scene: &Scene, pair: Pair, axis: usize, wrong: Wrong) -> bool {
    let [first_below, second_below] = below_on(scene, pair, axis, wrong);
    let at = |time: usize| first_below[time] || second_below[time];
    match wrong {
        Wrong::FarOnEitherSide => at(0) && at(1),
        Wrong::FarAtTheStart => at(0),
        Wrong::FarAtTheEnd => at(1),
        _ => first_below == [true; 2] || second_below == [true; 2],
    }
}

pub fn is_far(scene: &Scene, pair: Pair, wrong: Wrong) -> bool {
    match wrong {
        Wrong::FarOnEveryAxis => (0..3).all(|axis| far_on(scene, pair, axis, wrong)),
        Wrong::FarOnTwoAxes => (0..2).any(|part| {
            let at = |time: usize| (0..3).any(|axis| below_on(scene, pair, axis, wrong)[part][time]);
            at(0) && at(1)
        }),
        _ => (0..3).any(|axis| far_on(scene, pair, axis, wrong)),
    }
}

/// Vertex rows first, then those of the edges.
pub fn row_of(scene: &Scene, pair: Pair) -> usize {
    match pair.kind {
        Kind::PointTriangle => pair.first,
        Kind::EdgeEdge => scene.vertices.len() + pair.first,
    }
}

pub fn row_count(scene: &Scene) -> usize {
    scene.vertices.len() + scene.edges.len()
}

/// The pairs of the rows from `first` up to and without `end`, of all that are listed; they stand in the order of the list.
pub fn rows_in(scene: &Scene, listed: &[Pair], which: RowPairs, [first, end]: [usize; 2], wrong: Wrong) -> Vec<Pair> {
    let (first, end) = match wrong {
        Wrong::LastRowTaken => (first, end + 1),
        Wrong::FirstRowLeft => (first + 1, end),
        _ => (first, end),
    };
    let row = |pair: Pair| match (wrong, pair.kind) {
        (Wrong::RowsOfEdgesFirst, Kind::PointTriangle) => scene.edges.len() + pair.first,
        (Wrong::RowsOfEdgesFirst, Kind::EdgeEdge) => pair.first,
        _ => row_of(scene, pair),
    };
    let near = |pair: Pair| which == RowPairs::Listed || wrong == Wrong::NearIsListed || !is_far(scene, pair, wrong);
    let mut out: Vec<Pair> = listed.iter().copied().filter(|&pair| (first..end).contains(&row(pair)) && near(pair)).collect();
    match wrong {
        Wrong::VerticesOnly => out.retain(|pair| pair.kind == Kind::PointTriangle),
        Wrong::NextEdgeSkipped => out.retain(|pair| pair.kind == Kind::PointTriangle || pair.second != pair.first + 1),
        Wrong::EdgesBothWays => {
            let turned = listed.iter().filter(|pair| pair.kind == Kind::EdgeEdge).map(|pair| Pair::ee(pair.second, pair.first));
            out.extend(turned.filter(|&pair| (first..end).contains(&row(pair)) && near(pair)));
            out.sort_by_key(|&pair| (row_of(scene, pair), pair.second));
        }
        _ => {}
    }
    out
}

/// How many rows are sought together where an order is lent, at most.
const RUN: usize = 8;

/// The rows of edges by a lent order, in runs: what a run meets is found by places of the order, each is taken to its part, and those behind the run's first
/// row are kept in front and sorted.
pub fn in_runs(scene: &Scene, pairs: &mut Vec<Pair>, order: &[u32], wrong: Wrong) {
    let edges: Vec<usize> = pairs.iter().filter(|pair| pair.kind == Kind::EdgeEdge).map(|pair| pair.first).collect();
    let (Some(&first), Some(&last), false) = (edges.first(), edges.last(), order.is_empty()) else { return };
    let there: HashSet<Pair> = pairs.iter().copied().collect();
    pairs.retain(|pair| pair.kind == Kind::PointTriangle);
    for run in (first..=last).step_by(RUN) {
        let rows = run..(run + RUN).min(last + 1);
        let together = scene.edges[rows.clone()].concat();
        let meets = |&place: &usize| listing::joint_boxes_meet(scene, &together, &scene.edges[order[place] as usize]);
        let kept = led((0..order.len()).filter(meets).collect(), order, run + 1, wrong);
        let found = rows.flat_map(|row| kept.iter().map(move |&part| Pair::ee(row, part)));
        pairs.extend(found.filter(|pair| there.contains(pair)));
    }
}

fn led(mut places: Vec<usize>, order: &[u32], from: usize, wrong: Wrong) -> Vec<usize> {
    let mut kept = 0;
    for next in 0..places.len() {
        places[kept] = order[places[if wrong == Wrong::PlaceLedTwice { kept } else { next }]] as usize;
        kept += (from <= places[kept]) as usize;
    }
    let sorted = if wrong == Wrong::DroppedSortedIn { places.len() } else { kept };
    places[..sorted].sort_unstable();
    places.truncate(kept);
    places
}

/// Rows whose entries are held together.
const BLOCK: usize = 64;

/// Entries as they are read that were held in halves, the lower one first, each block from the middle of those before it on. Where the lent places have no
/// room for all, none are held.
pub fn held_over(entries: &[u64], rows: &[usize], lent: &Lent) -> Vec<u64> {
    if 2 * (lent.edge_order.len() + lent.triangle_order.len() + entries.len()) > lent.places.len() {
        return entries.to_vec();
    }
    let mut halves = vec![0u32; 2 * entries.len()];
    let (mut before, mut block) = (0, rows.first().map_or(0, |row| row + BLOCK));
    for (at, (&entry, &row)) in entries.iter().zip(rows).enumerate() {
        if row >= block {
            (before, block) = (at, row + BLOCK);
        }
        let place = before + 2 * (at - before);
        (halves[place], halves[place + 1]) = (entry as u32, (entry >> 32) as u32);
    }
    halves.chunks_exact(2).map(|two| two[0] as u64 + ((two[1] as u64) << 32)).collect()
}

/// All listed pairs; `unsewn` is how a program lists that does not see seams.
pub fn listed(scene: &Scene, wrong: Wrong) -> Vec<Pair> {
    let those =
        |is_listed: fn(&Scene, Pair) -> bool| all_pairs(scene).into_iter().filter(|&pair| is_listed(scene, pair)).collect();
    match wrong {
        Wrong::SeamsUnseen => listing::listed(&scene.unsewn()),
        Wrong::SharingUnseen => those(listing::boxes_meet),
        Wrong::EdgeByOneEnd => those(|scene, pair| {
            let (first, second) = pair.parts(scene);
            let of = |part: &[usize]| if part.len() == 2 { part[..1].to_vec() } else { part.to_vec() };
            listing::joint_boxes_meet(scene, &of(first), &of(second)) && !pair.shares_a_vertex(scene)
        }),
        Wrong::AxisForAnother => {
            those(|scene, pair| listing::boxes_meet_on(scene, pair, [(0, 0), (1, 2), (2, 2)]) && !pair.shares_a_vertex(scene))
        }
        _ => listing::listed(scene),
    }
}

/// An entry in bits: the kind, 31 for the first place and 32 for the second.
pub fn entry(pair: Pair, wrong: Wrong) -> u64 {
    let kind = match pair.kind {
        Kind::PointTriangle => "0",
        Kind::EdgeEdge => "1",
    };
    let [first, second] =
        [pair.first, pair.second].map(|place| if wrong == Wrong::PlacesCutTo16 { place % 65_536 } else { place });
    let bits = match wrong {
        Wrong::KindAt62 => format!("{kind}{first:030b}{second:032b}"),
        Wrong::PlacesOf31Bits => format!("{kind}{first:032b}{second:031b}"),
        _ => format!("{kind}{first:031b}{second:032b}"),
    };
    u64::from_str_radix(&bits, 2).expect("64 bits")
}

/// An edge and a triangle that are looked at: no vertex in common, boxes at that time that meet.
fn may_pierce(scene: &Scene, time: Time, edge: usize, triangle: usize, wrong: Wrong) -> bool {
    let (ends, corners) = (&scene.edges[edge], &scene.triangles[triangle]);
    let share = ends.iter().any(|&end| corners.iter().any(|&corner| scene.stands_for(end) == scene.stands_for(corner)));
    let meets = |axis: usize| {
        let [a, b] = [&ends[..], &corners[..]].map(|part| extent_at(scene, time, part, axis));
        a.0 <= b.1 && b.0 <= a.1
    };
    (!share || wrong == Wrong::PiercedSharing) && (0..3).all(meets)
}

/// Nonnegative weights give the edge and the triangle one place at that time.
pub fn is_pierced(scene: &Scene, time: Time, edge: usize, triangle: usize, wrong: Wrong) -> bool {
    let point = |vertex: &usize| {
        let [x, y, z] = stands_at(scene, time, *vertex);
        Point::from([x, y, z, 0])
    };
    let ends: Vec<Point> = scene.edges[edge].iter().map(point).collect();
    let corners: Vec<Point> = scene.triangles[triangle].iter().map(point).collect();
    if wrong == Wrong::PiercedInside {
        return strictly(&ends, &corners);
    }
    meet(&ends, &corners)
}

/// Through the inside of the triangle, with both ends off its plane: no weight is 0. The five weights have six equations, of which the times' says
/// nothing.
fn strictly(ends: &[Point], corners: &[Point]) -> bool {
    let all = Solutions::of(ends, corners);
    let without = |points: &[Point], leave: usize| -> Vec<Point> {
        points.iter().enumerate().filter(|(place, _)| *place != leave).map(|(_, point)| *point).collect()
    };
    all.any_nonnegative()
        && (0..ends.len()).all(|leave| !meet(&without(ends, leave), corners))
        && (0..corners.len()).all(|leave| !meet(ends, &without(corners, leave)))
}

/// The edges of the rows that are through a triangle at that time, by edge and then by triangle.
pub fn pierced_in(scene: &Scene, time: Time, [first, end]: [usize; 2], wrong: Wrong) -> Vec<[usize; 2]> {
    let other = if time == Time::Start { Time::End } else { Time::Start };
    let times: &[Time] = match wrong {
        Wrong::PiercedSwapped => &[other],
        Wrong::PiercedBySwept => &[time, other],
        _ => &[time],
    };
    let mut out = Vec::new();
    for edge in first..end.min(scene.edges.len()) {
        let through = |&triangle: &usize| {
            let at =
                |&time: &Time| may_pierce(scene, time, edge, triangle, wrong) && is_pierced(scene, time, edge, triangle, wrong);
            times.iter().any(at)
        };
        out.extend((0..scene.triangles.len()).filter(through).map(|triangle| [edge, triangle]));
    }
    out
}
