//! An entry of the list: the number of a pair and the pair of a number, in the wrapper and in the C header.

use makhnodri::{Kind, Pair, EDGE_LIMIT, TRIANGLE_LIMIT, VERTEX_LIMIT};

fn of_all_sizes() -> impl Iterator<Item = Pair> {
    let points = (0..VERTEX_LIMIT).flat_map(|first| (0..TRIANGLE_LIMIT).map(move |second| (Kind::PointTriangle, first, second)));
    let edges = (0..EDGE_LIMIT).flat_map(|first| (0..EDGE_LIMIT).map(move |second| (Kind::EdgeEdge, first, second)));
    points.chain(edges).map(|(kind, first, second)| Pair { kind, first, second })
}

/// Every pair that a scene can have: its number by the document's sum, back to the pair, each number above the one before.
#[test]
fn every_pair_has_a_number_of_its_own() {
    let (mut before, mut pair_before) = (None, None);
    for pair in of_all_sizes() {
        let part = if pair.kind == Kind::EdgeEdge { 2_usize.pow(20) } else { 0 };
        assert_eq!(pair.entry() as usize, part + 2_usize.pow(10) * pair.first + pair.second);
        assert_eq!(Pair::of_entry(pair.entry()), pair);
        assert!(before < Some(pair.entry()) && pair_before < Some(pair), "{pair:?}");
        (before, pair_before) = (Some(pair.entry()), Some(pair));
    }
    assert!(before < Some(1 << 21));
}

#[test]
fn the_printed_scene_has_these() {
    let pair = |kind, first, second| Pair { kind, first, second };
    assert_eq!(pair(Kind::PointTriangle, 3, 0).entry(), 3_072);
    assert_eq!(pair(Kind::EdgeEdge, 0, 1).entry(), 1_048_577);
}

#[test]
#[should_panic(expected = "a place of no scene")]
fn a_place_that_is_too_large_is_no_entry() {
    Pair { kind: Kind::EdgeEdge, first: 0, second: 1_024 }.entry();
}

/// From 2^20 on two edges, also of a number that no pair has: as the library, the header and the Python module say.
#[test]
fn a_number_that_no_pair_has_is_told_as_two_edges() {
    for (number, kind) in
        [((1 << 20) - 1, Kind::PointTriangle), (1 << 20, Kind::EdgeEdge), (1 << 21, Kind::EdgeEdge), (u32::MAX, Kind::EdgeEdge)]
    {
        assert_eq!(Pair::of_entry(number).kind, kind, "{number}");
    }
}
