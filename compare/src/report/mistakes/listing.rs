//! The wrong pairs listed, or the right ones printed wrongly.

use super::steps::{fitting, print_right, with_words, Mistake, Steps};
use crate::list::listing::{boxes_meet, listed as right};
use crate::report::written;
use crate::scene::refusal::{Refusal, NO_ROOM};
use crate::scene::{all_pairs, Kind, Pair, Scene};
use crate::verdicts::settled::Settled;

pub fn mistakes() -> Vec<Mistake> {
    vec![
        listed("equal-ends", "boxes culled when their ends are equal", |scene| {
            right(scene).into_iter().filter(|&pair| overlap(scene, pair)).collect()
        }),
        listed("end-boxes", "boxes of the end positions alone", |scene| {
            right(scene).into_iter().filter(|&pair| ends_meet(scene, pair)).collect()
        }),
        listed("shared-listed", "pairs that share a vertex listed", |scene| {
            all_pairs(scene).into_iter().filter(|&pair| boxes_meet(scene, pair)).collect()
        }),
        listed("repeated-once", "a repeated edge or triangle listed once", |scene| {
            right(scene).into_iter().filter(|&pair| first_of_its_like(scene, pair)).collect()
        }),
        listed("by-triangle", "pt pairs in the order of the triangles", |scene| {
            let mut pairs = right(scene);
            pairs.sort_by_key(|pair| (pair.kind == Kind::EdgeEdge, if pair.kind == Kind::EdgeEdge { 0 } else { pair.second }));
            pairs
        }),
        listed("ee-first", "ee pairs before pt pairs", |scene| {
            let mut pairs = right(scene);
            pairs.sort_by_key(|pair| pair.kind == Kind::PointTriangle);
            pairs
        }),
        printed("drop-oldest", "a full list that drops its oldest entry and goes on", |listed, room, judge| {
            written(&Ok(with_words(&listed[listed.len().saturating_sub(room)..], judge)))
        }),
        printed("drop-newest", "a full list that takes no further entry, and no refusal", |listed, room, judge| {
            written(&Ok(with_words(&listed[..listed.len().min(room)], judge)))
        }),
        printed("filled-first", "a list filled up to its room and the refusal given after", |listed, room, judge| {
            let fits = written(&Ok(with_words(&listed[..listed.len().min(room)], judge)));
            match fitting(listed, room) {
                Ok(_) => fits,
                // the pairs' lines are out before the refusal is known
                Err(refusal) => fits.split_inclusive('\n').take(room).collect::<String>() + &written(&Err(refusal)),
            }
        }),
        printed("room-given", "7 with the room in place of the count needed", |listed, room, judge| {
            refused_with(room as u64, listed, room, judge)
        }),
        printed("given-up", "7 with the count at which the list was given up", |listed, room, judge| {
            refused_with(room as u64 + 1, listed, room, judge)
        }),
        printed("old-room", "the room of before, 2,048 pairs", |listed, room, judge| print_right(listed, room.min(2_048), judge)),
        printed("room-one-less", "a list that just fits refused", |listed, room, judge| print_right(listed, room - 1, judge)),
        printed("first-copied", "the first pair's word given for every pair", |listed, room, judge| {
            let first = listed.first().map(|&pair| judge(pair));
            print_right(listed, room, &|_| first.unwrap())
        }),
        printed("listed-as-hits", "every listed pair counted as a hit in the total", |listed, room, judge| {
            retotalled(listed, room, judge, |[all, _, misses, touch, apart]| [all.clone(), all, misses, touch, apart])
        }),
        printed("totals-exchanged", "misses and touch exchanged in the total", |listed, room, judge| {
            retotalled(listed, room, judge, |[all, hits, misses, touch, apart]| [all, hits, touch, misses, apart])
        }),
        printed("apart-before-touch", "touch and apart exchanged in the total", |listed, room, judge| {
            retotalled(listed, room, judge, |[all, hits, misses, touch, apart]| [all, hits, misses, apart, touch])
        }),
        printed("no-apart-total", "a total without its last field, touch and apart in one", |listed, room, judge| {
            one_total(&print_right(listed, room, judge))
        }),
        printed("three-words", "the report of before: degenerate, and one total for it", |listed, room, judge| {
            let report = print_right(listed, room, judge);
            one_total(&report.replace("\ttouch\n", "\tdegenerate\n").replace("\tapart\n", "\tdegenerate\n"))
        }),
    ]
}

fn listed(key: &str, says: &str, list: fn(&Scene) -> Vec<Pair>) -> Mistake {
    Mistake::new(key, says, Steps { list: Some(Box::new(list)), ..Steps::default() })
}

type Print = fn(&[Pair], usize, &dyn Fn(Pair) -> Settled) -> String;

fn printed(key: &str, says: &str, print: Print) -> Mistake {
    Mistake::new(key, says, Steps { print: Some(Box::new(print)), ..Steps::default() })
}

/// Whether the boxes have more than a border in common.
fn overlap(scene: &Scene, pair: Pair) -> bool {
    let (first, second) = spans(scene, pair, [0, 3]);
    (0..3).all(|axis| first[axis].0 < second[axis].1 && second[axis].0 < first[axis].1)
}

fn ends_meet(scene: &Scene, pair: Pair) -> bool {
    let (first, second) = spans(scene, pair, [3, 3]);
    (0..3).all(|axis| first[axis].0 <= second[axis].1 && second[axis].0 <= first[axis].1)
}

type Spans = [(i64, i64); 3];

/// The reach on each axis of each part's positions at these offsets.
fn spans(scene: &Scene, pair: Pair, offsets: [usize; 2]) -> (Spans, Spans) {
    let of = |part: &[usize]| {
        [0, 1, 2].map(|axis| {
            let values = part.iter().flat_map(|&v| offsets.map(|offset| scene.vertices[v][axis + offset]));
            values.fold((i64::MAX, i64::MIN), |(low, high), value| (low.min(value), high.max(value)))
        })
    };
    let (first, second) = pair.parts(scene);
    (of(first), of(second))
}

fn first_of_its_like(scene: &Scene, pair: Pair) -> bool {
    let sorted = |part: &[usize]| {
        let mut part = part.to_vec();
        part.sort();
        part
    };
    let first_triangle = |place: usize| !scene.triangles[..place].iter().any(|t| sorted(t) == sorted(&scene.triangles[place]));
    let first_edge = |place: usize| !scene.edges[..place].iter().any(|e| sorted(e) == sorted(&scene.edges[place]));
    match pair.kind {
        Kind::PointTriangle => first_triangle(pair.second),
        Kind::EdgeEdge => first_edge(pair.first) && first_edge(pair.second),
    }
}

fn refused_with(third: u64, listed: &[Pair], room: usize, judge: &dyn Fn(Pair) -> Settled) -> String {
    let fits = fitting(listed, room).map_err(|_| Refusal::new(NO_ROOM, third));
    written(&fits.map(|listed| with_words(listed, judge)))
}

/// The right report with its total rewritten.
fn retotalled(listed: &[Pair], room: usize, judge: &dyn Fn(Pair) -> Settled, rewrite: fn([String; 5]) -> [String; 5]) -> String {
    let report = print_right(listed, room, judge);
    let Some((lines, total)) = report.split_once("total\t") else { return report };
    let counts: Vec<String> = total.trim_end().split('\t').map(str::to_string).collect();
    format!("{lines}total\t{}\n", rewrite(counts.try_into().unwrap()).join("\t"))
}

/// A report whose last total is added to the one before it.
fn one_total(report: &str) -> String {
    let Some((before, apart)) = report.trim_end().rsplit_once('\t').filter(|_| report.contains("total\t")) else {
        return report.to_string();
    };
    let (before, touch) = before.rsplit_once('\t').expect("a total has five fields");
    let [touch, apart]: [u64; 2] = [touch, apart].map(|count| count.parse().expect("a count"));
    format!("{before}\t{}\n", touch + apart)
}
