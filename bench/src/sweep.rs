//! A sweep along one axis in plain safe Rust: what one would write in the place of the library's runs. Boxes are sorted by their low x, those
//! that overlap in x are tested on the other axes, and what is found is sorted into the list's order.

use crate::plain::{meet, Box, Boxes};
use crate::slices::{entry, Slices};

/// The places of boxes by their low x.
fn by_low(boxes: &[Box]) -> Vec<u16> {
    let mut places: Vec<u16> = (0..boxes.len() as u16).collect();
    places.sort_unstable_by_key(|&place| boxes[place as usize][0]);
    places
}

/// From a place in the order on, those that begin no later than x.
fn up_to<'a>(order: &'a [u16], boxes: &'a [Box], x: i32) -> impl Iterator<Item = usize> + 'a {
    order.iter().map(|&place| place as usize).take_while(move |&place| boxes[place][0] <= x)
}

fn points(slices: &Slices, boxes: &Boxes, mut take: impl FnMut(usize, usize)) {
    let (vertices, triangles) = (by_low(&boxes.vertices), by_low(&boxes.triangles));
    let mut try_pair = |vertex: usize, triangle: usize| {
        if meet(&boxes.vertices[vertex], &boxes.triangles[triangle])
            && !slices.corners_stand(triangle).contains(&slices.stands_for(vertex))
        {
            take(vertex, triangle);
        }
    };
    let (mut v, mut t) = (0, 0);
    while v < vertices.len() && t < triangles.len() {
        let (vertex, triangle) = (vertices[v] as usize, triangles[t] as usize);
        if boxes.vertices[vertex][0] <= boxes.triangles[triangle][0] {
            up_to(&triangles[t..], &boxes.triangles, boxes.vertices[vertex][3]).for_each(|triangle| try_pair(vertex, triangle));
            v += 1;
        } else {
            up_to(&vertices[v..], &boxes.vertices, boxes.triangles[triangle][3]).for_each(|vertex| try_pair(vertex, triangle));
            t += 1;
        }
    }
}

fn edges(slices: &Slices, boxes: &Boxes, mut take: impl FnMut(usize, usize)) {
    let order = by_low(&boxes.edges);
    for (place, &one) in order.iter().enumerate() {
        let one = one as usize;
        let [a, b] = slices.ends_stand(one);
        for other in up_to(&order[place + 1..], &boxes.edges, boxes.edges[one][3]) {
            if meet(&boxes.edges[one], &boxes.edges[other]) {
                let [c, d] = slices.ends_stand(other);
                if a != c && a != d && b != c && b != d {
                    take(one.min(other), one.max(other));
                }
            }
        }
    }
}

/// As `plain::list`. An entry's number tells its place, so that the numbers only need sorting.
pub fn list(slices: &Slices, room: &mut [u32]) -> usize {
    let boxes = Boxes::of(slices);
    let mut found = Vec::new();
    points(slices, &boxes, |vertex, triangle| found.push(entry(0, vertex, triangle)));
    edges(slices, &boxes, |first, second| found.push(entry(1, first, second)));
    found.sort_unstable();
    if found.len() <= room.len() {
        room[..found.len()].copy_from_slice(&found);
    }
    found.len()
}
