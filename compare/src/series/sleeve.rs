//! A patch drawn through a sleeve, some dozens of steps: where the trouble begins, and the tangle that follows.
//! scenes/series/sleeve.series is what `drawn` makes; a test holds the file to it.

use super::*;

/// The sleeve is a tube of six sides along x: rings of six vertices, in these places along it.
const RINGS: [i64; 4] = [0, 80, 160, 240];
/// A ring's corners in y and z.
const RING: [[i64; 2]; 6] = [[40, 0], [20, 35], [-20, 35], [-40, 0], [-20, -35], [20, -35]];
/// The patch has three by three vertices.
const SIDE: usize = 3;
const STEPS: i64 = 36;
/// The step in which a corner goes through.
const THROUGH: i64 = 12;

pub fn drawn() -> Series {
    let sleeve: Vec<[i64; 3]> = RINGS.iter().flat_map(|&x| RING.map(|[y, z]| [x, y, z])).collect();
    let at = |time: i64| sleeve.iter().copied().chain(patch(time)).collect::<Vec<[i64; 3]>>();
    let vertices = at(0).iter().zip(at(1)).map(|(a, b)| [a[0], a[1], a[2], b[0], b[1], b[2]]).collect();
    let (mut edges, mut triangles) = (Vec::new(), Vec::new());
    for ring in 0..RINGS.len() {
        for corner in 0..6 {
            let (here, beside) = (6 * ring + corner, 6 * ring + (corner + 1) % 6);
            edges.push([here, beside]);
            if ring + 1 < RINGS.len() {
                edges.extend([[here, here + 6], [here, beside + 6]]);
                triangles.extend([[here, beside, beside + 6], [here, beside + 6, here + 6]]);
            }
        }
    }
    let number = |column: usize, row: usize| sleeve.len() + SIDE * row + column;
    for row in 0..SIDE {
        for column in 0..SIDE {
            let here = number(column, row);
            if column + 1 < SIDE {
                edges.push([here, number(column + 1, row)]);
            }
            if row + 1 < SIDE {
                edges.push([here, number(column, row + 1)]);
            }
            if column + 1 < SIDE && row + 1 < SIDE {
                let (beside, above, across) = (number(column + 1, row), number(column, row + 1), number(column + 1, row + 1));
                edges.push([here, across]);
                triangles.extend([[here, beside, across], [here, across, above]]);
            }
        }
    }
    Series { scene: Scene { vertices, edges, triangles, seams: vec![] }, blocks: (2..=STEPS).map(at).collect() }
}

/// The patch after so many steps: drawn along the sleeve and slowly aside, until a corner is through the wall; from then on it is tugged in and out.
fn patch(time: i64) -> Vec<[i64; 3]> {
    let aside = if time <= THROUGH { 2 * time } else { 2 * THROUGH + [8, -6, 11, -9][(time % 4) as usize] };
    let place = |column: i64, row: i64| {
        let lift = [1, 7, -3, 8, 0, 5][((time + column + 2 * row) % 6) as usize];
        [3 + 6 * time + 11 * column + 2 * row, -15 + 14 * row + aside + column, lift - 6 + 3 * column]
    };
    let side = SIDE as i64;
    (0..side).flat_map(|row| (0..side).map(move |column| (column, row))).map(|(column, row)| place(column, row)).collect()
}
