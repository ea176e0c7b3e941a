//! Demand 3's change of a scene: a whole-number 3 by 3 matrix of nonzero determinant, then one shift for all start
//! positions and another for all end positions.

use crate::numbers::random::Random;
use crate::scene::{in_range, Scene, COORDINATE_LIMIT};

#[derive(Clone, Debug)]
pub struct Affine {
    pub matrix: [[i64; 3]; 3],
    pub start_shift: [i64; 3],
    pub end_shift: [i64; 3],
}

pub fn determinant(m: &[[i64; 3]; 3]) -> i64 {
    let minor = |a: usize, b: usize| m[1][a] * m[2][b] - m[1][b] * m[2][a];
    m[0][0] * minor(1, 2) - m[0][1] * minor(0, 2) + m[0][2] * minor(0, 1)
}

impl Affine {
    fn place(&self, point: [i64; 3], shift: [i64; 3]) -> [i64; 3] {
        [0, 1, 2].map(|row| (0..3).map(|i| self.matrix[row][i] * point[i]).sum::<i64>() + shift[row])
    }

    pub fn send(&self, scene: &Scene) -> Scene {
        let mut sent = scene.clone();
        for vertex in &mut sent.vertices {
            let [a, b, c, d, e, f] = *vertex;
            let start = self.place([a, b, c], self.start_shift);
            let end = self.place([d, e, f], self.end_shift);
            *vertex = [start[0], start[1], start[2], end[0], end[1], end[2]];
        }
        sent
    }

    /// One whose image of the scene is mostly in range: the larger the scene, the tamer the matrix.
    pub fn draw(random: &mut Random, scene: &Scene) -> Affine {
        let size = scene.vertices.iter().flatten().map(|n| n.abs()).max().unwrap_or(0).max(1);
        let matrix =
            if COORDINATE_LIMIT / size < 10 { signed_permutation(random) } else { any_matrix(random, COORDINATE_LIMIT / size) };
        let spare = if random.chance(2) { 5 } else { COORDINATE_LIMIT / 2 };
        let mut shift = || [0; 3].map(|_| if random.chance(4) { 0 } else { random.between(-spare, spare) });
        let mut out = Affine { matrix, start_shift: shift(), end_shift: shift() };
        for _ in 0..20 {
            if out.send(scene).vertices.iter().flatten().all(|&n| in_range(n)) {
                break;
            }
            out.start_shift = out.start_shift.map(|n| n / 2);
            out.end_shift = out.end_shift.map(|n| n / 2);
        }
        out
    }
}

fn signed_permutation(random: &mut Random) -> [[i64; 3]; 3] {
    let order = random.pick(&[[0, 1, 2], [0, 2, 1], [1, 0, 2], [1, 2, 0], [2, 0, 1], [2, 1, 0]]);
    order.map(|column| {
        let mut row = [0; 3];
        row[column] = random.pick(&[1, -1]);
        row
    })
}

/// Rows of which none sums, in size, to more than `most`.
fn any_matrix(random: &mut Random, most: i64) -> [[i64; 3]; 3] {
    let reach = (most / 3).min(random.pick(&[1, 3, 30]));
    loop {
        let matrix = [[0; 3]; 3].map(|row| row.map(|_: i64| random.between(-reach, reach)));
        if determinant(&matrix) != 0 {
            return matrix;
        }
    }
}
