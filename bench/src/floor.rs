//! A floor that no exact way is known to go under: as many 64-bit multiplications as the determinants that a pair's
//! pieces share take at the least, each independent of the others, and nothing else.

use std::hint::black_box;

pub const POINT_TRIANGLE: usize = 54;
pub const EDGE_EDGE: usize = 60;

/// Six products of each six numbers, each times the next. Every product is handed to the black box, so that the
/// compiler neither leaves one out nor takes two at once, which is slower.
pub fn multiplications(numbers: &[i64]) {
    for six in numbers.chunks_exact(6) {
        for place in 0..6 {
            black_box(six[place].wrapping_mul(six[(place + 1) % 6]));
        }
    }
}
