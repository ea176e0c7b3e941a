//! Hilbert's curve through the room: what is near on it is near in space.

use makhnodri::COORDINATE_LIMIT;

/// Bits of a coordinate counted from the room's corner.
const BITS: u32 = 20;

/// How far along the curve a place lies. After Skilling (AIP Conference Proceedings 707, 2004): the coordinates are turned in place until
/// their bits, taken in turn, are the distance.
pub fn along(place: [i32; 3]) -> u64 {
    let mut x = place.map(|coordinate| (coordinate + COORDINATE_LIMIT + 1) as u32);
    undo_turns(&mut x);
    gray(&mut x);
    let mut distance = 0;
    for bit in (0..BITS).rev() {
        for coordinate in x {
            distance = distance << 1 | (coordinate >> bit & 1) as u64;
        }
    }
    distance
}

fn undo_turns(x: &mut [u32; 3]) {
    for bit in (1..BITS).rev() {
        let (high, below) = (1 << bit, (1 << bit) - 1);
        for axis in 0..3 {
            if x[axis] & high != 0 {
                x[0] ^= below;
            } else {
                let exchanged = (x[0] ^ x[axis]) & below;
                x[0] ^= exchanged;
                x[axis] ^= exchanged;
            }
        }
    }
}

fn gray(x: &mut [u32; 3]) {
    x[1] ^= x[0];
    x[2] ^= x[1];
    let flipped = (1..BITS).filter(|bit| x[2] >> bit & 1 != 0).fold(0, |flipped, bit| flipped ^ ((1 << bit) - 1));
    x.iter_mut().for_each(|coordinate| *coordinate ^= flipped);
}
