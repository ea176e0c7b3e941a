//! What questions keep within, and how they go beyond.

use crate::numbers::random::Random;

/// Longer lists are made, and their pairs not judged in one call.
pub const LONGEST_JUDGED: usize = 2_500;
/// What stands in the number of box tests before a call: no scene has so many.
pub const NO_TESTS: u64 = u64::MAX - 5;

/// A number that is not below the count, also where a program would look at some of its bits only.
pub fn beyond(random: &mut Random, count: usize) -> u64 {
    let count = count as u64;
    random.pick(&[count + 1, 1 << 16, 1 << 32, 1 << 63, u64::MAX, (1 << 32) + count.saturating_sub(1)]).max(count)
}
