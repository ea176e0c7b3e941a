//! A face cut into triangles.

/// Triangles as they stand; a larger face is cut from its corner with the lowest number to all others. So a quad is cut along that
/// corner's diagonal, and the cut is the same wherever the face begins to be written. A face that is not convex may be cut outside itself.
pub fn triangles(corners: &mut [u32]) -> impl Iterator<Item = [u32; 3]> + '_ {
    if corners.len() > 3 {
        let lowest = (0..corners.len()).min_by_key(|&i| corners[i]).unwrap_or(0);
        corners.rotate_left(lowest);
    }
    let first = corners[0];
    corners[1..].windows(2).map(move |two| [first, two[0], two[1]])
}

/// The same of a face of three corners, or of four.
#[inline]
pub fn plain([a, b, c, d]: [u32; 4], count: usize) -> impl Iterator<Item = [u32; 3]> {
    let lowest = a.min(b).min(c).min(d);
    let [one, other] = match lowest {
        _ if count == 3 => [[a, b, c], [0; 3]],
        _ if lowest == a => [[a, b, c], [a, c, d]],
        _ if lowest == b => [[b, c, d], [b, d, a]],
        _ if lowest == c => [[c, d, a], [c, a, b]],
        _ => [[d, a, b], [d, b, c]],
    };
    [one, other].into_iter().take(count - 2)
}
