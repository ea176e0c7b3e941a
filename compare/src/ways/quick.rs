//! A sketch of the library's quick look at a degenerate piece (crates/corner_sides): four of its corners are seen from two others, and where their shadows
//! along an axis lie strictly on one side of one of them, there are no weights. Nothing here is judged by it; it is there to be done wrong on purpose.

use crate::numbers::equations::Point;
use crate::scene::pieces::Piece;

#[derive(Clone, Copy, Debug, PartialEq, Eq)]
pub enum Look {
    /// As the library does it.
    Library,
    /// A corner that lies along another counts as on a side of it.
    ZeroOnASide,
    /// The last of the four is not asked, the one before it twice.
    CornerNotAsked,
    /// Corners of the second simplex are seen as those of the first are.
    SeenForwards,
}

type Shadow = [i128; 2];

/// Whether it says that the piece has no weights.
pub fn parted(piece: &Piece, look: Look) -> bool {
    let points: Vec<&Point> = piece.first.iter().chain(&piece.second).collect();
    let first = piece.first.len();
    let level = |axis: &usize| points.iter().all(|point| point[*axis] == points[0][*axis]);
    let axis = [2, 1, 0].into_iter().find(level).unwrap_or(2);
    let from = |start: usize, end: usize| {
        let others: Vec<usize> = (0..6).filter(|&i| i != start && i != end).collect();
        let seen = |i: usize| {
            let base = points[if points[i][3] == 1 { end } else { start }];
            let forwards = if i < first || look == Look::SeenForwards { 1 } else { -1 };
            [(axis + 1) % 3, (axis + 2) % 3].map(|k| forwards * (points[i][k] - base[k]) as i128)
        };
        let last = if look == Look::CornerNotAsked { others[2] } else { others[3] };
        on_one_side(&[others[0], others[1], others[2], last].map(seen), look)
    };
    from(0, first - 1) || from(first, 5)
}

/// From one of the four the three others are all to the left, or all to the right.
fn on_one_side(shadows: &[Shadow; 4], look: Look) -> bool {
    let to_the_left = |a: Shadow, b: Shadow| a[0] * b[1] - a[1] * b[0];
    [1, -1].into_iter().any(|side| {
        (0..4).any(|i| {
            (0..4).filter(|&j| j != i).all(|j| {
                let where_to = side * to_the_left(shadows[i], shadows[j]);
                where_to > 0 || where_to == 0 && look == Look::ZeroOnASide
            })
        })
    })
}
