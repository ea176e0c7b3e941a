//! Degenerate pieces decided wrongly, and words of pieces joined wrongly.

use super::judging::{by_pair, by_piece};
use super::steps::Mistake;
use crate::verdicts::settled::{decided, joined, of_pieces, Settled};
use crate::verdicts::verdict::of_piece;
use crate::ways::quick::{parted, Look};
use crate::ways::search::{touches, Way};

pub fn mistakes() -> Vec<Mistake> {
    vec![
        by_piece("always-touch", "every degenerate piece taken as touch", |piece| decided(of_piece(piece), || true)),
        by_piece("always-apart", "every degenerate piece taken as apart", |piece| decided(of_piece(piece), || false)),
        by_search("strict-turn", "corners left out of the two simplices strictly in turn", Way::StrictTurn),
        by_search("first-simplex", "corners left out of the first simplex only", Way::FirstSimplex),
        by_search("zero-weights", "weights that are all 0 taken as weights", Way::ZeroWeights),
        by_search("one-turn", "one axis in the place of a corner left out, where three must be tried", Way::OneTurn),
        by_look("zero-on-a-side", "a corner that lies along another taken as on a side of it", Look::ZeroOnASide),
        by_look("corner-not-asked", "one corner not asked on which side it lies, another twice", Look::CornerNotAsked),
        by_look("seen-forwards", "corners of the second simplex seen as those of the first", Look::SeenForwards),
        by_pair("touch-needs-all", "a touch only where every degenerate piece touches", |scene, pair| {
            let words = of_pieces(scene, pair);
            let apart = words.contains(&Settled::Apart) && !words.contains(&Settled::Hit);
            if apart {
                Settled::Apart
            } else {
                joined(&words)
            }
        }),
        by_pair("apart-needs-all", "apart only where every piece is apart, else a miss", |scene, pair| {
            let words = of_pieces(scene, pair);
            match joined(&words) {
                Settled::Apart if words.contains(&Settled::Miss) => Settled::Miss,
                right => right,
            }
        }),
    ]
}

/// What the quick look says to have no weights is apart.
fn by_look(key: &str, says: &str, look: Look) -> Mistake {
    by_piece(key, says, move |piece| decided(of_piece(piece), || !parted(piece, look) && touches(piece, Way::Library)))
}

fn by_search(key: &str, says: &str, way: Way) -> Mistake {
    by_piece(key, says, move |piece| decided(of_piece(piece), || touches(piece, way)))
}
