//! The three-word verdict of a piece and of a pair, by document 01. (settled.rs has the four words.)

use crate::numbers::equations::{meet, Solutions};
use crate::scene::pieces::{pieces, Piece};
use crate::scene::{Pair, Scene};

#[derive(Clone, Copy, Debug, PartialEq, Eq)]
pub enum Verdict {
    Hit,
    Miss,
    Degenerate,
}

impl Verdict {
    pub fn word(self) -> &'static str {
        match self {
            Verdict::Hit => "hit",
            Verdict::Miss => "miss",
            Verdict::Degenerate => "degenerate",
        }
    }
}

pub fn of_piece(piece: &Piece) -> Verdict {
    of_solutions(&Solutions::of(&piece.first, &piece.second))
}

pub fn of_solutions(solutions: &Solutions) -> Verdict {
    if solutions.singular() {
        Verdict::Degenerate
    } else if solutions.only().iter().all(|(numerator, _)| numerator.sign() >= 0) {
        Verdict::Hit
    } else {
        Verdict::Miss
    }
}

pub fn joined(verdicts: &[Verdict]) -> Verdict {
    if verdicts.contains(&Verdict::Hit) {
        Verdict::Hit
    } else if verdicts.contains(&Verdict::Degenerate) {
        Verdict::Degenerate
    } else {
        Verdict::Miss
    }
}

pub fn of_pieces(scene: &Scene, pair: Pair) -> Vec<Verdict> {
    pieces(scene, pair).iter().map(of_piece).collect()
}

pub fn of_pair(scene: &Scene, pair: Pair) -> Verdict {
    joined(&of_pieces(scene, pair))
}

/// Document 01's 'it touches in a piece': whole weights exist, singular or not. For a singular piece this is the
/// difference between touch and apart.
pub fn touches(piece: &Piece) -> bool {
    meet(&piece.first, &piece.second)
}
