//! The word of a piece and of a pair by document 02, §1: a degenerate piece is decided too.

use crate::numbers::equations::Solutions;
use crate::scene::pieces::{pieces, Piece};
use crate::scene::{Pair, Scene};
use crate::verdicts::verdict::{of_solutions, Verdict};

#[derive(Clone, Copy, Debug, PartialEq, Eq)]
pub enum Settled {
    Hit,
    Miss,
    /// Degenerate, and nonnegative weights exist.
    Touch,
    /// Degenerate, and none exist.
    Apart,
}

/// In the order in which the total names them.
pub const WORDS: [Settled; 4] = [Settled::Hit, Settled::Miss, Settled::Touch, Settled::Apart];

impl Settled {
    pub fn word(self) -> &'static str {
        match self {
            Settled::Hit => "hit",
            Settled::Miss => "miss",
            Settled::Touch => "touch",
            Settled::Apart => "apart",
        }
    }

    /// The byte that the functions for C give it. 2 is the three-word verdicts' degenerate.
    pub fn byte(self) -> u8 {
        match self {
            Settled::Hit => 0,
            Settled::Miss => 1,
            Settled::Touch => 3,
            Settled::Apart => 4,
        }
    }

    /// The three-word verdict that it settles.
    pub fn verdict(self) -> Verdict {
        match self {
            Settled::Hit => Verdict::Hit,
            Settled::Miss => Verdict::Miss,
            Settled::Touch | Settled::Apart => Verdict::Degenerate,
        }
    }
}

/// A verdict with the degenerate one decided; `touches` is asked only then.
pub fn decided(verdict: Verdict, touches: impl FnOnce() -> bool) -> Settled {
    match verdict {
        Verdict::Hit => Settled::Hit,
        Verdict::Miss => Settled::Miss,
        Verdict::Degenerate if touches() => Settled::Touch,
        Verdict::Degenerate => Settled::Apart,
    }
}

pub fn of_piece(piece: &Piece) -> Settled {
    let solutions = Solutions::of(&piece.first, &piece.second);
    decided(of_solutions(&solutions), || solutions.any_nonnegative())
}

/// Hit, else touch if a degenerate piece touches, else apart if any piece is degenerate, else miss.
pub fn joined(words: &[Settled]) -> Settled {
    let order = [Settled::Hit, Settled::Touch, Settled::Apart];
    order.into_iter().find(|word| words.contains(word)).unwrap_or(Settled::Miss)
}

pub fn of_pieces(scene: &Scene, pair: Pair) -> Vec<Settled> {
    pieces(scene, pair).iter().map(of_piece).collect()
}

pub fn of_pair(scene: &Scene, pair: Pair) -> Settled {
    joined(&of_pieces(scene, pair))
}
