//! When and where a hit pair touched, by document 02, §5: the six equations of each hit piece are solved in fractions, and each number is
//! cut to whole 2^20ths by multiplying out.

pub mod making;
pub mod mistakes;

use crate::list::listing;
use crate::numbers::equations::Solutions;
use crate::numbers::whole::{cross, Whole};
use crate::scene::pieces::{corners, pieces, Corner};
use crate::scene::refusal::*;
use crate::scene::*;
use crate::text;
use crate::verdicts::settled::{self, Settled};
use crate::verdicts::verdict::{of_solutions, Verdict};
use std::cmp::Ordering;

/// So many 2^20ths are 1.
pub const UNIT: u32 = 1 << 20;

/// A fraction, its lower number above 0.
#[derive(Clone, Debug)]
pub struct Fraction {
    pub above: Whole,
    pub below: Whole,
}

impl Fraction {
    fn sum<'a>(fractions: impl Iterator<Item = &'a Fraction>) -> Fraction {
        let nothing = Fraction { above: Whole::ZERO, below: Whole::from(1) };
        fractions.fold(nothing, |sum, next| Fraction {
            above: sum.above.times(&next.below).plus(&next.above.times(&sum.below)),
            below: sum.below.times(&next.below),
        })
    }

    pub fn compare(&self, other: &Fraction) -> Ordering {
        cross(&self.above, &other.below, &other.above, &self.below).sign().cmp(&0)
    }

    /// The largest number of 2^20ths that is not above it; it is from 0 to 1.
    pub fn cut(&self) -> u32 {
        let parts = self.above.times(&Whole::from(UNIT as i128));
        let not_above = |number: u32| cross(&Whole::from(number as i128), &self.below, &Whole::from(1), &parts).sign() <= 0;
        let (mut at_most, mut too_many) = (0, UNIT + 1);
        while too_many - at_most > 1 {
            let middle = (at_most + too_many) / 2;
            *(if not_above(middle) { &mut at_most } else { &mut too_many }) = middle;
        }
        at_most
    }
}

/// The one solution of a hit piece: its time, and the shares that a contact of its kind carries.
#[derive(Clone, Debug)]
pub struct Solved {
    pub piece: usize,
    pub corners: [Vec<Corner>; 2],
    pub weights: Vec<Fraction>,
}

impl Solved {
    fn weights_of(&self, simplex: usize, counts: impl Fn(&Corner) -> bool) -> Fraction {
        let weights = self.weights[if simplex == 0 { 0 } else { self.corners[0].len() }..].iter();
        Fraction::sum(self.corners[simplex].iter().zip(weights).filter(|(corner, _)| counts(corner)).map(|(_, weight)| weight))
    }

    /// The sum of the end weights, of the one simplex as of the other.
    pub fn time(&self) -> Fraction {
        self.weights_of(0, |corner| corner.at_end)
    }

    /// A corner's share is the sum of its start and end weights.
    pub fn share(&self, simplex: usize, vertex: usize) -> Fraction {
        self.weights_of(simplex, |corner| corner.vertex == vertex)
    }

    /// Of a point and a triangle those of the three corners, of two edges that of each at its higher-numbered end. A piece names the
    /// vertices of a part in rising number.
    pub fn shares(&self) -> Vec<Fraction> {
        let [first, second] = [0, 1].map(|simplex| vertices(&self.corners[simplex]));
        match first.len() {
            1 => second.iter().map(|&corner| self.share(1, corner)).collect(),
            _ => vec![self.share(0, first[1]), self.share(1, second[1])],
        }
    }

    pub fn contact(&self) -> Contact {
        let shares = self.shares().iter().map(Fraction::cut).collect();
        Contact { piece: self.piece, k: self.time().cut(), shares }
    }
}

/// The vertices of a simplex, each once, in its order.
fn vertices(corners: &[Corner]) -> Vec<usize> {
    let mut out: Vec<usize> = corners.iter().map(|corner| corner.vertex).collect();
    out.dedup();
    out
}

/// What a hit carries, in 2^20ths.
#[derive(Clone, Debug, PartialEq, Eq)]
pub struct Contact {
    pub piece: usize,
    pub k: u32,
    pub shares: Vec<u32>,
}

impl Contact {
    /// The row of five numbers that the functions for C give.
    pub fn row(&self) -> [u32; 5] {
        let mut row = [self.piece as u32, self.k, 0, 0, 0];
        row[2..].iter_mut().zip(&self.shares).for_each(|(place, &share)| *place = share);
        row
    }
}

/// The solved hit pieces of a pair, in order. No other piece takes part.
pub fn hits(scene: &Scene, pair: Pair) -> Vec<Solved> {
    let mut out = Vec::new();
    for (place, (corners, points)) in corners(scene, pair).into_iter().zip(pieces(scene, pair)).enumerate() {
        let solutions = Solutions::of(&points.first, &points.second);
        if of_solutions(&solutions) == Verdict::Hit {
            let weights = solutions.only().into_iter().map(|(above, below)| Fraction { above, below }).collect();
            out.push(Solved { piece: place, corners, weights });
        }
    }
    out
}

/// That of the hit piece with the smallest k, on a tie of the lowest piece number.
pub fn chosen(hits: &[Solved]) -> Option<Contact> {
    // the first of several that are smallest
    hits.iter().map(Solved::contact).min_by_key(|contact| contact.k)
}

pub fn of_pair(scene: &Scene, pair: Pair) -> Option<Contact> {
    chosen(&hits(scene, pair))
}

pub fn in_old_range(scene: &Scene) -> bool {
    scene.vertices.iter().flatten().all(|coordinate| coordinate.abs() <= FIRST_COORDINATE_LIMIT)
}

/// 16 for a scene beyond the old range.
pub fn refuse_beyond(scene: &Scene) -> Result<(), Refusal> {
    if in_old_range(scene) {
        return Ok(());
    }
    Err(Refusal::bare(BEYOND_OLD_RANGE))
}

/// What a text comes to: the count of listed pairs, and each hit pair with its contact.
pub type Found = Result<(usize, Vec<(Pair, Contact)>), Refusal>;

pub fn found(scene: &Scene, room: usize) -> Found {
    refuse_beyond(scene)?;
    let listed = listing::list(scene, room)?;
    let hit = listed.iter().filter_map(|&pair| of_pair(scene, pair).map(|contact| (pair, contact))).collect();
    Ok((listed.len(), hit))
}

/// What the program prints for a text.
pub fn printed(text: &[u8], room: usize) -> String {
    written(&text::read(text).and_then(|scene| found(&scene, room)))
}

pub fn written(found: &Found) -> String {
    let (listed, hit) = match found {
        Err(refusal) => return format!("refused\t{}\t{}\n", refusal.number, refusal.third),
        Ok(found) => found,
    };
    let mut out: String = hit.iter().map(|(pair, contact)| line(*pair, contact)).collect();
    out.push_str(&format!("total\t{listed}\t{}\n", hit.len()));
    out
}

fn line(pair: Pair, contact: &Contact) -> String {
    let kind = match pair.kind {
        Kind::PointTriangle => "pt",
        Kind::EdgeEdge => "ee",
    };
    let shares: String = contact.shares.iter().map(|share| format!("\t{share}")).collect();
    format!("{kind}\t{}\t{}\t{}\t{}{shares}\n", pair.first, pair.second, contact.piece, contact.k)
}

/// The word of a pair, with the contact of a hit.
pub fn settled(scene: &Scene, pair: Pair) -> (Settled, Option<Contact>) {
    (settled::of_pair(scene, pair), of_pair(scene, pair))
}
