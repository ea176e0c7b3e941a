//! Programs of contacts that are wrong in one respect each, as trainees would write them.

use super::*;
use crate::numbers::equations::Point;
use crate::scene::pieces::Piece;
use crate::ways::signs::{self, Number};

#[derive(Clone, Copy, Debug, PartialEq, Eq)]
pub enum Mistake {
    NearestInPlaceOfCut,
    SmallestExactTime,
    TieToTheLaterPiece,
    LowestPieceWhateverItsTime,
    StartWeightsOnly,
    EndWeightsOnly,
    FirstVolumeNotTurned,
    ShareOfTheLowerEnd,
    EndsAsWritten,
    CornersAsWritten,
    SharesByOwnNumber,
    HigherEdgeFirst,
    TouchingPiecesTakePart,
    TouchIsAHit,
    FloatsThroughout,
    WeightWrapsAt64Bits,
    LastShareIsTheRest,
    OneIsOneLess,
    TimeFromTheEnd,
    PiecesFromOne,
    LineForEveryListedPair,
    TotalWithoutMisses,
    NoSixteen,
    SixteenAtTheOldLimit,
    SixteenForPositiveOnly,
    SixteenAfterSeven,
    SixteenInPlaceOfTwo,
    SixteenWithALine,
    AThirdShareOfTwoEdges,
    LinesBeforeSeven,
}

use Mistake::*;

pub const ALL: [Mistake; 30] = [
    NearestInPlaceOfCut, SmallestExactTime, TieToTheLaterPiece, LowestPieceWhateverItsTime, StartWeightsOnly, EndWeightsOnly,
    FirstVolumeNotTurned, ShareOfTheLowerEnd, EndsAsWritten, CornersAsWritten, SharesByOwnNumber, HigherEdgeFirst,
    TouchingPiecesTakePart, TouchIsAHit, FloatsThroughout, WeightWrapsAt64Bits, LastShareIsTheRest, OneIsOneLess, TimeFromTheEnd,
    PiecesFromOne, LineForEveryListedPair, TotalWithoutMisses, NoSixteen, SixteenAtTheOldLimit, SixteenForPositiveOnly,
    SixteenAfterSeven, SixteenInPlaceOfTwo, SixteenWithALine, AThirdShareOfTwoEdges, LinesBeforeSeven,
];

impl Mistake {
    /// A word to call it by, as `nearest-in-place-of-cut`.
    pub fn key(self) -> String {
        let mut out = String::new();
        for letter in format!("{self:?}").chars() {
            if letter.is_ascii_uppercase() && !out.is_empty() {
                out.push('-');
            }
            out.push(letter.to_ascii_lowercase());
        }
        out
    }
}

pub fn find(key: &str) -> Option<Mistake> {
    ALL.into_iter().find(|mistake| mistake.key() == key)
}

/// To the nearest number, halves up.
fn nearest(fraction: &Fraction) -> u32 {
    let twice = Whole::from(2 * UNIT as i128);
    let above = fraction.above.times(&twice).plus(&fraction.below);
    Fraction { above, below: fraction.below.times(&twice) }.cut()
}

/// The earliest solution of a singular piece among those that some choice of corners has alone, the others left out.
fn touching(piece: usize, corners: &[Vec<Corner>; 2], points: &Piece) -> Option<Solved> {
    let nothing = Fraction { above: Whole::ZERO, below: Whole::from(1) };
    let mut found: Vec<Solved> = Vec::new();
    for choice in 1..1usize << 6 {
        let chosen: Vec<usize> = (0..6).filter(|place| choice >> place & 1 == 1).collect();
        let of = |simplex: &[Point], before: usize| -> Vec<Point> {
            chosen.iter().filter_map(|place| simplex.get(place.wrapping_sub(before)).copied()).collect()
        };
        let (first, second) = (of(&points.first, 0), of(&points.second, points.first.len()));
        let solutions = Solutions::of(&first, &second);
        if first.is_empty() || second.is_empty() || solutions.singular() || !solutions.any_nonnegative() {
            continue;
        }
        let mut weights = vec![nothing.clone(); 6];
        for (&place, (above, below)) in chosen.iter().zip(solutions.only()) {
            weights[place] = Fraction { above, below };
        }
        found.push(Solved { piece, corners: corners.clone(), weights });
    }
    found.into_iter().min_by(|a, b| a.time().compare(&b.time()))
}

fn touching_pieces(scene: &Scene, pair: Pair) -> Vec<Solved> {
    let all = corners(scene, pair).into_iter().zip(pieces(scene, pair)).enumerate();
    let singular = all.filter(|(_, (_, points))| Solutions::of(&points.first, &points.second).singular());
    singular.filter_map(|(place, (corners, points))| touching(place, &corners, &points)).collect()
}

/// The pieces that take part, solved.
fn taking_part(mistake: Mistake, scene: &Scene, pair: Pair) -> Vec<Solved> {
    let mut out = hits(scene, pair);
    if mistake == TouchIsAHit && out.is_empty() || mistake == TouchingPiecesTakePart && !out.is_empty() {
        out.extend(touching_pieces(scene, pair));
        out.sort_by_key(|solved| solved.piece);
    }
    out
}

fn wrong_shares(mistake: Mistake, scene: &Scene, pair: Pair, solved: &Solved) -> Vec<Fraction> {
    let [mut first, mut second] = [0, 1].map(|simplex| vertices(&solved.corners[simplex]));
    if mistake == SharesByOwnNumber {
        // not by the number of the vertex stood for, which is how a piece names them
        first.sort();
        second.sort();
    }
    let edges = pair.kind == Kind::EdgeEdge;
    let (low, high) = (pair.first.min(pair.second), pair.first.max(pair.second));
    match mistake {
        FirstVolumeNotTurned if edges && solved.piece < 2 => {
            vec![with_its_own_sign(solved).share(0, first[1]), solved.share(1, second[1])]
        }
        ShareOfTheLowerEnd if edges => vec![solved.share(0, first[0]), solved.share(1, second[0])],
        EndsAsWritten if edges => vec![solved.share(0, scene.edges[low][1]), solved.share(1, scene.edges[high][1])],
        HigherEdgeFirst if edges => vec![solved.share(1, second[1]), solved.share(0, first[1])],
        SharesByOwnNumber if edges => vec![solved.share(0, first[1]), solved.share(1, second[1])],
        SharesByOwnNumber => second.iter().map(|&corner| solved.share(1, corner)).collect(),
        CornersAsWritten if !edges => scene.triangles[pair.second].map(|corner| solved.share(1, corner)).to_vec(),
        StartWeightsOnly | EndWeightsOnly => {
            let at_end = mistake == EndWeightsOnly;
            let half = |simplex: usize, vertex: usize| {
                solved.weights_of(simplex, |corner| corner.vertex == vertex && corner.at_end == at_end)
            };
            match edges {
                true => vec![half(0, first[1]), half(1, second[1])],
                false => second.iter().map(|&corner| half(1, corner)).collect(),
            }
        }
        AThirdShareOfTwoEdges if edges => [solved.shares(), vec![solved.share(1, second[0])]].concat(),
        _ => solved.shares(),
    }
}

/// The weight of the first edge's higher end at the start, which in piece A of that edge has the sign of its volume turned.
fn with_its_own_sign(solved: &Solved) -> Solved {
    let mut out = solved.clone();
    out.weights[1].above = out.weights[1].above.minus();
    out
}

fn wrong_contact(mistake: Mistake, scene: &Scene, pair: Pair, solved: &Solved) -> Contact {
    let cut = |fraction: &Fraction| if mistake == NearestInPlaceOfCut { nearest(fraction) } else { fraction.cut() };
    let time = if mistake == TimeFromTheEnd { solved.weights_of(0, |corner| !corner.at_end) } else { solved.time() };
    let shares = wrong_shares(mistake, scene, pair, solved).iter().map(cut).collect();
    let mut out = Contact { piece: solved.piece + (mistake == PiecesFromOne) as usize, k: cut(&time), shares };
    if mistake == LastShareIsTheRest && out.shares.len() == 3 {
        out.shares[2] = UNIT - out.shares[0] - out.shares[1];
    }
    if mistake == OneIsOneLess {
        out.k = out.k.min(UNIT - 1);
        out.shares.iter_mut().for_each(|share| *share = (*share).min(UNIT - 1));
    }
    out
}

/// Time and shares as sums of weights that are known up to a common factor, which is the sum over one simplex.
fn sums<N: Number>(corners: &[Vec<Corner>; 2], weights: &[N; 6]) -> (N, Vec<N>) {
    let sum = |simplex: usize, counts: &dyn Fn(&Corner) -> bool| {
        let of_simplex = weights[if simplex == 0 { 0 } else { corners[0].len() }..].iter();
        let counted = corners[simplex].iter().zip(of_simplex).filter(|(corner, _)| counts(corner));
        counted.fold(N::default(), |sum, (_, &weight)| sum + weight)
    };
    let [first, second] = [0, 1].map(|simplex| vertices(&corners[simplex]));
    let shares = match first.len() {
        1 => second.iter().map(|&vertex| sum(1, &|corner| corner.vertex == vertex)).collect(),
        _ => vec![sum(0, &|corner| corner.vertex == first[1]), sum(1, &|corner| corner.vertex == second[1])],
    };
    (sum(0, &|corner| corner.at_end), shares)
}

/// Everything in doubles: which pieces are hit too.
fn in_doubles(scene: &Scene, pair: Pair) -> Option<Contact> {
    let mut out: Vec<Contact> = Vec::new();
    for (piece, (corners, points)) in corners(scene, pair).into_iter().zip(pieces(scene, pair)).enumerate() {
        let (weights, whole) = signs::weights::<f64>(&points);
        if whole == 0.0 || !signs::none_opposed(&weights) {
            continue;
        }
        let (time, shares) = sums(&corners, &weights);
        let cut = |part: f64| (part / whole * UNIT as f64) as u32;
        out.push(Contact { piece, k: cut(time), shares: shares.into_iter().map(cut).collect() });
    }
    out.into_iter().min_by_key(|contact| contact.k)
}

/// 2^20 times a weight needs up to 80 bits.
fn wrapping(scene: &Scene, pair: Pair) -> Option<Contact> {
    let all = pieces(scene, pair);
    let wrapped = |solved: &Solved| {
        let (weights, whole) = signs::weights::<i128>(&all[solved.piece]);
        let (time, shares) = sums(&solved.corners, &weights);
        let cut = |part: i128| ((part.unsigned_abs() as u64).wrapping_mul(UNIT as u64) / whole.unsigned_abs() as u64) as u32;
        Contact { piece: solved.piece, k: cut(time), shares: shares.into_iter().map(cut).collect() }
    };
    hits(scene, pair).iter().map(wrapped).min_by_key(|contact| contact.k)
}

pub fn of_pair(mistake: Mistake, scene: &Scene, pair: Pair) -> Option<Contact> {
    match mistake {
        FloatsThroughout => return in_doubles(scene, pair),
        WeightWrapsAt64Bits => return wrapping(scene, pair),
        _ => {}
    }
    let solved = taking_part(mistake, scene, pair);
    let mut contacts = solved.iter().map(|solved| wrong_contact(mistake, scene, pair, solved));
    match mistake {
        SmallestExactTime => {
            let earliest = solved.iter().min_by(|a, b| a.time().compare(&b.time()))?;
            Some(wrong_contact(mistake, scene, pair, earliest))
        }
        TieToTheLaterPiece => contacts.min_by_key(|contact| (contact.k, usize::MAX - contact.piece)),
        LowestPieceWhateverItsTime => contacts.next(),
        _ => contacts.min_by_key(|contact| contact.k),
    }
}

fn range(mistake: Mistake, scene: &Scene) -> Result<(), Refusal> {
    let limit = FIRST_COORDINATE_LIMIT - (mistake == SixteenAtTheOldLimit) as i64;
    let beyond = |vertex: &[i64; 6]| match mistake {
        NoSixteen => false,
        SixteenForPositiveOnly => vertex.iter().any(|&coordinate| coordinate > limit),
        _ => vertex.iter().any(|&coordinate| coordinate.abs() > limit),
    };
    match scene.vertices.iter().position(beyond) {
        Some(vertex) if mistake == SixteenWithALine => Err(Refusal::new(BEYOND_OLD_RANGE, vertex as u64 + 1)),
        Some(_) => Err(Refusal::bare(BEYOND_OLD_RANGE)),
        None => Ok(()),
    }
}

fn wrong_found(mistake: Mistake, scene: &Scene, room: usize) -> Found {
    if mistake == SixteenAfterSeven {
        listing::list(scene, room)?;
    }
    range(mistake, scene)?;
    let listed = listing::list(scene, room)?;
    let nothing = |pair: Pair| {
        let shares = vec![0; if pair.kind == Kind::PointTriangle { 3 } else { 2 }];
        (mistake == LineForEveryListedPair).then_some(Contact { piece: 0, k: 0, shares })
    };
    let contact = |&pair: &Pair| of_pair(mistake, scene, pair).or_else(|| nothing(pair)).map(|contact| (pair, contact));
    let hit: Vec<(Pair, Contact)> = listed.iter().filter_map(contact).collect();
    Ok((if mistake == TotalWithoutMisses { hit.len() } else { listed.len() }, hit))
}

pub fn printed(mistake: Mistake, text: &[u8], room: usize) -> String {
    let found = text::read(text).and_then(|scene| wrong_found(mistake, &scene, room));
    match found {
        Err(refusal) if mistake == SixteenInPlaceOfTwo && refusal.number == OUT_OF_RANGE => {
            written(&Err(Refusal::bare(BEYOND_OLD_RANGE)))
        }
        Err(refusal) if mistake == LinesBeforeSeven && refusal.number == NO_ROOM => first_line(text) + &written(&Err(refusal)),
        found => written(&found),
    }
}

/// The line of the first listed pair that is hit.
fn first_line(text: &[u8]) -> String {
    let Ok(scene) = text::read(text) else { return String::new() };
    let hit = |pair: Pair| super::of_pair(&scene, pair).map(|contact| line(pair, &contact));
    listing::listed(&scene).into_iter().find_map(hit).unwrap_or_default()
}
