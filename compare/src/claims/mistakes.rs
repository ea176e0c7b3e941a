//! Programs of claims that are wrong in one respect each, as trainees would write them.

use super::*;
use crate::verdicts::verdict::{of_piece, Verdict};

#[derive(Clone, Copy, Debug, PartialEq, Eq)]
pub enum Mistake {
    HeightNotLookedAt,
    TimeNotLookedAt,
    SumsNotCompared,
    SumOfNothing,
    SecondSimplexBackwards,
    CornersAsWritten,
    EdgesAsWritten,
    LimitShort,
    NoLimit,
    FourteenDigitsAreNo,
    AnswersBeforeTheFault,
    SharedBeforeThere,
    LinesFromNought,
    OwnVerdictAsked,
    SumsInDoubles,
    SumsIn32Bits,
    EndWithoutLineFeed,
    PieceNotLookedAt,
    ClaimsBeforeTheScene,
    CornersByOwnNumber,
    SharedByOwnNumber,
}

use Mistake::*;

pub const ALL: [Mistake; 21] = [
    HeightNotLookedAt, TimeNotLookedAt, SumsNotCompared, SumOfNothing, SecondSimplexBackwards, CornersAsWritten, EdgesAsWritten,
    LimitShort, NoLimit, FourteenDigitsAreNo, AnswersBeforeTheFault, SharedBeforeThere, LinesFromNought, OwnVerdictAsked,
    SumsInDoubles, SumsIn32Bits, EndWithoutLineFeed, PieceNotLookedAt, ClaimsBeforeTheScene, CornersByOwnNumber,
    SharedByOwnNumber,
];

fn wrong_sums(mistake: Mistake, piece: &Piece, weights: [u64; 6]) -> bool {
    let [first, second] = sums(piece, weights);
    let rows: &[usize] = match mistake {
        HeightNotLookedAt => &[0, 1, 2, 4],
        TimeNotLookedAt => &[0, 1, 2, 3],
        SumsNotCompared => &[1, 2, 3, 4],
        _ => &[0, 1, 2, 3, 4],
    };
    let agree = rows.iter().all(|&row| match mistake {
        SumsInDoubles => (first[row] as f64) == (second[row] as f64),
        SumsIn32Bits => (first[row] as i32) == (second[row] as i32),
        _ => first[row] == second[row],
    });
    agree && (first[0] > 0 || mistake == SumOfNothing)
}

fn wrong_yes(mistake: Mistake, scene: &Scene, claim: &Claim) -> bool {
    let light = |weight: &u64| match mistake {
        LimitShort => *weight < WEIGHT_LIMIT,
        NoLimit => true,
        _ => *weight <= WEIGHT_LIMIT,
    };
    let mut piece = match mistake {
        CornersAsWritten => as_written(scene, claim),
        EdgesAsWritten if claim.pair.kind == Kind::EdgeEdge && claim.pair.first > claim.pair.second => {
            let right = pieces(scene, claim.pair)[2 * (claim.piece % 2) + claim.piece / 2].clone();
            Piece { first: right.second, second: right.first }
        }
        PieceNotLookedAt => pieces(scene, claim.pair)[0].clone(),
        CornersByOwnNumber => pieces(&scene.unsewn(), claim.pair)[claim.piece].clone(),
        _ => pieces(scene, claim.pair)[claim.piece].clone(),
    };
    if mistake == SecondSimplexBackwards {
        piece.second.reverse();
    }
    let asked = mistake != OwnVerdictAsked || of_piece(&piece) == Verdict::Hit;
    claim.weights.iter().all(light) && asked && wrong_sums(mistake, &piece, claim.weights)
}

/// The piece with the corners of both parts in the order in which the scene writes them.
fn as_written(scene: &Scene, claim: &Claim) -> Piece {
    let mut renamed = Scene::default();
    let mut pair = claim.pair;
    if pair.kind == Kind::EdgeEdge {
        pair = Pair { first: pair.first.min(pair.second), second: pair.first.max(pair.second), ..pair };
    }
    let (first, second) = pair.parts(scene);
    let place = |v: usize| scene.vertices[v];
    renamed.vertices = first.iter().chain(second).map(|&v| place(v)).collect();
    match pair.kind {
        Kind::PointTriangle => {
            renamed.triangles = vec![[1, 2, 3]];
            pieces(&renamed, Pair::pt(0, 0))[claim.piece].clone()
        }
        Kind::EdgeEdge => {
            renamed.edges = vec![[0, 1], [2, 3]];
            pieces(&renamed, Pair::ee(0, 1))[claim.piece].clone()
        }
    }
}

fn wrong_claim(mistake: Mistake, line: &[u8]) -> Option<Claim> {
    if mistake != FourteenDigitsAreNo {
        return claim(line);
    }
    // a weight of more digits is read as one that is too large
    let fields = line.split(|&byte| byte == b'\t').enumerate();
    let cut = fields.map(|(place, field)| if place > 3 && field.len() > 13 { b"9999999999999" } else { field });
    claim(&cut.collect::<Vec<&[u8]>>().join(&b'\t'))
}

fn wrong_fault(mistake: Mistake, scene: &Scene, claim: &Claim) -> Result<(), u64> {
    if mistake == SharedByOwnNumber {
        return fault(&scene.unsewn(), claim);
    }
    let right = fault(scene, claim);
    if mistake == SharedBeforeThere && right == Err(NOT_THERE) {
        let piece_there = Claim { piece: 0, ..*claim };
        return if fault(scene, &piece_there) == Err(SHARES_A_VERTEX) { Err(SHARES_A_VERTEX) } else { right };
    }
    right
}

pub fn printed(mistake: Mistake, scene: &[u8], claims: &[u8]) -> String {
    if mistake == ClaimsBeforeTheScene && claims.len() > TEXT_LIMIT {
        return written(Err(Refusal::bare(TEXT_TOO_LONG)));
    }
    let scene = match text::read(scene) {
        Ok(scene) => scene,
        Err(refusal) => return written(Err(refusal)),
    };
    if claims.len() > TEXT_LIMIT {
        return written(Err(Refusal::bare(TEXT_TOO_LONG)));
    }
    let mut answers = Vec::new();
    for (above, line) in claims.split_inclusive(|&byte| byte == b'\n').enumerate() {
        let ended = line.strip_suffix(b"\n").or(if mistake == EndWithoutLineFeed { Some(line) } else { None });
        let read = ended.and_then(|line| wrong_claim(mistake, line)).ok_or(BAD_LINE);
        match read.and_then(|claim| wrong_fault(mistake, &scene, &claim).map(|()| claim)) {
            Ok(claim) => answers.push(wrong_yes(mistake, &scene, &claim)),
            Err(number) => {
                let number = Refusal::new(number, above as u64 + (mistake != LinesFromNought) as u64);
                let before = if mistake == AnswersBeforeTheFault { written(Ok(answers)) } else { String::new() };
                return before + &written(Err(number));
            }
        }
    }
    written(Ok(answers))
}
