//! A partner's claims by document 02, §11: lines of claims beside a scene, each answered with yes or no.

pub mod making;
pub mod mistakes;

use crate::scene::pieces::{pieces, Piece};
use crate::scene::refusal::*;
use crate::scene::*;
use crate::text;

pub const WEIGHT_LIMIT: u64 = 1 << 40;
/// The answers that the program has room for. No text of claims has so many: the shortest line has 21 bytes.
pub const CLAIM_ROOM: usize = 2_048;

#[derive(Clone, Copy, Debug, PartialEq, Eq)]
pub struct Claim {
    pub pair: Pair,
    pub piece: usize,
    pub weights: [u64; 6],
}

/// Nothing for a line that is not of the form.
pub fn claim(line: &[u8]) -> Option<Claim> {
    let fields: Vec<&[u8]> = line.split(|&byte| byte == b'\t').collect();
    let [word, places @ ..] = &fields[..] else { return None };
    let kind = match *word {
        b"pt" => Kind::PointTriangle,
        b"ee" => Kind::EdgeEdge,
        _ => return None,
    };
    let [first, second, piece, weights @ ..] = places else { return None };
    let place = |field: &[u8]| digits(field, 9).map(|number| number as usize);
    let weights: Option<Vec<u64>> = weights.iter().map(|field| digits(field, 13)).collect();
    Some(Claim {
        pair: Pair { kind, first: place(first)?, second: place(second)? },
        piece: place(piece)?,
        weights: weights?.try_into().ok()?,
    })
}

/// One to so many digits, no leading zero except 0 itself.
fn digits(field: &[u8], most: usize) -> Option<u64> {
    let zero_in_front = field.len() > 1 && field[0] == b'0';
    if field.is_empty() || field.len() > most || zero_in_front || !field.iter().all(u8::is_ascii_digit) {
        return None;
    }
    std::str::from_utf8(field).ok()?.parse().ok()
}

/// 5 or 6 where the claim is about nothing that may be asked for.
pub fn fault(scene: &Scene, claim: &Claim) -> Result<(), u64> {
    let Pair { kind, first, second } = claim.pair;
    let (firsts, seconds, pieces) = match kind {
        Kind::PointTriangle => (scene.vertices.len(), scene.triangles.len(), 3),
        Kind::EdgeEdge => (scene.edges.len(), scene.edges.len(), 4),
    };
    if first >= firsts || second >= seconds || claim.piece >= pieces {
        return Err(NOT_THERE);
    }
    if claim.pair.shares_a_vertex(scene) {
        return Err(SHARES_A_VERTEX);
    }
    Ok(())
}

/// The sum of the weights of each simplex, and its weighted x, y, z and time.
pub fn sums(piece: &Piece, weights: [u64; 6]) -> [[i128; 5]; 2] {
    let (first, second) = weights.split_at(piece.first.len());
    [(&piece.first, first), (&piece.second, second)].map(|(points, weights)| {
        let mut out = [0; 5];
        for (point, &weight) in points.iter().zip(weights) {
            out[0] += weight as i128;
            for axis in 0..4 {
                out[1 + axis] += weight as i128 * point[axis] as i128;
            }
        }
        out
    })
}

pub fn yes(piece: &Piece, weights: [u64; 6]) -> bool {
    let [first, second] = sums(piece, weights);
    weights.iter().all(|&weight| weight <= WEIGHT_LIMIT) && first == second && first[0] > 0
}

/// The answers, or the first fault.
pub fn answers(scene: &Scene, text: &[u8], room: usize) -> Result<Vec<bool>, Refusal> {
    let claims = read(scene, text)?;
    if claims.len() > room {
        return Err(Refusal::new(NO_ROOM, claims.len() as u64));
    }
    Ok(claims.iter().map(|claim| yes(&pieces(scene, claim.pair)[claim.piece], claim.weights)).collect())
}

pub fn read(scene: &Scene, text: &[u8]) -> Result<Vec<Claim>, Refusal> {
    if text.len() > TEXT_LIMIT {
        return Err(Refusal::bare(TEXT_TOO_LONG));
    }
    let mut claims = Vec::new();
    let mut lines = text.split_inclusive(|&byte| byte == b'\n');
    for number in 1.. {
        let Some(line) = lines.next() else { break };
        let read = line.strip_suffix(b"\n").and_then(claim).ok_or(BAD_LINE);
        let checked = read.and_then(|claim| fault(scene, &claim).map(|()| claim));
        claims.push(checked.map_err(|refusal| Refusal::new(refusal, number))?);
    }
    Ok(claims)
}

/// What the program prints for a text of a scene and one of claims.
pub fn printed(scene: &[u8], claims: &[u8]) -> String {
    written(text::read(scene).and_then(|scene| answers(&scene, claims, CLAIM_ROOM)))
}

/// What the program tells on standard error where it prints this: which of the two texts is refused, since a line is counted in its own.
pub fn told(scene: &[u8], printed: &str) -> &'static str {
    match (printed.starts_with("refused"), text::read(scene)) {
        (false, _) => "",
        (true, Err(_)) => "claims: it is the scene that is refused\n",
        (true, Ok(_)) => "claims: it is the claims that are refused\n",
    }
}

pub fn written(answered: Result<Vec<bool>, Refusal>) -> String {
    match answered {
        Err(refusal) => format!("refused\t{}\t{}\n", refusal.number, refusal.third),
        Ok(answers) => answers.into_iter().map(|yes| if yes { "yes\n" } else { "no\n" }).collect(),
    }
}

/// The line of a claim.
pub fn line(claim: &Claim) -> String {
    let kind = match claim.pair.kind {
        Kind::PointTriangle => "pt",
        Kind::EdgeEdge => "ee",
    };
    let weights = claim.weights.map(|weight| weight.to_string()).join("\t");
    format!("{kind}\t{}\t{}\t{}\t{weights}\n", claim.pair.first, claim.pair.second, claim.piece)
}
