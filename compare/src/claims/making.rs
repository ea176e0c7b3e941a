//! Texts of claims from seeds: true ones, each damaged by one, weights at their limit and past it, and lines at fault.

use super::*;
use crate::making::cases;
use crate::making::generate;
use crate::making::kept;
use crate::numbers::random::Random;
use crate::ways::signs;

/// A scene and claims beside it, each as text.
pub struct Trial {
    pub scene: Vec<u8>,
    pub claims: Vec<u8>,
}

/// Claims from one scene, so that their text stays short.
const MOST: usize = 120;

/// Whole weights of a piece that has one solution with none negative, in lowest terms.
pub fn own_weights(piece: &Piece) -> Option<[u128; 6]> {
    let (weights, sum) = signs::weights::<i128>(piece);
    if sum == 0 || !signs::none_opposed(&weights) {
        return None;
    }
    let common = weights.iter().fold(0, |common, weight| divisor(common, weight.unsigned_abs()));
    Some(weights.map(|weight| weight.unsigned_abs() / common))
}

fn divisor(a: u128, b: u128) -> u128 {
    if b == 0 {
        a
    } else {
        divisor(b, a % b)
    }
}

/// A point of the first simplex that is one of the second: each has weight 1. Singular pieces have such ones too.
pub fn point_on_point(piece: &Piece) -> Option<[u64; 6]> {
    let split = piece.first.len();
    let (i, j) =
        (0..split).flat_map(|i| (0..6 - split).map(move |j| (i, j))).find(|&(i, j)| piece.first[i] == piece.second[j])?;
    let mut weights = [0; 6];
    weights[i] = 1;
    weights[split + j] = 1;
    Some(weights)
}

/// Weights with which the piece is claimed truly, where they are at most the limit.
pub fn true_weights(piece: &Piece) -> Option<[u64; 6]> {
    let own = own_weights(piece).filter(|weights| weights.iter().all(|&weight| weight <= WEIGHT_LIMIT as u128));
    own.map(|weights| weights.map(|weight| weight as u64)).or_else(|| point_on_point(piece))
}

fn unshared(scene: &Scene) -> Vec<Pair> {
    all_pairs(scene).into_iter().filter(|pair| !pair.shares_a_vertex(scene)).collect()
}

/// True claims, and each with one weight changed by one, moved to its neighbour, or as large as it may be.
pub fn claims(random: &mut Random, scene: &Scene) -> Vec<Claim> {
    let pairs = unshared(scene);
    let mut out = Vec::new();
    for _ in 0..2 * MOST {
        if pairs.is_empty() || out.len() + 9 > MOST {
            break;
        }
        let mut pair = random.pick(&pairs);
        let made = pieces(scene, pair);
        let piece = random.below(made.len());
        // either way round
        if pair.kind == Kind::EdgeEdge && random.chance(3) {
            pair = Pair { first: pair.second, second: pair.first, ..pair };
        }
        let Some(weights) = true_weights(&made[piece]) else {
            out.extend(random.chance(8).then_some(Claim { pair, piece, weights: [1; 6] }));
            continue;
        };
        out.push(Claim { pair, piece, weights });
        let changed = random.below(6);
        let mut more = weights;
        more[changed] += 1;
        out.push(Claim { pair, piece, weights: more });
        let mut less = weights;
        less[changed] = less[changed].saturating_sub(1);
        out.push(Claim { pair, piece, weights: less });
        let mut swapped = weights;
        swapped.swap(changed, (changed + 1) % 6);
        out.push(Claim { pair, piece, weights: swapped });
        out.push(Claim { pair, piece, weights: [0; 6] });
        let mut carried = weights;
        carried[changed] += 1 << 32;
        out.push(Claim { pair, piece, weights: carried });
        // as large as they may be, and past that
        let top = *weights.iter().max().unwrap();
        let largest = weights.map(|weight| weight * (WEIGHT_LIMIT / top));
        out.push(Claim { pair, piece, weights: largest });
        out.push(Claim { pair, piece, weights: weights.map(|weight| weight * (WEIGHT_LIMIT / top + 1)) });
        // one of so many goes over to another point of its simplex
        let split = made[piece].first.len();
        let (from, to) = (split + random.below(6 - split), split + random.below(6 - split));
        let mut moved = largest;
        moved[from] = moved[from].saturating_sub(1);
        moved[to] += 1;
        out.push(Claim { pair, piece, weights: moved });
    }
    out
}

fn written(scene: &Scene, claims: &[Claim]) -> Trial {
    Trial { scene: text::write(scene).into_bytes(), claims: claims.iter().map(line).collect::<String>().into_bytes() }
}

/// A field of a line that is wrong, or just right.
const FIELDS: [&str; 14] = [
    "1099511627776", "1099511627777", "9999999999999", "10000000000000", "00", "01", "-1", "-0", "+1", "", " 1", "1 ",
    "999999999", "1000000000",
];

/// A text with one fault, or two, in lines picked at random.
pub fn damaged(random: &mut Random, text: &str) -> Vec<u8> {
    let mut lines: Vec<String> = text.lines().map(str::to_string).collect();
    for _ in 0..1 + random.below(2) {
        if lines.is_empty() {
            break;
        }
        let at = random.below(lines.len());
        let mut fields: Vec<String> = lines[at].split('\t').map(str::to_string).collect();
        match random.below(6) {
            0 => {
                let field = random.below(fields.len());
                fields[field] = random.pick(&FIELDS).to_string();
            }
            1 => {
                fields.pop();
            }
            2 => fields.push("1".into()),
            3 => fields[0] = random.pick(&["pt", "ee", "v", "p", "PT", "tp", "pte", ""]).to_string(),
            4 => {
                let field = 1 + random.below(3.min(fields.len() - 1).max(1));
                if let Some(place) = fields.get_mut(field) {
                    *place = random.below(1_100).to_string();
                }
            }
            _ => {
                if fields.len() > 2 {
                    fields[2] = fields[1].clone();
                }
            }
        }
        lines[at] = fields.join("\t");
    }
    let mut out: Vec<u8> = lines.iter().flat_map(|line| [line.as_bytes(), b"\n"].concat()).collect();
    match random.below(8) {
        0 => {
            out.pop();
        }
        1 => out.push(b'\n'),
        2 => {
            let at = random.below(out.len() + 1);
            out.insert(at, random.pick(b"\r\t \n\x000\xff"));
        }
        _ => {}
    }
    out
}

/// A scene of some kind, its claims, the same with faults, and a scene at fault beside a text at fault.
pub fn seeded(seed: u64) -> Vec<Trial> {
    let mut random = Random::new(seed ^ 0xc1a1);
    let scene = generate::scene(seed);
    let made = claims(&mut random, &scene);
    let plain = written(&scene, &made);
    let text = String::from_utf8(plain.claims.clone()).unwrap();
    let mut out = vec![];
    for _ in 0..3 {
        out.push(Trial { scene: plain.scene.clone(), claims: damaged(&mut random, &text) });
    }
    let wrong_scene = crate::text::damage::damaged(&mut random, std::str::from_utf8(&plain.scene).unwrap());
    out.push(Trial { scene: wrong_scene, claims: damaged(&mut random, &text) });
    // parts that share no number, and a vertex by a seam
    let unsewn = scene.unsewn();
    let sewn = all_pairs(&scene).into_iter().find(|pair| pair.shares_a_vertex(&scene) && !pair.shares_a_vertex(&unsewn));
    out.extend(sewn.map(|pair| {
        let last = line(&Claim { pair, piece: random.below(3), weights: [1; 6] });
        Trial { scene: plain.scene.clone(), claims: format!("{text}{last}").into_bytes() }
    }));
    out.push(plain);
    out
}

/// Document 01's case 1, piece 1, and texts at the edges of the rules beside its scene and beside the printed one.
pub fn fixed() -> Vec<Trial> {
    let first = text::write(&cases::shown()[0].scene);
    let printed = cases::PRINTED_SCENE;
    let one = "pt\t3\t0\t1\t2\t2\t2\t0\t1\t1\n";
    let largest = "pt\t3\t0\t1\t1099511627776\t1099511627776\t1099511627776\t0\t549755813888\t549755813888\n";
    let past = "pt\t3\t0\t1\t1099511627778\t1099511627778\t1099511627778\t0\t549755813889\t549755813889\n";
    let long = |lines: usize, rest: usize| one.repeat(lines) + &"x".repeat(rest);
    let texts = [
        String::new(),
        one.into(),
        largest.into(),
        past.into(),
        "\n".into(),
        one.repeat(3),
        one.trim_end().into(),
        "pt\t3\t0\t1\t0\t0\t0\t0\t0\t0\n".into(),
        "pt\t3\t0\t3\t2\t2\t2\t0\t1\t1\n".into(),
        "pt\t4\t0\t1\t2\t2\t2\t0\t1\t1\n".into(),
        "pt\t0\t0\t1\t2\t2\t2\t0\t1\t1\n".into(),
        "pt\t0\t0\t3\t2\t2\t2\t0\t1\t1\n".into(),
        "ee\t0\t1\t0\t1\t1\t1\t1\t1\t1\n".into(),
        "ee\t1\t0\t0\t2\t0\t2\t2\t0\t2\n".into(),
        "ee\t0\t0\t0\t1\t1\t1\t1\t1\t1\n".into(),
        "ee\t0\t2\t4\t1\t1\t1\t1\t1\t1\n".into(),
        "pt\t3\t0\t1\t2\t2\t2\t0\t1\t10000000000000\n".into(),
        "pt\t3\t0\t1\t2\t2\t2\t0\t1\t9999999999999\n".into(),
        "pt\t1000000000\t0\t1\t2\t2\t2\t0\t1\t1\n".into(),
        "pt\t999999999\t0\t1\t2\t2\t2\t0\t1\t1\n".into(),
        format!("{one}pt\t9\t0\t1\t2\t2\t2\t0\t1\t1\npt\t3\n"),
        format!("{one}pt\t3\n{one}pt\t9\t0\t1\t2\t2\t2\t0\t1\t1\n"),
        long(1_560, 8),
        long(1_560, 9),
        long(1_560, 0),
        "x".repeat(32_769),
        "pt\t0\t0\t0\t0\t0\t0\t0\t0\t0\n".repeat(1_560),
    ];
    let one_vertex = "v\t0\t0\t0\t0\t0\t0\n";
    let faulty = [
        "v\t524288\t0\t0\t0\t0\t0\n".into(),
        format!("{one_vertex}e\t0\t1\n"),
        format!("{one_vertex}e\t0\t0\n"),
        "v\t0\n".into(),
        format!("{one_vertex}{one_vertex}e\t0\t1\n{one_vertex}"),
        one_vertex.repeat(513),
        "x".repeat(32_769),
        "x".repeat(32_768),
    ];
    let scenes: Vec<String> = [first, printed.to_string(), String::new()].into_iter().chain(faulty).collect();
    let mut out = vec![far_away()];
    for (_, path) in kept::scenes() {
        if let Ok(claims) = std::fs::read(path.with_extension("claims")) {
            out.push(Trial { scene: std::fs::read(path).unwrap(), claims });
        }
    }
    for scene in &scenes {
        out.extend(texts.iter().map(|text| Trial { scene: scene.clone().into_bytes(), claims: text.clone().into_bytes() }));
    }
    out
}

/// Case 1 far from the origin, with weights as large as they may be, and with one of so many gone over to a corner four steps away: a sum in
/// doubles does not see it.
fn far_away() -> Trial {
    let mut scene = cases::shown()[0].scene.clone();
    for vertex in &mut scene.vertices {
        vertex[0] += 520_000;
        vertex[3] += 520_000;
    }
    let top = WEIGHT_LIMIT;
    let claim = |moved: u64| Claim { pair: Pair::pt(3, 0), piece: 1, weights: [top, top, top - moved, moved, top / 2, top / 2] };
    written(&scene, &[claim(0), claim(1)])
}
