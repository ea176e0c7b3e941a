//! What the report program prints for a text.

pub mod mistakes;
pub mod trials;

use crate::list::listing;
use crate::scene::refusal::Refusal;
use crate::scene::{Kind, Pair, Scene};
use crate::text;
use crate::verdicts::settled::{self, Settled, WORDS};

/// What a text comes to: each listed pair with its word, or the refusal.
pub type Judged = Result<Vec<(Pair, Settled)>, Refusal>;

pub fn judged(text: &[u8], room: usize) -> Judged {
    let scene = text::read(text)?;
    judged_scene(&scene, room)
}

pub fn judged_scene(scene: &Scene, room: usize) -> Judged {
    let listed = listing::list(scene, room)?;
    Ok(listed.into_iter().map(|pair| (pair, settled::of_pair(scene, pair))).collect())
}

pub fn report(text: &[u8], room: usize) -> String {
    written(&judged(text, room))
}

pub fn written(judged: &Judged) -> String {
    let listed = match judged {
        Err(refusal) => return format!("refused\t{}\t{}\n", refusal.number, refusal.third),
        Ok(listed) => listed,
    };
    let mut out = String::new();
    for (pair, word) in listed {
        let kind = match pair.kind {
            Kind::PointTriangle => "pt",
            Kind::EdgeEdge => "ee",
        };
        out.push_str(&format!("{kind}\t{}\t{}\t{}\n", pair.first, pair.second, word.word()));
    }
    let count = |wanted: Settled| listed.iter().filter(|(_, word)| *word == wanted).count();
    let [hits, misses, touch, apart] = WORDS.map(count);
    out.push_str(&format!("total\t{}\t{hits}\t{misses}\t{touch}\t{apart}\n", listed.len()));
    out
}
