//! usage: cost [SEEDS [REACH]]
//! What deciding singular pieces takes, by the sketch of the library's search: on scenes from seeds by kind (1,900
//! seeds), on every pair of vertices on a line, on every piece in a plane with differences up to REACH (1), and at most.

use compare::making::generate;
use compare::scene::Kind;
use compare::showing::cost::{at_most, at_most_of_a_pair, in_a_plane, of_scene, on_a_line, shapes, Tally, KINDS};
use compare::ways::search::Cost;

fn main() {
    let words: Vec<String> = std::env::args().skip(1).collect();
    let number = |place: usize, otherwise: i64| match words.get(place) {
        Some(word) => word.parse().expect("SEEDS and REACH are numbers"),
        None => otherwise,
    };
    let (seeds, reach) = (number(0, 1_900) as u64, number(1, 1));
    compare::say!(
        "{:<24}{:>10}{:>10}{:>29}{:>29}{:>29}", "singular pieces", "", "", "on average", "most of a piece", "most of a pair"
    );
    let columns = format!("{:>9}{:>8}{:>12}", "calls", "leaves", "3x3 dets");
    compare::say!("{:<24}{:>10}{:>10}{columns}{columns}{columns}", "", "all", "touch");
    let mut all = Tally::default();
    for (kind, (name, _)) in generate::KINDS.iter().enumerate() {
        let mut tally = Tally::default();
        let own = (kind as u64..seeds).step_by(generate::KINDS.len());
        own.for_each(|seed| of_scene(&mut tally, &generate::scene(seed)));
        row(name, &tally, true);
        all.join(&tally);
    }
    row("all seeds", &all, true);
    for kind in KINDS {
        row(&format!("{} on a line", word(kind)), &on_a_line(kind, 3), true);
        row(&format!("{} in a plane", word(kind)), &in_a_plane(kind, reach), false);
    }
    for kind in KINDS {
        for (number, shape) in shapes(kind).iter().enumerate() {
            compare::say!("{:<44}{:>29}{}", format!("at most, {} piece {number}", word(kind)), "", three(at_most(shape)));
        }
        compare::say!("{:<44}{:>58}{}", format!("at most, {} pair", word(kind)), "", three(at_most_of_a_pair(kind)));
    }
}

fn word(kind: Kind) -> &'static str {
    match kind {
        Kind::PointTriangle => "pt",
        Kind::EdgeEdge => "ee",
    }
}

fn three(cost: Cost) -> String {
    format!("{:>9}{:>8}{:>12}", cost.calls, cost.asked, cost.determinants)
}

fn row(name: &str, tally: &Tally, pairs: bool) {
    let mean = |sum: u64| if tally.pieces == 0 { 0.0 } else { sum as f64 / tally.pieces as f64 };
    let means = [tally.sum.calls, tally.sum.asked, tally.sum.determinants].map(mean);
    let pair = if pairs { three(tally.most_of_a_pair) } else { String::new() };
    compare::say!(
        "{name:<24}{:>10}{:>10}{:>9.1}{:>8.1}{:>12.1}{}{pair}",
        tally.pieces,
        tally.touch,
        means[0],
        means[1],
        means[2],
        three(tally.most)
    );
}
