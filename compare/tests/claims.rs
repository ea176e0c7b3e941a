//! Claims by document 02, §11: what the document says with numbers, that true claims are about pieces that meet, and that each mistake is noticed.

use compare::claims::making::{fixed, own_weights, point_on_point, seeded, true_weights, Trial};
use compare::claims::mistakes::{self, ALL};
use compare::claims::{printed, yes, WEIGHT_LIMIT};
use compare::list::listing::boxes_meet;
use compare::making::generate;
use compare::making::kept;
use compare::scene::all_pairs;
use compare::scene::pieces::pieces;
use compare::text;
use compare::verdicts::verdict::touches;

const SEEDS: u64 = 120;

fn trials() -> impl Iterator<Item = Trial> {
    fixed().into_iter().chain((0..SEEDS).flat_map(seeded))
}

/// Document 01: 'Case 1, piece 1: weights 2, 2 against 2, 0, 1, 1.'
#[test]
fn the_documents_weights_are_answered_yes() {
    let scene = text::write(&compare::making::cases::shown()[0].scene);
    let of = |weights: &str| printed(scene.as_bytes(), format!("pt\t3\t0\t1\t{weights}\n").as_bytes());
    assert_eq!(of("2\t2\t2\t0\t1\t1"), "yes\n");
    assert_eq!(of("0\t0\t0\t0\t0\t0"), "no\n");
    for weights in ["3\t2\t2\t0\t1\t1", "2\t2\t2\t1\t1\t1", "2\t2\t2\t0\t1\t2", "2\t2\t1\t1\t1\t1", "1\t1\t1\t0\t1\t1"] {
        assert_eq!(of(weights), "no\n", "{weights}");
    }
    assert_eq!(of("1099511627776\t1099511627776\t1099511627776\t0\t549755813888\t549755813888"), "yes\n");
    assert_eq!(of("1099511627778\t1099511627778\t1099511627778\t0\t549755813889\t549755813889"), "no\n");
    assert_eq!(of("2\t2\t2\t0\t1\t10000000000000"), "refused\t9\t1\n");
}

/// A yes means that the piece truly meets: elimination finds weights too, and the boxes meet.
#[test]
fn a_yes_means_that_the_piece_meets() {
    let (mut yeses, mut singular) = (0, 0);
    for seed in 0..60 {
        let scene = generate::scene(seed);
        for pair in all_pairs(&scene).into_iter().filter(|pair| !pair.shares_a_vertex(&scene)).take(80) {
            for piece in pieces(&scene, pair) {
                let Some(weights) = true_weights(&piece) else { continue };
                assert!(yes(&piece, weights), "{piece:?} {weights:?}");
                assert!(touches(&piece) && boxes_meet(&scene, pair));
                yeses += 1;
                singular += own_weights(&piece).is_none() as usize;
            }
        }
    }
    assert!(yeses > 500 && singular > 50, "{yeses} {singular}");
}

/// How often a hit's own weights, in lowest terms, may be claimed: docs/DECISIONS.md has the numbers.
#[test]
fn own_weights_are_counted() {
    let (mut hits, mut light) = (0u64, 0u64);
    for seed in 0..300 {
        let scene = generate::scene(seed);
        for pair in all_pairs(&scene).into_iter().filter(|pair| !pair.shares_a_vertex(&scene)).take(200) {
            for weights in pieces(&scene, pair).iter().filter_map(own_weights) {
                hits += 1;
                light += weights.iter().all(|&weight| weight <= WEIGHT_LIMIT as u128) as u64;
            }
        }
    }
    println!("{light} of {hits} hits have weights of at most 2^40");
    assert!(light > 0 && light < hits);
}

#[test]
fn each_mistake_is_noticed() {
    let mut unnoticed = ALL.to_vec();
    let mut yes_no_refused = [0; 3];
    for trial in trials() {
        let right = printed(&trial.scene, &trial.claims);
        let place = ["yes", "no", "refused"].iter().position(|word| right.starts_with(word));
        place.into_iter().for_each(|place| yes_no_refused[place] += 1);
        unnoticed.retain(|&mistake| mistakes::printed(mistake, &trial.scene, &trial.claims) == right);
    }
    assert!(unnoticed.is_empty(), "not noticed: {unnoticed:?}");
    assert!(yes_no_refused.iter().all(|&count| count > 20), "{yes_no_refused:?}");
}

/// Each refusal that a text of claims can have, alone and beside another, was tried.
#[test]
fn each_refusal_is_tried() {
    let mut tried = [0; 16];
    for trial in trials() {
        let right = printed(&trial.scene, &trial.claims);
        if let Some(rest) = right.strip_prefix("refused\t") {
            tried[rest.split('\t').next().unwrap().parse::<usize>().unwrap()] += 1;
        }
    }
    for number in [2, 3, 4, 5, 6, 8, 9, 10, 15] {
        assert!(tried[number] > 0, "{number} was never given: {tried:?}");
    }
}

/// Points that stand on one another are claimed, in singular pieces too.
#[test]
fn points_on_points() {
    let found = (0..60).map(generate::scene).any(|scene| {
        let pairs = all_pairs(&scene).into_iter().filter(|pair| !pair.shares_a_vertex(&scene));
        pairs.flat_map(|pair| pieces(&scene, pair)).any(|piece| own_weights(&piece).is_none() && point_on_point(&piece).is_some())
    });
    assert!(found);
}

/// The claims beside the example scenes have their answers, and the page tells of each.
#[test]
fn the_example_claims_have_their_answers() {
    let page = std::fs::read_to_string(kept::folder().join("README.md")).unwrap();
    let mut found = 0;
    for (name, path) in kept::scenes() {
        let Ok(claims) = std::fs::read(path.with_extension("claims")) else { continue };
        let wanted = std::fs::read_to_string(path.with_extension("answers")).unwrap();
        assert_eq!(printed(&std::fs::read(&path).unwrap(), &claims), wanted, "{name}");
        assert!(page.contains(&format!("- {name}: ")), "{name} has no line");
        found += 1;
    }
    assert_eq!(found, page.lines().filter(|line| line.starts_with("- ")).count());
}

/// What docs/FORMAT.md says of lines of claims is what is answered beside the scene that it shows.
#[test]
fn the_page_tells_of_claims() {
    let page = std::fs::read_to_string(concat!(env!("CARGO_MANIFEST_DIR"), "/../docs/FORMAT.md")).unwrap();
    let part = page.split("## A partner's claims").nth(1).unwrap().split("\n## ").next().unwrap();
    let scene = compare::making::cases::PRINTED_SCENE.as_bytes();
    let answer = |line: &str| printed(scene, format!("{line}\n").as_bytes());
    let mut held = 0;
    for row in part.lines().filter(|row| row.starts_with("| `") && row.contains('>')) {
        let cells: Vec<&str> = row.split(" | ").collect();
        let line = cells[0].trim_start_matches("| ").trim_matches('`').replace('>', "\t");
        let wanted = match cells[1] {
            "no" => "no\n".to_string(),
            number => format!("refused\t{number}\t1\n"),
        };
        assert_eq!(answer(&line), wanted, "{row}");
        held += 1;
    }
    for row in part.lines().filter(|row| row.starts_with("    pt\t")) {
        let (line, word) = row.trim_start().rsplit_once('\t').unwrap();
        assert_eq!(answer(line), format!("{word}\n"), "{row}");
        held += 1;
    }
    assert_eq!(held, 11);
}
