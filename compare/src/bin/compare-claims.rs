//! usage: compare-claims CLAIMS_PROGRAM [SEEDS [LAUNCHER WORDS...]]
//!        compare-claims --answers SCENE CLAIMS
//! Runs the program of claims on many scenes and texts of claims, and holds what it prints, byte for byte, to the independent answers. Ends with
//! status 1 on a difference, and where some answer or refusal was never wanted. LAUNCHER is a command to put before the program, as a loader.
//! With `--answers`, the independent answers to two files.

use compare::claims::making::{fixed, seeded, Trial};
use compare::claims::mistakes::{self, ALL};
use compare::claims::{printed, told};
use compare::running::comparing::{give_up, read_named, OfFiles, MOST_SHOWN};
use compare::running::looks::parting;
use std::collections::BTreeMap;
use std::process::exit;

const SEEDS: u64 = 300;

/// What must have been wanted.
const WORDS: [&str; 11] = [
    "yes", "no", "refused 2", "refused 3", "refused 4", "refused 5", "refused 6", "refused 8", "refused 9", "refused 10",
    "refused 15",
];

fn main() {
    let words: Vec<String> = std::env::args().skip(1).collect();
    match &words[..] {
        [flag, scene, claims] if flag == "--answers" => {
            print!("{}", printed(&read_named("claims", scene), &read_named("claims", claims)));
        }
        [program] => compare(program, SEEDS, &[]),
        [program, seeds, launcher @ ..] => {
            compare(program, seeds.parse().unwrap_or_else(|_| give_up("claims", &format!("{seeds} is no number"))), launcher)
        }
        [] => give_up("claims", "usage: compare-claims CLAIMS_PROGRAM [SEEDS [LAUNCHER WORDS...]]"),
    }
}

fn compare(program: &str, seeds: u64, launcher: &[String]) {
    let mut comparison = OfFiles::new("claims", launcher);
    let mut texts = 0usize;
    let mut wanted_words: BTreeMap<String, usize> = BTreeMap::new();
    for trial in fixed().into_iter().chain((0..seeds).flat_map(seeded)) {
        let wanted = printed(&trial.scene, &trial.claims);
        for line in wanted.lines() {
            let word: Vec<&str> = line.split('\t').take(2).collect();
            *wanted_words.entry(word.join(" ")).or_default() += 1;
        }
        texts += 1;
        let files: [(&str, &[u8]); 2] = [("scene", &trial.scene), ("claims", &trial.claims)];
        if let Some((given, kept)) = comparison.differing(program, &files, &wanted, told(&trial.scene, &wanted)) {
            println!("claims: the answers differ, and the two texts are in {}", kept.display());
            tell(&trial, &given, &wanted);
        }
        if comparison.differences == MOST_SHOWN {
            exit(1);
        }
    }
    comparison.clear();
    let never: Vec<&&str> = WORDS.iter().filter(|word| !wanted_words.contains_key(**word)).collect();
    never.iter().for_each(|word| println!("claims: never wanted: {word}"));
    let differences = comparison.differences + never.len();
    let count = |word: &str| wanted_words.get(word).copied().unwrap_or(0);
    println!("claims: {texts} texts, {} yes and {} no, each byte compared: {differences} differences", count("yes"), count("no"));
    exit((differences > 0) as i32);
}

/// The line at which the answers part, if they do, and which mistakes part there.
fn tell(trial: &Trial, given: &str, wanted: &str) {
    match parting(wanted, given) {
        Some(parting) => println!("    at line {}: {:?} and should be {:?}", parting.line, parting.got, parting.wanted),
        None => println!("    standard error has something else"),
    }
    let prints = |mistake: &&mistakes::Mistake| mistakes::printed(**mistake, &trial.scene, &trial.claims) == given;
    println!("    it looks like {:?}", ALL.iter().filter(prints).collect::<Vec<_>>());
}
