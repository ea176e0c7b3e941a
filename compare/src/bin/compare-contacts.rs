//! usage: compare-contacts CONTACTS_PROGRAM [SEEDS [LAUNCHER WORDS...]]
//!        compare-contacts --exact < SCENE
//!        compare-contacts --wrong [MISTAKE] < SCENE
//! Runs the program of contacts on many scene texts, and holds what it prints, byte for byte, to the independent contacts. Ends with status 1 on
//! a difference, and where some refusal, or some piece of a kind, was never wanted. LAUNCHER is a command to put before the program, as a loader.
//! With `--exact`, the independent contacts of a scene; with `--wrong`, those of a program that makes this mistake, or the mistakes.

use compare::contacts::making::{fixed, seeded};
use compare::contacts::mistakes::{self, ALL};
use compare::contacts::printed;
use compare::running::comparing::{give_up, Comparison};
use compare::running::streams::{input, print};
use compare::running::Program;
use compare::scene::REPORT_ROOM;
use std::time::Duration;

const SEEDS: u64 = 400;
const LIMIT: Duration = Duration::from_secs(20);

fn main() {
    let words: Vec<String> = std::env::args().skip(1).collect();
    match &words[..] {
        [flag] if flag == "--exact" => print(&printed(&input(), REPORT_ROOM)),
        [flag] if flag == "--wrong" => ALL.iter().for_each(|mistake| compare::say!("{}", mistake.key())),
        [flag, key] if flag == "--wrong" => {
            let mistake = mistakes::find(key).unwrap_or_else(|| give_up("contacts", &format!("no mistake is called {key}")));
            print(&mistakes::printed(mistake, &input(), REPORT_ROOM));
        }
        [program] => compare(program, SEEDS, &[]),
        [program, seeds, launcher @ ..] => {
            compare(program, seeds.parse().unwrap_or_else(|_| give_up("contacts", &format!("{seeds} is no number"))), launcher)
        }
        [] => give_up("contacts", "usage: compare-contacts CONTACTS_PROGRAM [SEEDS [LAUNCHER WORDS...]]"),
    }
}

/// What must have been wanted: each refusal of a text, and a contact of each piece.
fn sorts() -> Vec<String> {
    let refusals = [2, 3, 4, 7, 8, 9, 10, 11, 15, 16].map(|number| format!("refused {number}"));
    let points = (0..3).map(|piece| format!("pt piece {piece}"));
    refusals.into_iter().chain(points).chain((0..4).map(|piece| format!("ee piece {piece}"))).collect()
}

fn sort(line: &str) -> String {
    let fields: Vec<&str> = line.split('\t').collect();
    match fields[0] {
        "pt" | "ee" => format!("{} piece {}", fields[0], fields[3]),
        _ => fields[..2].join(" "),
    }
}

fn compare(program: &str, seeds: u64, launcher: &[String]) {
    let command = [launcher, &[program.to_string()]].concat();
    let mut comparison = Comparison::new("contacts", Program { command, limit: LIMIT });
    let mut contacts = 0;
    for trial in fixed().into_iter().chain((0..seeds).flat_map(seeded)) {
        let wanted = printed(&trial.text, REPORT_ROOM);
        comparison.count(&wanted, sort);
        contacts += wanted.lines().count() - 1;
        comparison.hold(&trial.name, &trial.text, "scene", &wanted, |given| {
            let like = |mistake: &&mistakes::Mistake| mistakes::printed(**mistake, &trial.text, REPORT_ROOM) == given;
            ALL.iter().filter(like).collect::<Vec<_>>()
        });
    }
    comparison.must_have(&sorts());
    comparison.close(&format!("{contacts} contacts"));
}
