//! usage: compare-series SERIES_PROGRAM [SEEDS [LAUNCHER WORDS...]]
//!        compare-series --exact [ROOM] < SERIES
//!        compare-series --wrong [MISTAKE] < SERIES
//!        compare-series --sleeve
//! Runs the program of series on many texts, and holds what it prints, byte for byte, to the independent program. Ends with status 1 on a difference,
//! and where some refusal or some sort of line was never wanted. LAUNCHER is a command to put before the program, as a loader. With `--exact`, what
//! the independent program prints; with `--wrong`, what a program prints that makes this mistake, or the mistakes; with `--sleeve`, scenes/series/sleeve.series.

use compare::running::comparing::{give_up, Comparison};
use compare::running::streams::{input, print};
use compare::running::Program;
use compare::scene::REPORT_ROOM;
use compare::series::making::{everywhere, fixed, seeded, Trial};
use compare::series::mistakes::{self, Right};
use compare::series::{printed, sleeve, write};
use std::time::Duration;

const SEEDS: u64 = 300;
const LIMIT: Duration = Duration::from_secs(20);

fn main() {
    let words: Vec<String> = std::env::args().skip(1).collect();
    match &words[..] {
        [flag] if flag == "--exact" => print(&printed(&input(), REPORT_ROOM)),
        [flag, room] if flag == "--exact" => print(&printed(&input(), number(room))),
        [flag] if flag == "--wrong" => {
            mistakes::all().iter().for_each(|mistake| compare::say!("{}: {}", mistake.key, mistake.says))
        }
        [flag, key] if flag == "--wrong" => {
            let mistake = mistakes::find(key).unwrap_or_else(|| give_up("series", &format!("no mistake is called {key}")));
            print(&mistake.outcome(&Right::of(&input())).printed);
        }
        [flag] if flag == "--sleeve" => print(&write(&sleeve::drawn())),
        [program] => compare(program, SEEDS, &[]),
        [program, seeds, launcher @ ..] => compare(program, number(seeds), launcher),
        [] => give_up("series", "usage: compare-series SERIES_PROGRAM [SEEDS [LAUNCHER WORDS...]]"),
    }
}

fn number<T: std::str::FromStr>(word: &str) -> T {
    word.parse().unwrap_or_else(|_| give_up("series", &format!("{word} is no number")))
}

/// What must have been wanted: each refusal of a text, an entry of each kind, and more hits than the log holds.
const SORTS: [&str; 14] = [
    "refused 2", "refused 3", "refused 4", "refused 7", "refused 8", "refused 9", "refused 10", "refused 11", "refused 13",
    "refused 15", "hit pt", "hit ee", "more later", "first 0",
];

fn sort(line: &str) -> String {
    let fields: Vec<&str> = line.split('\t').collect();
    match fields[..] {
        ["hit", _, kind, ..] => format!("hit {kind}"),
        ["later", count] if count != "0" => "more later".into(),
        ["first", step] if step != "0" => "first".into(),
        _ => fields[..2].join(" "),
    }
}

fn compare(program: &str, seeds: u64, launcher: &[String]) {
    let command = [launcher, &[program.to_string()]].concat();
    let mut comparison = Comparison::new("series", Program { command, limit: LIMIT });
    let changed = everywhere().into_iter().map(|text| Trial { name: "a small series, changed".into(), text });
    for trial in fixed().into_iter().chain(changed).chain((0..seeds).flat_map(seeded)) {
        let wanted = printed(&trial.text, REPORT_ROOM);
        comparison.count(&wanted, sort);
        comparison.hold(&trial.name, &trial.text, "series", &wanted, |given| {
            let right = Right::of(&trial.text);
            let like = mistakes::all().into_iter().filter(|mistake| mistake.outcome(&right).printed == given);
            like.map(|mistake| mistake.key).collect::<Vec<String>>()
        });
    }
    comparison.must_have(&SORTS.map(String::from));
    let hits = comparison.counted("hit pt") + comparison.counted("hit ee");
    comparison.close(&format!("{hits} entries of logs"));
}
