//! usage: wrong-report [MISTAKE [ROOM]] < SCENE
//! The report of a program that is wrong in one respect. Without a word it tells which mistakes it knows. ROOM is
//! 3,072 where it is not given.

use compare::report::mistakes::{self, Right};
use compare::running::streams::{input, print};
use compare::say;
use compare::scene::REPORT_ROOM;
use std::process::exit;

fn main() {
    let words: Vec<String> = std::env::args().skip(1).collect();
    let Some(key) = words.first() else {
        mistakes::all().iter().for_each(|mistake| say!("{:24} {}", mistake.key, mistake.says));
        return;
    };
    let Some(mistake) = mistakes::find(key) else {
        eprintln!("no mistake is called {key}; without a word they are listed");
        exit(2);
    };
    let room = words.get(1).map_or(REPORT_ROOM, |word| word.parse().expect("ROOM is a number of pairs"));
    print(&mistake.report(&Right::of(&input(), room)));
}
