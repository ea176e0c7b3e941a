//! usage: exact-report [ROOM] < SCENE
//! The report of document 01 on a scene text, by the independent way. ROOM is 3,072 where it is not given.

use compare::running::streams::{input, print};

fn main() {
    let room = match std::env::args().nth(1) {
        Some(word) => word.parse().expect("ROOM is a number of pairs"),
        None => compare::scene::REPORT_ROOM,
    };
    print(&compare::report::report(&input(), room));
}
