//! Where two reports part, and which mistake that looks like.

use crate::report::mistakes::{Mistake, Right};

/// The first line in which the two differ, counted from 1, and the line in each; 'nothing' where one has ended.
pub struct Parting {
    pub line: usize,
    pub wanted: String,
    pub got: String,
}

const NOTHING: &str = "nothing";

pub fn parting(wanted: &str, got: &str) -> Option<Parting> {
    if wanted == got {
        return None;
    }
    let (mut wanted, mut got) = (wanted.split_inclusive('\n'), got.split_inclusive('\n'));
    let mut line = 0;
    loop {
        line += 1;
        let (one, other) = (wanted.next(), got.next());
        if one != other {
            let (wanted, got) = (one.unwrap_or(NOTHING).to_string(), other.unwrap_or(NOTHING).to_string());
            return Some(Parting { line, wanted, got });
        }
    }
}

/// The mistakes that print the same, whole; or, where none does, those that part from the right report with the same
/// line, since a program may be wrong in more than one respect.
pub fn like<'a>(mistakes: &[&'a Mistake], right: &Right, got: &str) -> Vec<&'a Mistake> {
    let wanted = right.report();
    let Some(here) = parting(&wanted, got) else { return Vec::new() };
    let (mut whole, mut line) = (Vec::new(), Vec::new());
    for &mistake in mistakes {
        let report = mistake.report(right);
        if report == got {
            whole.push(mistake);
        } else if parting(&wanted, &report).is_some_and(|there| (there.line, &there.got) == (here.line, &here.got)) {
            line.push(mistake);
        }
    }
    if whole.is_empty() {
        line
    } else {
        whole
    }
}

/// What the first line that differs says by itself, for a mistake that has no name here.
pub fn in_words(parting: &Parting, wanted_report: &str) -> String {
    let (wanted, got) = (fields(&parting.wanted), fields(&parting.got));
    let said = match (wanted[0], got[0]) {
        (_, NOTHING) => "the report ends too soon",
        (NOTHING, _) => "the report goes on after its end",
        ("refused", "refused") if wanted.get(1) == got.get(1) => "the third field of a refusal",
        ("refused", "refused") => "another check came first",
        ("refused", _) => "what is refused was taken",
        (_, "refused") => "what is taken was refused",
        ("total", "total") => "a total",
        (_, "total") => "listed pairs left out",
        ("total", _) => "a pair that is not listed",
        _ if wanted.get(..3) == got.get(..3) => "a word",
        _ if wanted_report.contains(&format!("{}\t", got.get(..3).unwrap_or(&[]).join("\t"))) => "a listed pair left out",
        _ => "a line that does not belong there",
    };
    said.to_string()
}

fn fields(line: &str) -> Vec<&str> {
    line.trim_end_matches('\n').split('\t').collect()
}
