//! usage: compare-with [--table] [--limit SECONDS] REPORT_PROGRAM [SEEDS [LAUNCHER WORDS...]]
//! Runs the report program on many texts and holds each of its reports, byte for byte, to the independent one. Of a
//! difference it keeps the text, names the first line that differs and which mistake that looks like. Ends with
//! status 1 on a difference, on a run that takes longer than its limit, and where the texts left some refusal, or
//! some two faults at once, untried; `--table` shows how often each was tried. LAUNCHER is a command to put before
//! the program, as a loader.

use compare::report::mistakes::{self, Mistake, Right};
use compare::report::trials::{self, Trial};
use compare::report::{judged, written, Judged};
use compare::running::comparing::{Folder, MOST_SHOWN};
use compare::running::looks::{in_words, like, parting};
use compare::running::{Failed, Program};
use compare::scene::refusal::{NO_ROOM, TEXT_TOO_LONG};
use compare::scene::REPORT_ROOM;
use compare::text::faults::{self, Cell, LINE_CHECKS};
use compare::verdicts::settled::WORDS;
use std::collections::BTreeMap;
use std::process::exit;
use std::time::Duration;

const SEEDS: u64 = 1_000;
const LIMIT: Duration = Duration::from_secs(20);
/// Differences that are looked for, and mistakes that are named for one.
const MOST_FOUND: usize = 40;
const MOST_NAMED: usize = 4;

fn main() {
    let mut words: Vec<String> = std::env::args().skip(1).collect();
    let table = taken(&mut words, "--table", 0).is_some();
    let limit = match taken(&mut words, "--limit", 1) {
        Some(seconds) => Duration::from_secs(number(&seconds[0])),
        None => LIMIT,
    };
    let Some((program, rest)) = words.split_first() else {
        eprintln!("usage: compare-with [--table] [--limit SECONDS] REPORT_PROGRAM [SEEDS [LAUNCHER WORDS...]]");
        exit(2);
    };
    let (seeds, launcher) = match rest.split_first() {
        Some((word, launcher)) => (number(word), launcher),
        None => (SEEDS, rest),
    };
    let mistakes = mistakes::all();
    let command = [launcher, std::slice::from_ref(program)].concat();
    let mut comparison = Comparison::new(Program { command, limit }, &mistakes);
    trials::fixed().iter().for_each(|trial| comparison.hold(trial));
    (0..seeds).flat_map(trials::seeded).for_each(|trial| comparison.hold(&trial));
    comparison.close(seeds, table);
}

/// Takes a flag, with as many words as belong to it, out of the words.
fn taken(words: &mut Vec<String>, flag: &str, more: usize) -> Option<Vec<String>> {
    let at = words.iter().position(|word| word == flag)?;
    if at + more >= words.len() {
        return None;
    }
    Some(words.drain(at..=at + more).skip(1).collect())
}

fn number(word: &str) -> u64 {
    word.parse().unwrap_or_else(|_| {
        eprintln!("{word} is no number");
        exit(2);
    })
}

struct Comparison<'a> {
    program: Program,
    folder: Folder,
    /// The mistakes that could explain everything that the program has printed since the first difference.
    suspects: Vec<&'a Mistake>,
    texts: usize,
    differences: usize,
    /// Differences that are no report, since the program failed.
    failures: usize,
    /// By word, in the order in which the total names them.
    pairs: [usize; 4],
    cells: BTreeMap<Cell, usize>,
}

impl<'a> Comparison<'a> {
    fn new(program: Program, mistakes: &'a [Mistake]) -> Comparison<'a> {
        let cells = faults::cells().into_iter().map(|cell| (cell, 0)).collect();
        let folder = Folder::new("run");
        Comparison {
            program,
            folder,
            suspects: mistakes.iter().collect(),
            texts: 0,
            differences: 0,
            failures: 0,
            pairs: [0; 4],
            cells,
        }
    }

    fn hold(&mut self, trial: &Trial) {
        let judged = judged(&trial.text, REPORT_ROOM);
        self.count(&judged, &trial.text);
        self.texts += 1;
        let wanted = written(&judged);
        match self.program.run(&trial.text, 1 + self.texts % 3) {
            Ok(bytes) => self.compare(trial, &wanted, &String::from_utf8_lossy(&bytes)),
            Err(Failed::ToStart(fault)) => {
                eprintln!("stopped: the program cannot be run: {fault}");
                exit(2);
            }
            Err(Failed::ToEnd) => {
                self.show(trial, &format!("it had not ended after {} s", self.program.limit.as_secs()));
                compare::say!(
                    "stopped after {} texts: a program that does not end is not run again (--limit gives it more time)",
                    self.texts
                );
                exit(1);
            }
            Err(Failed::Otherwise(fault)) => {
                self.show(trial, &fault);
                self.failures += 1;
                self.suspects.clear();
            }
        }
        if self.differences == MOST_FOUND {
            self.sum_up();
            compare::say!(
                "stopped after {} texts: {MOST_FOUND} differences are enough, and no further text is tried",
                self.texts
            );
            exit(1);
        }
    }

    fn count(&mut self, judged: &Judged, text: &[u8]) {
        let listed = judged.as_deref().unwrap_or_default();
        for (pairs, wanted) in self.pairs.iter_mut().zip(WORDS) {
            *pairs += listed.iter().filter(|(_, word)| *word == wanted).count();
        }
        for cell in faults::reached(text) {
            *self.cells.get_mut(&cell).expect("only cells that exist are reached") += 1;
        }
    }

    fn compare(&mut self, trial: &Trial, wanted: &str, got: &str) {
        let parting = parting(wanted, got);
        if parting.is_none() && self.differences == 0 {
            return;
        }
        let right = Right::of(&trial.text, REPORT_ROOM);
        if let Some(parting) = parting {
            let line = format!("line {}: wanted {:?}, got {:?}", parting.line, parting.wanted, parting.got);
            let like = like(&self.suspects, &right, got);
            let looks = if like.is_empty() { in_words(&parting, wanted) } else { named(&like, "\n          or: ") };
            self.show(trial, &format!("{line}\n  looks like: {looks}"));
        }
        self.suspects.retain(|mistake| mistake.report(&right) == got);
    }

    fn show(&mut self, trial: &Trial, what: &str) {
        self.differences += 1;
        if self.differences > MOST_SHOWN {
            return;
        }
        let kept_as = match self.folder.keep(&format!("difference-{}.scene", self.differences), &trial.text) {
            Ok(kept) => kept.display().to_string(),
            Err(error) => error.to_string(),
        };
        compare::say!("DIFFERENT: {} (kept as {kept_as})\n  {what}", trial.name);
    }

    fn sum_up(&self) {
        if self.failures > 0 {
            compare::say!("in {} of {} the program failed: nothing was compared there", self.failures, self.differences);
        }
        match &self.suspects[..] {
            [] => compare::say!("no single mistake known here explains them all"),
            like => compare::say!("all explained by: {}", named(like, "\n              or: ")),
        }
    }

    fn close(&self, seeds: u64, table: bool) {
        if table {
            self.table();
        }
        let [hits, misses, touch, apart] = self.pairs;
        let empty: Vec<&Cell> = self.cells.iter().filter(|(_, &count)| count == 0).map(|(cell, _)| cell).collect();
        if self.differences > 0 {
            self.sum_up();
        }
        compare::say!(
            "compared {} reports, {seeds} seeds among them: {hits} hits, {misses} misses, {touch} touch, {apart} apart; {} of {} \
             faults and pairs of faults tried, {} differences",
            self.texts,
            self.cells.len() - empty.len(),
            self.cells.len(),
            self.differences
        );
        if !empty.is_empty() {
            compare::say!("not tried: {empty:?}; more seeds try more");
        }
        exit((self.differences > 0 || !empty.is_empty()) as i32);
    }

    /// How often each number was given, and with which other fault in the same line, in a later one, in the whole.
    fn table(&self) {
        let all = [&[TEXT_TOO_LONG], &LINE_CHECKS[..], &[NO_ROOM]].concat();
        let row = |cells: &dyn Fn(u64) -> Cell| {
            let counts = all.iter().map(|&other| self.cells.get(&cells(other)).map_or("-".to_string(), usize::to_string));
            counts.map(|count| format!("{count:>6}")).collect::<String>()
        };
        compare::say!("given   with{}", all.iter().map(|number| format!("{number:>6}")).collect::<String>());
        for &given in &all {
            let alone = self.cells[&Cell::Given(given)];
            compare::say!("{given:>2}: {alone:>5} in all");
            compare::say!("   in one line{}", row(&|other| Cell::InOneLine(given, other)));
            compare::say!("  a later line{}", row(&|other| Cell::InTwoLines(given, other)));
            compare::say!("     the whole{}", row(&|other| Cell::InTheWhole(given, other)));
        }
    }
}

fn named(mistakes: &[&Mistake], between: &str) -> String {
    let words: Vec<String> = mistakes.iter().take(MOST_NAMED).map(|m| format!("{} ({})", m.says, m.key)).collect();
    words.join(between)
}
