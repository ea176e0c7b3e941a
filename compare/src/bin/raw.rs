//! usage: raw [--table] [--within SECONDS] SEEDS DRIVER [WORDS...]
//! Asks the driver (driver.c, and in front of it whatever starts it) fixed questions and those of so many seeds, and holds
//! every answer, and every byte of every buffer and beside it, to what document 01 says. Ends with status 1 on a difference,
//! on a driver that fails, and where some sort of question was never asked; `--table` shows how often each was. With `--within` it asks those of the
//! seeds first, stops asking after so many seconds, and tells how many sorts it did not come to.

use compare::raw::asking;
use compare::raw::expected::Expecting;
use compare::raw::question::{calls, Answer, Question};
use compare::raw::sorts::{self, Sorts};
use std::collections::BTreeMap;
use std::io::{BufReader, BufWriter, Write};
use std::process::{exit, ChildStdin, Command, Stdio};
use std::sync::mpsc::{channel, Sender};
use std::time::{Duration, Instant};

const MOST_SHOWN: usize = 5;

/// Where a question comes from, and the question.
type Asked = (String, Question);

fn main() {
    let mut words: Vec<String> = std::env::args().skip(1).collect();
    let table = words.first().is_some_and(|word| word == "--table");
    words.drain(..table as usize);
    let within = seconds(&mut words);
    let Some((seeds, command)) = words.split_first().and_then(|(seeds, rest)| Some((seeds.parse().ok()?, rest))) else { usage() };
    let Some((program, rest)) = command.split_first() else { usage() };
    let started = Command::new(program).args(rest).stdin(Stdio::piped()).stdout(Stdio::piped()).spawn();
    let mut driver = started.unwrap_or_else(|error| {
        eprintln!("{program}: {error}");
        exit(2);
    });
    let (input, output) = (driver.stdin.take().unwrap(), driver.stdout.take().unwrap());
    let (sender, asked) = channel();
    let asking = std::thread::spawn(move || ask(seeds, within, input, sender));
    let mut comparison = Comparison::default();
    let mut output = BufReader::with_capacity(1 << 16, output);
    for (source, question) in asked {
        match Answer::read(&question, &mut output) {
            Ok(answer) => comparison.hold(&source, &question, &answer),
            Err(error) => {
                compare::say!("raw: {source}: {}: the driver gives no answer: {error}", question.in_words());
                exit(1);
            }
        }
    }
    let sent = asking.join().is_ok_and(|sent| sent.is_ok());
    if !sent || !driver.wait().is_ok_and(|status| status.success()) {
        compare::say!("raw: the driver failed");
        exit(1);
    }
    comparison.close(seeds, table, within);
}

/// The seconds behind `--within`, taken out of the words.
fn seconds(words: &mut Vec<String>) -> Option<u64> {
    words.first().filter(|word| *word == "--within")?;
    let seconds = words.get(1).and_then(|word| word.parse().ok()).unwrap_or_else(|| usage());
    words.drain(..2);
    Some(seconds)
}

fn usage() -> ! {
    eprintln!("usage: raw [--table] [--within SECONDS] SEEDS DRIVER [WORDS...]");
    exit(2);
}

/// Questions go ahead of their answers by as much as the pipes hold.
fn ask(seeds: u64, within: Option<u64>, input: ChildStdin, asked: Sender<Asked>) -> std::io::Result<()> {
    let mut input = BufWriter::with_capacity(1 << 16, input);
    let fixed = asking::fixed().into_iter().map(|question| ("fixed".to_string(), question));
    let seeded =
        (0..seeds).flat_map(|seed| asking::seeded(seed).into_iter().map(move |question| (format!("seed {seed}"), question)));
    let questions: Box<dyn Iterator<Item = Asked>> =
        if within.is_some() { Box::new(seeded.chain(fixed)) } else { Box::new(fixed.chain(seeded)) };
    let until = within.map(|seconds| Instant::now() + Duration::from_secs(seconds));
    for (source, question) in questions {
        if until.is_some_and(|until| Instant::now() >= until) {
            break;
        }
        let written = question.written();
        // whoever compares may have stopped at a difference
        if asked.send((source, question)).is_err() {
            return Ok(());
        }
        input.write_all(&written)?;
    }
    input.flush()
}

struct Comparison {
    expecting: Expecting,
    calls: BTreeMap<String, usize>,
    sorts: Sorts,
    differences: usize,
}

impl Default for Comparison {
    fn default() -> Comparison {
        let calls = calls().into_iter().map(|call| (call.name(), 0)).collect();
        Comparison { expecting: Expecting::default(), calls, sorts: sorts::none_yet(), differences: 0 }
    }
}

impl Comparison {
    fn hold(&mut self, source: &str, question: &Question, answer: &Answer) {
        let wanted = self.expecting.answer(question);
        *self.calls.get_mut(&question.call.name()).unwrap() += 1;
        for sort in sorts::of(question, &wanted) {
            *self.sorts.entry(sort).or_default() += 1;
        }
        let Some(difference) = answer.difference(&wanted) else { return };
        self.differences += 1;
        compare::say!("raw: {source}: {}: it {difference}", question.in_words());
        if self.differences == MOST_SHOWN {
            compare::say!("raw: {MOST_SHOWN} differences, and nothing further is asked");
            exit(1);
        }
    }

    fn close(&self, seeds: u64, table: bool, within: Option<u64>) {
        if table {
            self.sorts.iter().for_each(|(sort, count)| compare::say!("{count:>8} {sort}"));
        }
        self.calls.iter().for_each(|(call, count)| compare::say!("{count:>8} questions to {call}"));
        let never: Vec<&String> = self.sorts.iter().filter(|(_, count)| **count == 0).map(|(sort, _)| sort).collect();
        if within.is_none() {
            never.iter().for_each(|sort| compare::say!("raw: never asked: {sort}"));
        }
        let (questions, sorts, unasked) = (self.calls.values().sum::<usize>(), self.sorts.len(), never.len());
        let (differences, asked) = (self.differences, format!("{questions} questions of {sorts} sorts ({unasked} never asked)"));
        let seeds = within.map_or(format!("{seeds} seeds"), |seconds| format!("within {seconds} s"));
        compare::say!("raw: {asked}, {seeds}; each answer and every lent byte compared: {differences} differences");
        let missed = questions == 0 || within.is_none() && !never.is_empty();
        exit((differences > 0 || missed) as i32);
    }
}
