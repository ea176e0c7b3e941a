//! A drape of many frames: one grid for all, each step from a frame to the next judged over its near pairs, and the log that keeps the first cause.

use crate::before;
use crate::choice::Choice;
use crate::fault::Fault;
use crate::frames::Frames;
use crate::judge::{Answer, Judge, Question, Which};
use crate::mark::Marked;
use crate::mesh::Mesh;
use crate::pairs::Pair;
use crate::progress::Bar;
use crate::report::{About, Form, Row, Sums, Tally, WORDS};
use crate::rounding::Grid;
use crate::whereabouts::{self, ByNames, Time, Whereabouts};
use crate::work::{in_order, stretch};
use makhnodri::{Settled, LOG_LIMIT};
use std::io::Write;

/// What a series is asked for.
pub struct Asked<'a> {
    /// The mesh, at any time: its faces, and its edges.
    pub mesh: &'a Mesh,
    pub choice: Option<&'a Choice>,
    pub whereabouts: Option<&'a Whereabouts>,
    pub form: &'a Form,
    pub marked: bool,
    pub sewn: bool,
    pub threads: usize,
}

impl Asked<'_> {
    /// Hits are handed back; where names are told all pairs, and where a mesh is marked touches too.
    fn question(&self) -> Question<'_> {
        let named = self.whereabouts.is_some();
        let wanted = |word: Settled| named || word == Settled::Hit || (self.marked && word == Settled::Touch);
        Question { which: Which::Near, choice: self.choice, wanted: WORDS.map(wanted), contacts: named || self.marked }
    }
}

/// A hit of the log, and what its line has before its end.
#[derive(Clone, Debug, PartialEq)]
pub struct Hit {
    /// Counted from 1.
    pub step: usize,
    pub pair: Pair,
    pub tail: String,
}

/// A step whose mesh is to be shown.
#[derive(Debug, PartialEq)]
pub struct Shown {
    pub mesh: Mesh,
    pub grid: Grid,
    pub marked: Vec<Marked>,
}

/// What came of a step.
#[derive(Default)]
struct Step {
    number: usize,
    /// The first hits, as many as a log has room for.
    hits: Vec<Hit>,
    tally: Tally,
    left: u64,
    by_names: ByNames,
    /// The farthest move, in edge lengths.
    moved: f64,
    sewn: u64,
    marked: Vec<Marked>,
    shown: Option<Shown>,
}

/// The first 64 hits of the series with their steps, in their order; later ones are counted, and none is written over.
#[derive(Debug, Default, PartialEq)]
pub struct Log {
    pub hits: Vec<Hit>,
    pub later: u64,
    pub tally: Tally,
    pub left: u64,
    by_names: ByNames,
    /// The first step with a hit, counted from 1; 0 where there is none.
    pub first: usize,
    /// The farthest move of a step, in edge lengths, and that step.
    pub farthest: (f64, usize),
    /// The most vertices that stood for another in a step.
    pub sewn: u64,
    /// The step with the first hit, or the last one.
    pub shown: Option<Shown>,
}

impl Log {
    fn add(&mut self, step: Step) {
        let room = LOG_LIMIT - self.hits.len();
        let hits = step.tally.of(Settled::Hit);
        self.hits.extend(step.hits.into_iter().take(room));
        self.later += hits - hits.min(room as u64);
        self.tally.join(step.tally);
        self.left += step.left;
        step.by_names.into_iter().for_each(|(sets, tally)| self.by_names.entry(sets).or_default().join(tally));
        self.sewn = self.sewn.max(step.sewn);
        if self.first == 0 {
            self.first = if hits > 0 { step.number } else { 0 };
            self.shown = step.shown;
        }
        if step.moved > self.farthest.0 {
            self.farthest = (step.moved, step.number);
        }
    }
}

/// Steps several at a time; where there are fewer of them than threads, each on several.
pub fn judged(asked: &Asked, frames: &Frames, bar: &mut Bar) -> Result<Log, Fault> {
    let steps = frames.steps();
    let within = (asked.threads / steps).max(1);
    let mut log = Log::default();
    in_order(
        steps,
        asked.threads.min(steps),
        |at| step(asked, frames, at, within),
        |at, step| {
            log.add(step?);
            bar.draw(at + 1, steps, log.tally.listed());
            Ok(())
        },
    )?;
    Ok(log)
}

fn step(asked: &Asked, frames: &Frames, at: usize, threads: usize) -> Result<Step, Fault> {
    let (mut mesh, grid) = frames.of_step(asked.mesh, at, asked.sewn)?;
    frames.behind(at);
    let moved = before::farthest_move(&mesh).map_or(0.0, |(_, lengths)| lengths);
    let mut step = Step { number: at + 1, moved, sewn: mesh.seams(), ..Step::default() };
    let judge = Judge::sparing(&mut mesh, asked.marked)?;
    let question = asked.question();
    let (rows, length) = (judge.rows(), judge.length(threads));
    in_order(
        rows.div_ceil(length),
        threads,
        |piece| judge.asked(stretch(piece, length, rows), &question),
        |_, answer| {
            step.take(asked, judge.mesh(), &grid, answer?);
            Ok::<(), Fault>(())
        },
    )?;
    drop(judge);
    if asked.marked && (at + 1 == frames.steps() || step.tally.of(Settled::Hit) > 0) {
        step.shown = Some(Shown { mesh, grid, marked: std::mem::take(&mut step.marked) });
    }
    Ok(step)
}

impl Step {
    fn take(&mut self, asked: &Asked, mesh: &Mesh, grid: &Grid, answer: Answer) {
        let Answer { told, contacts, tally, left } = answer;
        self.tally.join(tally);
        self.left += left;
        let contacts = contacts.into_iter().chain(std::iter::repeat(Row::default()));
        for ((pair, word), row) in told.into_iter().zip(contacts) {
            if let Some(told) = asked.whereabouts {
                self.by_names.entry(told.sets(pair)).or_default().add(word);
            }
            self.marked.extend(Marked::of(pair, word, row[1]).filter(|_| asked.marked));
            if word == Settled::Hit && self.hits.len() < LOG_LIMIT {
                let place = whereabouts::of_hit(mesh, pair, row);
                let (time, json) = (Time::Told(Some(row[1])), asked.form.json);
                let tail = asked.whereabouts.map(|told| told.tail_on(grid, mesh, pair, place, time, json));
                self.hits.push(Hit { step: self.number, pair, tail: tail.unwrap_or_default() });
            }
        }
    }
}

/// The log and its totals, in the lines of a series of a scene, or the same as JSON.
pub fn write(log: &Log, about: &About, frames: usize, asked: &Asked, out: &mut impl Write) -> std::io::Result<()> {
    let sums = Sums {
        by_names: asked.whereabouts.map(|told| told.sums(&log.by_names)),
        left: asked.choice.map(|_| log.left),
        near: true,
    };
    let foot = asked.form.foot_with(&sums, log.tally);
    if !asked.form.json {
        for Hit { step, pair: Pair { kind, first, second }, tail } in &log.hits {
            writeln!(out, "hit\t{step}\t{kind}\t{first}\t{second}{tail}")?;
        }
        return write!(out, "later\t{}\n{foot}first\t{}\n", log.later, log.first);
    }
    let line = |Hit { step, pair: Pair { kind, first, second }, tail }: &Hit| {
        format!("{{\"step\":{step},\"kind\":\"{kind}\",\"first\":{first},\"second\":{second}{tail}}}")
    };
    let hits: Vec<String> = log.hits.iter().map(line).collect();
    // the foot closes the list of lines and the whole, and here neither ends with it
    let foot = foot.trim_start_matches("\n],\n").trim_end_matches("}\n");
    let (mesh, hits, later, first) = (about.json(), hits.join(",\n"), log.later, log.first);
    writeln!(
        out,
        "{{\"mesh\":{mesh},\n\"frames\":{frames},\n\"hits\":[\n{hits}\n],\n\"later\":{later},\n{foot},\n\"first\":{first}}}"
    )
}
