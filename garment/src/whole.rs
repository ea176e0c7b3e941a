//! The whole garment in one process: pairs found, judged and written down, row by row.

use crate::boxes;
use crate::choice::Choice;
use crate::fault::Fault;
use crate::judge::{Counts, Found, Judge, Question, Which};
use crate::mark::Marked;
use crate::mesh::Mesh;
use crate::pairs::Pair;
use crate::progress::Bar;
use crate::report::{pairs_of, About, Form, Row, Sums, Tally, Writer, WORDS};
use crate::whereabouts::{self, ByNames, Time, Whereabouts};
use crate::work::in_turn;
use makhnodri::Settled;
use std::io::{self, Write};
use std::ops::Range;
use std::sync::Mutex;

/// What is asked beside the words, or the contacts, of all listed pairs.
#[derive(Default)]
pub struct Beside {
    pub choice: Option<Choice>,
    pub whereabouts: Option<Whereabouts>,
    pub marked: bool,
}

/// A mesh with what is asked of it.
pub struct Asked<'a> {
    pub mesh: &'a Mesh,
    pub about: &'a About,
    pub form: &'a Form,
    pub which: Which,
    pub beside: &'a Beside,
}

/// What a report told: its totals, how many pairs were left out, and what is to be marked.
#[derive(Debug, Default, PartialEq)]
pub struct Told {
    pub tally: Tally,
    pub left: u64,
    pub marked: Vec<Marked>,
    by_names: ByNames,
}

impl Told {
    pub fn join(&mut self, other: Told) {
        self.tally.join(other.tally);
        self.left += other.left;
        self.marked.extend(other.marked);
        other.by_names.into_iter().for_each(|(sets, tally)| self.by_names.entry(sets).or_default().join(tally));
    }
}

/// What comes of a piece: its lines, and what they told.
#[derive(Default)]
pub struct Judged {
    pub lines: Vec<u8>,
    pub told: Told,
    /// How much of the room for its pairs they took.
    filled: f64,
}

/// Writes the report, and hands back its totals.
pub fn report(mesh: &Mesh, about: &About, form: &Form, threads: usize, bar: &mut Bar, out: impl Write) -> Result<Tally, Fault> {
    let asked = Asked { mesh, about, form, which: Which::Listed, beside: &Beside::default() };
    told(&asked, &Judge::new(mesh)?, threads, bar, out).map(|told| told.tally)
}

/// The same of what is asked beside it too.
pub fn told(asked: &Asked, judge: &Judge, threads: usize, bar: &mut Bar, out: impl Write) -> Result<Told, Fault> {
    let mut writer = Writer::begin(asked.form, asked.about, out).map_err(unwritten)?;
    let mut told = Told::default();
    let cutter = Mutex::new(judge.cutter(threads));
    let cut = || cutter.lock().expect("nobody panics who holds it");
    let work = |some: Range<usize>| {
        let judged = judged(asked, judge, some.clone())?;
        cut().learn(&some, judged.filled);
        Ok((some.end, judged))
    };
    in_turn(
        threads,
        || cut().next(),
        work,
        |judged: Result<(usize, Judged), Fault>| {
            let (end, judged) = judged?;
            told.join(judged.told);
            bar.make_room();
            writer.lines(&judged.lines).map_err(unwritten)?;
            if bar.follows_lines() {
                writer.flush().map_err(unwritten)?;
            }
            bar.draw(end, judge.rows(), told.tally.listed());
            Ok(())
        },
    )?;
    bar.make_room();
    writer.end_with(&asked.sums(&told), told.tally).map_err(unwritten)?;
    Ok(told)
}

/// The lines of a stretch of rows, and what they told.
pub fn judged(asked: &Asked, judge: &Judge, rows: Range<usize>) -> Result<Judged, Fault> {
    let mut judged = Judged::default();
    let Counts { tally, left, filled } = judge.each(rows, &asked.question(), |Found { list, words, contacts }| {
        if asked.wants_contacts() {
            pairs_of(list, words).zip(contacts).for_each(|((pair, word), &row)| judged.contact(asked, pair, word, row));
        } else {
            asked.form.lines(list, words, &mut judged.lines);
        }
    })?;
    (judged.told.tally, judged.told.left, judged.filled) = (tally, left, filled);
    Ok(judged)
}

impl Asked<'_> {
    /// Where a time or a place is told, the call for contacts is asked, which has the words too.
    fn wants_contacts(&self) -> bool {
        self.form.contacts || self.beside.marked || self.beside.whereabouts.is_some()
    }

    /// Pairs of the words that have a line are handed back, those that are marked, and all where there are totals by names.
    fn question(&self) -> Question<'_> {
        let named = self.beside.whereabouts.is_some();
        let marked = |word: Settled| self.beside.marked && matches!(word, Settled::Hit | Settled::Touch);
        let wanted = WORDS.map(|word| named || marked(word) || self.shows(word));
        Question { which: self.which, choice: self.beside.choice.as_ref(), wanted, contacts: self.wants_contacts() }
    }

    pub fn sums(&self, told: &Told) -> Sums {
        Sums {
            by_names: self.beside.whereabouts.as_ref().map(|whereabouts| whereabouts.sums(&told.by_names)),
            left: self.beside.choice.as_ref().map(|_| told.left),
            near: self.which == Which::Near,
        }
    }

    /// Whether a pair of this word has a line.
    fn shows(&self, word: Settled) -> bool {
        if self.form.contacts {
            word == Settled::Hit
        } else {
            self.form.shown.contains(&word)
        }
    }

    /// What the line of a pair has before its end.
    fn tail(&self, whereabouts: &Whereabouts, pair: Pair, word: Settled, row: Row) -> String {
        let (hit, [one, other]) = (word == Settled::Hit, boxes::of_pair(self.mesh, pair));
        let place = if hit { whereabouts::of_hit(self.mesh, pair, row) } else { whereabouts::between(&one, &other) };
        let time = if self.form.contacts { Time::InLine } else { Time::Told(hit.then_some(row[1])) };
        whereabouts.tail(self.mesh, pair, place, time, self.form.json)
    }
}

impl Judged {
    /// A pair with its word and, where it is hit, its contact.
    fn contact(&mut self, asked: &Asked, pair: Pair, word: Settled, row: Row) {
        self.told.marked.extend(Marked::of(pair, word, row[1]).filter(|_| asked.beside.marked));
        let whereabouts = asked.beside.whereabouts.as_ref();
        if let Some(whereabouts) = whereabouts {
            self.told.by_names.entry(whereabouts.sets(pair)).or_default().add(word);
        }
        if asked.shows(word) {
            let tail = whereabouts.map_or(String::new(), |told| asked.tail(told, pair, word, row));
            if asked.form.contacts {
                asked.form.contact_with(pair, row, &tail, &mut self.lines);
            } else {
                asked.form.line_with(pair, word, &tail, &mut self.lines);
            }
        }
    }
}

pub fn unwritten(error: io::Error) -> Fault {
    Fault::new(format!("the report could not be written: {error}"))
}
