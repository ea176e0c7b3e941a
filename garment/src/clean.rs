//! Whether a mesh is clean at the start: whether no edge is through a triangle there.

use crate::choice::Choice;
use crate::fault::Fault;
use crate::judge::{Judge, Through};
use crate::mesh::Mesh;
use crate::progress::Bar;
use crate::report::{About, Form};
use crate::whereabouts::{json_names, plain_names, Whereabouts};
use crate::work::{in_order, stretch};
use std::collections::BTreeMap;
use std::io::Write;

/// How many edges are through a triangle, each with each counted, and the first of them.
#[derive(Clone, Copy, Debug, Default, PartialEq, Eq)]
pub struct Pierced {
    pub count: u64,
    pub first: Option<Through>,
}

impl Pierced {
    pub fn add(&mut self, found: &[Through]) {
        self.count += found.len() as u64;
        self.first = self.first.or(found.first().copied());
    }

    /// With those of other rows.
    pub fn join(&mut self, other: Pierced) {
        self.count += other.count;
        self.first = [self.first, other.first].into_iter().flatten().min();
    }

    /// What it means for whoever reads a report of this start; with `chosen` it speaks of some pairs only.
    pub fn words(&self, what: &str, chosen: bool) -> String {
        let of = if chosen { ", of what is not left out" } else { "" };
        let Some(Through { edge, triangle }) = self.first else {
            return format!("{what} is clean: no edge is through a triangle there{of}");
        };
        format!(
            "{what} is pierced: {} times an edge is through a triangle there{of}, first edge {edge} through triangle {triangle}; a report tells what the \
             motion adds, and says nothing of what was there before it",
            self.count
        )
    }
}

/// All that are through each other, in rising order, a piece at a time.
pub fn at_start(
    judge: &Judge,
    choice: Option<&Choice>,
    threads: usize,
    bar: &mut Bar,
    mut take: impl FnMut(&[Through]) -> Result<(), Fault>,
) -> Result<Pierced, Fault> {
    let (rows, length) = (judge.edge_rows(), judge.length(threads));
    let count = rows.div_ceil(length);
    let mut pierced = Pierced::default();
    let work = |piece| judge.pierced(stretch(piece, length, rows), choice);
    in_order(count, threads, work, |piece, found| {
        let found = found?;
        pierced.add(&found);
        take(&found)?;
        bar.draw(piece + 1, count, pierced.count);
        Ok(())
    })?;
    judge.let_go();
    Ok(pierced)
}

/// What is through each other in a frame, in rising order, and how often that is so of what is left out.
#[derive(Debug, Default, PartialEq)]
pub struct Found {
    pub kept: Vec<Through>,
    pub left: u64,
}

impl Found {
    /// Of one frame.
    pub fn of(judge: &Judge, choice: Option<&Choice>, threads: usize, bar: &mut Bar) -> Result<Found, Fault> {
        let mut found = Found::default();
        at_start(judge, None, threads, bar, |some| {
            found.take(some, choice);
            Ok(())
        })?;
        Ok(found)
    }

    fn take(&mut self, some: &[Through], choice: Option<&Choice>) {
        let before = self.kept.len();
        self.kept.extend(some.iter().filter(|through| choice.is_none_or(|choice| choice.keeps_through(**through))));
        self.left += (some.len() + before - self.kept.len()) as u64;
    }

    pub fn pierced(&self) -> Pierced {
        Pierced { count: self.kept.len() as u64, first: self.kept.first().copied() }
    }
}

/// What is told of a frame beside its lines.
pub struct Told<'a> {
    pub mesh: &'a Mesh,
    pub about: &'a About,
    /// Whether what is left out is told.
    pub chosen: bool,
    pub whereabouts: Option<&'a Whereabouts>,
}

/// How often what has the one names is through what has the others.
type Sums = Vec<([Vec<String>; 2], u64)>;

impl Told<'_> {
    fn tail(&self, through: Through, json: bool) -> String {
        self.whereabouts.map_or(String::new(), |told| told.tail_through(self.mesh, through, json))
    }

    fn sums(&self, found: &Found) -> Option<Sums> {
        let told = self.whereabouts?;
        let mut by_names: BTreeMap<[u32; 2], u64> = BTreeMap::new();
        found.kept.iter().for_each(|&through| *by_names.entry(told.sets_through(through)).or_default() += 1);
        Some(told.in_order(&by_names))
    }

    /// A line for each, and how many there are.
    pub fn write(&self, found: &Found, form: &Form, out: &mut impl Write) -> std::io::Result<()> {
        if form.json {
            return self.write_json(found, out);
        }
        for &through in &found.kept {
            writeln!(out, "pierced\t{}\t{}{}", through.edge, through.triangle, self.tail(through, false))?;
        }
        for (names, count) in self.sums(found).into_iter().flatten() {
            let [one, other] = names.each_ref().map(|names| plain_names(names.iter().map(String::as_str)));
            writeln!(out, "names\t{one}\t{other}\t{count}")?;
        }
        if self.chosen {
            writeln!(out, "left\t{}", found.left)?;
        }
        writeln!(out, "total\t{}", found.kept.len())
    }

    fn write_json(&self, found: &Found, out: &mut impl Write) -> std::io::Result<()> {
        let line = |&through: &Through| {
            let Through { edge, triangle } = through;
            format!("{{\"edge\":{edge},\"triangle\":{triangle}{}}}", self.tail(through, true))
        };
        let lines: Vec<String> = found.kept.iter().map(line).collect();
        let sum = |(names, count): &([Vec<String>; 2], u64)| {
            let [one, other] = names.each_ref().map(|names| json_names(names.iter().map(String::as_str)));
            format!("{{\"names\":[{one},{other}],\"pierced\":{count}}}")
        };
        let joined = |sums: Sums| format!("\"names\":[\n{}\n],\n", sums.iter().map(sum).collect::<Vec<_>>().join(",\n"));
        let sums = self.sums(found).map_or(String::new(), joined);
        let left = if self.chosen { format!("\"left\":{},\n", found.left) } else { String::new() };
        let (mesh, lines, count) = (self.about.json(), lines.join(",\n"), found.kept.len());
        writeln!(out, "{{\"mesh\":{mesh},\n\"pierced\":[\n{lines}\n],\n{sums}{left}\"total\":{{\"pierced\":{count}}}}}")
    }
}
