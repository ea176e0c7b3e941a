//! All shares of a farm, in any order, put together: checked first, each by its closing line, and then printed as one process would.

use crate::clean::Pierced;
use crate::digest::Digest;
use crate::fault::Fault;
use crate::judge::Which;
use crate::pairs::{kind_of, Kind, Pair};
use crate::report::{row_length, word_of, Form, Sums, Tally, Writer};
use crate::shares::{form_of, not_a_share, stretches, Closing};
use crate::whole::unwritten;
use std::fs::File;
use std::io::{self, BufRead, BufReader, Write};

/// A file that was found to be a whole share.
pub struct Checked {
    name: String,
    closing: Closing,
}

/// All shares, in their order.
pub struct Whole {
    shares: Vec<Checked>,
}

/// What they told together.
#[derive(Debug, PartialEq)]
pub struct Told {
    pub tally: Tally,
    pub pierced: Pierced,
    /// Whether pairs were left out.
    pub chosen: bool,
}

/// Each share whole, all of one report, and every one there once; or all that is wrong.
pub fn checked(names: &[String]) -> Result<Whole, Vec<Fault>> {
    let (mut shares, mut faults) = (Vec::new(), Vec::new());
    for name in names {
        match read(name) {
            Ok(closing) => shares.push(Checked { name: name.clone(), closing }),
            Err(fault) => faults.push(fault),
        }
    }
    faults.extend(others(&shares));
    shares.sort_by_key(|share| share.closing.share.number);
    if faults.is_empty() {
        faults.extend(not_once(&shares));
    }
    if faults.is_empty() {
        Ok(Whole { shares })
    } else {
        Err(faults)
    }
}

/// A share's lines are held to what its last line says of them.
fn read(name: &str) -> Result<Closing, Fault> {
    let of_file = |error: io::Error| Fault::of_file(name, &error);
    let mut input = opened(name).map_err(of_file)?;
    let (mut last, mut next, mut lines, mut digest) = (Vec::new(), Vec::new(), 0, Digest::default());
    loop {
        next.clear();
        if input.read_until(b'\n', &mut next).map_err(of_file)? == 0 {
            break;
        }
        if !last.is_empty() {
            digest.take(&last);
            lines += 1;
        }
        std::mem::swap(&mut last, &mut next);
    }
    let closing = std::str::from_utf8(&last).ok().and_then(Closing::of_line).ok_or_else(|| not_a_share(name))?;
    if (closing.lines, &closing.digest) != (lines, &digest.letters()) {
        return Err(Fault::new(format!("{name} is damaged: its lines are not those that its last line tells of")));
    }
    Ok(closing)
}

fn opened(name: &str) -> io::Result<BufReader<File>> {
    Ok(BufReader::with_capacity(1 << 16, File::open(name)?))
}

/// Shares of another report than the first one's.
fn others(shares: &[Checked]) -> Vec<Fault> {
    let Some((first, rest)) = shares.split_first() else { return Vec::new() };
    let what = |share: &Checked| (share.closing.of.clone(), share.closing.share.of);
    let other = |share: &&Checked| what(share) != what(first);
    let told = |share: &Checked| {
        let why = if share.closing.of.files != first.closing.of.files {
            "files"
        } else {
            "options, or one of another count of shares,"
        };
        Fault::new(format!("{} is a share of other {why} than {}", share.name, first.name))
    };
    rest.iter().filter(other).map(told).collect()
}

/// Shares of one report, by their numbers: those that are there twice, and those that are missing.
fn not_once(shares: &[Checked]) -> Vec<Fault> {
    let Some(of) = shares.first().map(|share| share.closing.share.of) else {
        return vec![Fault::new("no share is named")];
    };
    let number = |share: &Checked| share.closing.share.number;
    let twice = shares.windows(2).filter(|two| number(&two[0]) == number(&two[1]));
    let mut faults: Vec<Fault> = twice
        .map(|two| Fault::new(format!("{} and {} are both share {} of {of}", two[0].name, two[1].name, number(&two[0]))))
        .collect();
    let missing: Vec<usize> = (1..=of).filter(|wanted| shares.binary_search_by_key(wanted, number).is_err()).collect();
    faults.extend(missing.iter().map(|number| Fault::new(format!("share {number} of {of} is missing"))));
    if missing.len() > 1 {
        faults.push(Fault::new(format!("{} of {of} shares are missing", missing.len())));
    }
    faults
}

impl Whole {
    pub fn step(&self) -> f64 {
        self.shares[0].closing.of.about.step
    }

    pub fn count(&self) -> usize {
        self.shares.len()
    }

    /// Prints the report that one process would have printed.
    pub fn write(&self, json: bool, out: impl Write) -> Result<Told, Fault> {
        let of = &self.shares[0].closing.of;
        let form = form_of(of, json);
        let mut writer = Writer::begin(&form, &of.about, out).map_err(unwritten)?;
        let mut inputs = self.shares.iter().map(Input::new).collect::<Result<Vec<_>, _>>()?;
        let (vertices, rows) = (of.about.vertices, of.about.vertices + of.about.edges);
        for (piece, rows) in stretches(rows as usize, self.shares.len()).into_iter().enumerate() {
            let share = piece % inputs.len();
            let lines = inputs[share].lines_below(rows.end as u64, vertices, &form)?;
            writer.lines(&lines).map_err(unwritten)?;
        }
        if let Some(left) = inputs.iter().find(|input| !input.is_done()) {
            return Err(left.fault());
        }
        let told = self.told();
        let left = self.shares.iter().map(|share| share.closing.left).reduce(|one, other| Some(one? + other?)).flatten();
        let sums = Sums { left, near: of.which == Which::Near, ..Sums::default() };
        writer.end_with(&sums, told.tally).map_err(unwritten)?;
        Ok(told)
    }

    fn told(&self) -> Told {
        let mut told = Told { tally: Tally::default(), pierced: Pierced::default(), chosen: false };
        for Checked { closing, .. } in &self.shares {
            told.chosen |= closing.left.is_some();
            told.tally.join(closing.tally);
            told.pierced.join(closing.pierced);
        }
        told
    }
}

/// The lines of a share as they are printed.
struct Input<'a> {
    share: &'a Checked,
    input: BufReader<File>,
    /// The line that comes next, and how many come behind it, the closing line left out.
    next: Vec<u8>,
    behind: u64,
}

impl<'a> Input<'a> {
    fn new(share: &'a Checked) -> Result<Input<'a>, Fault> {
        let input = opened(&share.name).map_err(|error| Fault::of_file(&share.name, &error))?;
        let mut made = Input { share, input, next: Vec::new(), behind: share.closing.lines };
        made.advance()?;
        Ok(made)
    }

    fn advance(&mut self) -> Result<(), Fault> {
        self.next.clear();
        if self.behind > 0 {
            self.behind -= 1;
            self.input.read_until(b'\n', &mut self.next).map_err(|error| Fault::of_file(&self.share.name, &error))?;
        }
        Ok(())
    }

    fn is_done(&self) -> bool {
        self.next.is_empty()
    }

    fn fault(&self) -> Fault {
        Fault::new(format!("{} is damaged: it has a line that no share of these rows has", self.share.name))
    }

    /// Its lines of rows below this one.
    fn lines_below(&mut self, end: u64, vertices: u64, form: &Form) -> Result<Vec<u8>, Fault> {
        let mut lines = Vec::new();
        while !self.is_done() {
            let (pair, rest) = pair_of(&self.next).ok_or_else(|| self.fault())?;
            if row_of(pair, vertices) >= end {
                break;
            }
            if form.json {
                as_json(pair, rest, form, &mut lines).ok_or_else(|| self.fault())?;
            } else {
                lines.extend_from_slice(&self.next);
            }
            self.advance()?;
        }
        Ok(lines)
    }
}

fn row_of(pair: Pair, vertices: u64) -> u64 {
    match pair.kind {
        Kind::PointTriangle => u64::from(pair.first),
        Kind::EdgeEdge => vertices + u64::from(pair.first),
    }
}

/// The pair of a line, and what stands behind it.
fn pair_of(line: &[u8]) -> Option<(Pair, &str)> {
    let line = std::str::from_utf8(line).ok()?.strip_suffix('\n')?;
    let (kind, rest) = line.split_once('\t')?;
    let (first, rest) = rest.split_once('\t')?;
    let (second, rest) = rest.split_once('\t')?;
    Some((Pair { kind: kind_of(kind.as_bytes())?, first: first.parse().ok()?, second: second.parse().ok()? }, rest))
}

fn as_json(pair: Pair, rest: &str, form: &Form, out: &mut Vec<u8>) -> Option<()> {
    if !form.contacts {
        form.line(pair, word_of(rest.as_bytes())?, out);
        return Some(());
    }
    let mut row = [0; makhnodri::CONTACT_LENGTH];
    let fields: Vec<&str> = rest.split('\t').collect();
    if fields.len() != row_length(pair.kind) {
        return None;
    }
    for (number, field) in row.iter_mut().zip(fields) {
        *number = field.parse().ok()?;
    }
    form.contact(pair, row, out);
    Some(())
}
