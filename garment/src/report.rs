//! Lines of a report or of contacts and their totals, as docs/FORMAT.md has them, or the same as JSON.

use crate::pairs::{Kind, Pair};
use crate::whereabouts::{json_names, plain_names};
use makhnodri::{KeptRows, Settled, CONTACT_LENGTH};
use std::io::Write;

/// The four words, in the order in which the totals name them.
pub const WORDS: [Settled; 4] = [Settled::Hit, Settled::Miss, Settled::Touch, Settled::Apart];

/// The word that a report writes so.
pub fn word_of(letters: &[u8]) -> Option<Settled> {
    WORDS.into_iter().find(|word| word.word().as_bytes() == letters)
}

/// Its place among them.
pub fn place(word: Settled) -> usize {
    match word {
        Settled::Hit => 0,
        Settled::Miss => 1,
        Settled::Touch => 2,
        Settled::Apart => 3,
        _ => unreachable!("a report has four words"),
    }
}

/// How many pairs have each word.
#[derive(Clone, Copy, Debug, Default, PartialEq, Eq)]
pub struct Tally {
    counts: [u64; 4],
    /// Pairs of which it is known that they are not hit, and not which word they have.
    not_hit: u64,
}

impl Tally {
    /// Of lines of contacts, which tell hits alone.
    pub fn of_hits(listed: u64, hits: u64) -> Tally {
        Tally { counts: [hits, 0, 0, 0], not_hit: listed.saturating_sub(hits) }
    }

    /// Of the five counts of a line of totals; nothing where the others are more than the first.
    pub fn of_counts([listed, hit, miss, touch, apart]: [u64; 5]) -> Option<Tally> {
        let counts = [hit, miss, touch, apart];
        let told = counts.iter().try_fold(0u64, |sum, &count| sum.checked_add(count))?;
        Some(Tally { counts, not_hit: listed.checked_sub(told)? })
    }

    /// Of the words of so many pairs, as the library writes them.
    pub fn of_bytes(words: &[u8]) -> Tally {
        let counts = WORDS.map(|word| words.iter().filter(|&&byte| byte == word as u8).count() as u64);
        assert_eq!(counts.iter().sum::<u64>(), words.len() as u64, "the library writes words alone");
        Tally { counts, not_hit: 0 }
    }

    /// Of rows of which the library kept some pairs.
    pub fn of_rows(rows: &KeptRows) -> Tally {
        Tally { counts: [rows.hits, rows.misses, rows.touches, rows.aparts], not_hit: 0 }
    }

    pub fn add(&mut self, word: Settled) {
        self.counts[place(word)] += 1;
    }

    pub fn join(&mut self, other: Tally) {
        self.counts.iter_mut().zip(other.counts).for_each(|(mine, others)| *mine += others);
        self.not_hit += other.not_hit;
    }

    pub fn of(&self, word: Settled) -> u64 {
        self.counts[place(word)]
    }

    pub fn listed(&self) -> u64 {
        self.counts.iter().sum::<u64>() + self.not_hit
    }
}

/// The numbers of a contact: piece, k and the shares, of which two edges have two.
pub type Row = [u32; CONTACT_LENGTH];

/// How many of them a line has.
pub fn row_length(kind: Kind) -> usize {
    match kind {
        Kind::PointTriangle => 5,
        Kind::EdgeEdge => 4,
    }
}

/// What a mesh is, for who reads the report by program.
#[derive(Clone, Debug, PartialEq)]
pub struct About {
    pub vertices: u64,
    pub edges: u64,
    pub triangles: u64,
    pub seams: u64,
    pub step: f64,
}

impl About {
    pub fn json(&self) -> String {
        let About { vertices, edges, triangles, seams, step } = self;
        format!("{{\"vertices\":{vertices},\"edges\":{edges},\"triangles\":{triangles},\"seams\":{seams},\"step\":{step:e}}}")
    }
}

/// The totals of the pairs of which one part has the one names and the other the other.
#[derive(Clone, Debug, PartialEq, Eq)]
pub struct Sum {
    pub names: [Vec<String>; 2],
    pub tally: Tally,
}

/// What stands before the totals where it was asked for.
#[derive(Clone, Debug, Default, PartialEq, Eq)]
pub struct Sums {
    pub by_names: Option<Vec<Sum>>,
    /// How many pairs were left out.
    pub left: Option<u64>,
    /// Whether pairs and totals are the near ones alone.
    pub near: bool,
}

/// How a report is written down: parted by tabs or as JSON; a word for each pair, and the lines of which words, or the contact of each hit. The
/// totals are of all.
#[derive(Clone, Debug, PartialEq, Eq)]
pub struct Form {
    pub json: bool,
    pub contacts: bool,
    pub shown: Vec<Settled>,
}

impl Default for Form {
    fn default() -> Form {
        Form { json: false, contacts: false, shown: WORDS.to_vec() }
    }
}

impl Form {
    pub fn head(&self, about: &About) -> String {
        if !self.json {
            return String::new();
        }
        let lines = if self.contacts { "contacts" } else { "pairs" };
        format!("{{\"mesh\":{},\n\"{lines}\":[", about.json())
    }

    /// The line of a pair, behind what is there. In JSON a comma stands before it; the writer leaves out the first.
    pub fn line(&self, pair: Pair, word: Settled, out: &mut Vec<u8>) {
        self.line_with(pair, word, "", out);
    }

    /// The lines of entries and the bytes of their words, as the library writes them, behind what is there. Pairs of a row have the same beginning, which is
    /// made once.
    pub fn lines(&self, list: &[u64], words: &[u8], out: &mut Vec<u8>) {
        if self.json {
            return pairs_of(list, words).for_each(|(pair, word)| self.line(pair, word, out));
        }
        let shown = BYTES.map(|word| word.is_some_and(|word| self.shown.contains(&word)));
        let mut room = [0; TOGETHER * LONGEST];
        for (list, words) in list.chunks(TOGETHER).zip(words.chunks(TOGETHER)) {
            let turns = list.windows(2).filter(|two| two[0] >> 32 != two[1] >> 32).count();
            let end = match 4 * turns > list.len() {
                true => put_lines::<true>(list, words, &shown, &mut room),
                false => put_lines::<false>(list, words, &shown, &mut room),
            };
            out.extend_from_slice(&room[..end]);
        }
    }

    /// The same with more fields before its end.
    pub fn line_with(&self, pair: Pair, word: Settled, tail: &str, out: &mut Vec<u8>) {
        if !self.shown.contains(&word) {
            return;
        }
        let (kind, word) = (pair.kind.letters(), word.word());
        if self.json {
            let Pair { first, second, .. } = pair;
            let line = format!(",\n{{\"kind\":\"{kind}\",\"first\":{first},\"second\":{second},\"word\":\"{word}\"{tail}}}");
            out.extend_from_slice(line.as_bytes());
            return;
        }
        out.extend_from_slice(kind.as_bytes());
        tab_and_number(pair.first, out);
        tab_and_number(pair.second, out);
        out.push(b'\t');
        out.extend_from_slice(word.as_bytes());
        out.extend_from_slice(tail.as_bytes());
        out.push(b'\n');
    }

    /// The line of a hit pair's contact, behind what is there.
    pub fn contact(&self, pair: Pair, row: Row, out: &mut Vec<u8>) {
        self.contact_with(pair, row, "", out);
    }

    /// The same with more fields before its end.
    pub fn contact_with(&self, pair: Pair, row: Row, tail: &str, out: &mut Vec<u8>) {
        let Pair { kind, first, second } = pair;
        let [piece, k, shares @ ..] = &row[..row_length(kind)] else { return };
        let kind = kind.letters();
        if self.json {
            let shares = shares.iter().map(u32::to_string).collect::<Vec<String>>().join(",");
            let line = format!(
                ",\n{{\"kind\":\"{kind}\",\"first\":{first},\"second\":{second},\"piece\":{piece},\"k\":{k},\"shares\":[{shares}]{tail}}}"
            );
            out.extend_from_slice(line.as_bytes());
            return;
        }
        out.extend_from_slice(kind.as_bytes());
        [first, second, *piece, *k].iter().chain(shares).for_each(|&number| tab_and_number(number, out));
        out.extend_from_slice(tail.as_bytes());
        out.push(b'\n');
    }

    pub fn foot(&self, tally: Tally) -> String {
        self.foot_with(&Sums::default(), tally)
    }

    /// The same, with what stands before the totals.
    pub fn foot_with(&self, sums: &Sums, tally: Tally) -> String {
        let Sums { by_names, left, near } = sums;
        let counts = self.counts(tally);
        if self.json {
            let rows = by_names.as_ref().map_or(String::new(), |rows| self.json_sums(rows));
            let left = left.map_or(String::new(), |left| format!("\"left\":{left},\n"));
            let of = if *near { "\"of\":\"near\",\n" } else { "" };
            return format!("\n],\n{rows}{left}{of}\"total\":{{{counts}}}}}\n");
        }
        let row = |Sum { names, tally }: &Sum| {
            let [one, other] = names.each_ref().map(|names| plain_names(names.iter().map(String::as_str)));
            format!("names\t{one}\t{other}\t{}\n", self.counts(*tally))
        };
        let rows: String = by_names.iter().flatten().map(row).collect();
        let left = left.map_or(String::new(), |left| format!("left\t{left}\n"));
        let of = if *near { "of\tnear\n" } else { "" };
        format!("{rows}{left}{of}total\t{counts}\n")
    }

    /// The counts of the totals: all five, or of contacts the first two.
    pub fn counts(&self, tally: Tally) -> String {
        const NAMES: [&str; 5] = ["listed", "hit", "miss", "touch", "apart"];
        let [hit, miss, touch, apart] = tally.counts;
        let shown = if self.contacts { 2 } else { 5 };
        let counts = NAMES.into_iter().zip([tally.listed(), hit, miss, touch, apart]).take(shown);
        if self.json {
            counts.map(|(name, count)| format!("\"{name}\":{count}")).collect::<Vec<_>>().join(",")
        } else {
            counts.map(|(_, count)| count.to_string()).collect::<Vec<_>>().join("\t")
        }
    }

    fn json_sums(&self, rows: &[Sum]) -> String {
        let row = |Sum { names, tally }: &Sum| {
            let [one, other] = names.each_ref().map(|names| json_names(names.iter().map(String::as_str)));
            format!("{{\"names\":[{one},{other}],{}}}", self.counts(*tally))
        };
        format!("\"names\":[\n{}\n],\n", rows.iter().map(row).collect::<Vec<_>>().join(",\n"))
    }
}

/// A report is mostly such numbers, so they go past the formatter.
fn tab_and_number(number: u32, out: &mut Vec<u8>) {
    let mut digits = [0; 16];
    let end = put_number(number, &mut digits, 0);
    out.push(b'\t');
    out.extend_from_slice(&digits[..end]);
}

/// Numbers below it have eight digits at most.
const EIGHT: u32 = 100_000_000;

/// The letter 0 in each byte.
const ZEROS: u64 = 0x3030_3030_3030_3030;

/// The four digits of each number below 10,000, zeros before it and all, a byte each, the first one lowest.
static FOURS: [u32; 10_000] = fours();

const fn fours() -> [u32; 10_000] {
    let mut fours = [0; 10_000];
    let mut number = 0;
    while number < 10_000 {
        let n = number as u32;
        fours[number] = (n / 1_000) | ((n / 100 % 10) << 8) | ((n / 10 % 10) << 16) | ((n % 10) << 24);
        number += 1;
    }
    fours
}

/// The eight digits of a number below 10^8 in the same way.
#[inline]
fn eight_digits(number: u32) -> u64 {
    let high = number / 10_000;
    u64::from(FOURS[high as usize]) | u64::from(FOURS[(number - 10_000 * high) as usize]) << 32
}

/// As letters, from the first that is not 0 on, and how many there are; 0 is one letter.
#[inline]
fn without_zeros(digits: u64) -> ([u8; 8], usize) {
    let zeros = (digits.trailing_zeros() / 8).min(7);
    (((digits | ZEROS) >> (8 * zeros)).to_le_bytes(), 8 - zeros as usize)
}

/// The pairs of entries, and their words, as the library writes them.
pub fn pairs_of<'a>(list: &'a [u64], words: &'a [u8]) -> impl Iterator<Item = (Pair, Settled)> + 'a {
    let word = |byte: u8| Settled::of_byte(byte).expect("the library writes words alone");
    list.iter().zip(words).map(move |(&entry, &byte)| (Pair::of_entry(entry), word(byte)))
}

/// The word of each byte, and no more than three bits of it count.
const BYTES: [Option<Settled>; 8] =
    [Some(Settled::Hit), Some(Settled::Miss), None, Some(Settled::Touch), Some(Settled::Apart), None, None, None];

/// What ends the line of each byte's word, with room behind it, and how many letters that is.
const ENDS: [([u8; 8], usize); 8] = [
    (*b"\thit\n   ", 5),
    (*b"\tmiss\n  ", 6),
    ([0; 8], 0),
    (*b"\ttouch\n ", 7),
    (*b"\tapart\n ", 7),
    ([0; 8], 0),
    ([0; 8], 0),
    ([0; 8], 0),
];

/// Room for any line; and lines that are made in one go.
const LONGEST: usize = 48;
const TOGETHER: usize = 512;

/// The lines of so many entries, in front of the room; hands back where they end. Pieces of a fixed length are copied, one over the end of the other, since
/// that takes no call. With `ANEW` the beginning is made for each line, which takes less where rows are short than to ask whether it must be.
fn put_lines<const ANEW: bool>(list: &[u64], words: &[u8], shown: &[bool; 8], room: &mut [u8; TOGETHER * LONGEST]) -> usize {
    let (mut head, mut of, mut length, mut end) = ([0; LONGEST], 0, 0, 0);
    for (&entry, &word) in list.iter().zip(words) {
        let (first, line) = ((entry >> 32) as u32, &mut room[end..end + LONGEST]);
        let behind = if ANEW {
            put_head(first, line)
        } else {
            if first != of || length == 0 {
                (of, length) = (first, put_head(first, &mut head));
            }
            line[..16].copy_from_slice(&head[..16]);
            length
        };
        let behind = put_number(entry as u32, line, behind);
        let (letters, count) = ENDS[usize::from(word) % ENDS.len()];
        line[behind..behind + 8].copy_from_slice(&letters);
        end += if shown[usize::from(word) % shown.len()] { behind + count } else { 0 };
    }
    end
}

/// The beginning of a line: kind and first number, with a tab behind each; hands back where it ends.
#[inline]
fn put_head(first: u32, line: &mut [u8]) -> usize {
    line[..4].copy_from_slice(if first >> 31 == 0 { b"pt\t " } else { b"ee\t " });
    let end = put_number(first & 0x7fff_ffff, line, 3);
    line[end] = b'\t';
    end + 1
}

/// Writes a number, with anything behind it up to sixteen bytes, and hands back where it ends.
#[inline]
fn put_number(number: u32, out: &mut [u8], at: usize) -> usize {
    if number < EIGHT {
        let (bytes, count) = without_zeros(eight_digits(number));
        out[at..at + 8].copy_from_slice(&bytes);
        return at + count;
    }
    let (bytes, count) = without_zeros(eight_digits(number / EIGHT));
    out[at..at + 8].copy_from_slice(&bytes);
    out[at + count..at + count + 8].copy_from_slice(&(eight_digits(number % EIGHT) | ZEROS).to_le_bytes());
    at + count + 8
}

/// A report as it goes out, part after part.
pub struct Writer<'a, W> {
    form: &'a Form,
    out: W,
    /// Whether a line was written.
    any: bool,
}

impl<'a, W: Write> Writer<'a, W> {
    pub fn begin(form: &'a Form, about: &About, mut out: W) -> std::io::Result<Writer<'a, W>> {
        out.write_all(form.head(about).as_bytes())?;
        Ok(Writer { form, out, any: false })
    }

    /// Lines that `Form::line` or `Form::contact` made.
    pub fn lines(&mut self, lines: &[u8]) -> std::io::Result<()> {
        let comma = (self.form.json && !self.any && !lines.is_empty()) as usize;
        self.any |= !lines.is_empty();
        self.out.write_all(&lines[comma..])
    }

    /// Totals, and all of it handed over: a write that fails late is told too.
    pub fn end(self, tally: Tally) -> std::io::Result<()> {
        self.end_with(&Sums::default(), tally)
    }

    pub fn end_with(mut self, sums: &Sums, tally: Tally) -> std::io::Result<()> {
        self.out.write_all(self.form.foot_with(sums, tally).as_bytes())?;
        self.out.flush()
    }

    pub fn flush(&mut self) -> std::io::Result<()> {
        self.out.flush()
    }
}
