//! A series by document 02, §2: a scene followed by blocks of next end positions, the log of its first hits, and what is told of all its steps.

pub mod faults;
pub mod making;
pub mod mistakes;
pub mod sleeve;

use crate::calls::slices::entry;
use crate::calls::stored::{self, BOX_NUMBERS};
use crate::list::listing;
use crate::scene::refusal::*;
use crate::scene::*;
use crate::text::{self, LENT_LENGTHS};
use crate::verdicts::settled::{self, Settled, WORDS};

/// The hits that a log holds.
pub const LOG_LIMIT: usize = 64;

#[derive(Clone, Debug, Default, PartialEq, Eq)]
pub struct Series {
    pub scene: Scene,
    /// of each block the next end of every vertex
    pub blocks: Vec<Vec<[i64; 3]>>,
}

impl Series {
    /// The scene is step 1; each step starts where the last ended.
    pub fn steps(&self) -> Vec<Scene> {
        let mut steps = vec![self.scene.clone()];
        for block in &self.blocks {
            steps.push(step_after(steps.last().unwrap(), block));
        }
        steps
    }
}

/// Each vertex goes from its end to its next end; edges, triangles and seams stay.
pub fn step_after(step: &Scene, block: &[[i64; 3]]) -> Scene {
    let goes_on = |(v, next): (&[i64; 6], &[i64; 3])| [v[3], v[4], v[5], next[0], next[1], next[2]];
    Scene { vertices: step.vertices.iter().zip(block).map(goes_on).collect(), ..step.clone() }
}

// ---- reading

pub fn read(text: &[u8]) -> Result<Series, Refusal> {
    if text.len() > TEXT_LIMIT {
        return Err(Refusal::bare(TEXT_TOO_LONG));
    }
    let mut series = Series::default();
    let lines: Vec<&[u8]> = text.split_inclusive(|&byte| byte == b'\n').collect();
    for (above, line) in lines.iter().enumerate() {
        let last = above + 1 == lines.len();
        take(&mut series, line, last).map_err(|number| Refusal::new(number, above as u64 + 1))?;
    }
    Ok(series)
}

/// The series with one line more, or the number that the line is refused with.
fn take(series: &mut Series, line: &[u8], last: bool) -> Result<(), u64> {
    let line = line.strip_suffix(b"\n").ok_or(BAD_LINE)?;
    let vertices = series.scene.vertices.len();
    let in_block = series.blocks.last().map(Vec::len);
    let ends_short = |lines: usize| last && lines < vertices;
    match (line, in_block) {
        (b"n", before) => {
            let comes_too_soon = before.is_some_and(|lines| lines < vertices);
            if comes_too_soon || ends_short(0) {
                return Err(WRONG_BLOCK);
            }
            series.blocks.push(vec![]);
            Ok(())
        }
        (_, None) => text::take(&mut series.scene, line),
        (_, Some(before)) => {
            let next = next_end(line)?;
            if before == vertices || ends_short(before + 1) {
                return Err(WRONG_BLOCK);
            }
            if !next.into_iter().all(in_range) {
                return Err(OUT_OF_RANGE);
            }
            let block = series.blocks.last_mut().unwrap();
            block.push(next);
            if block.len() == vertices && comes_apart(&series.scene, block) {
                return Err(BROKEN_SEAM);
            }
            Ok(())
        }
    }
}

/// What a line of a block says: 9 where it has no form there, 10 where it is another record.
fn next_end(line: &[u8]) -> Result<[i64; 3], u64> {
    if line.first() == Some(&b'v') {
        return numbers_of_block_line(line).ok_or(BAD_LINE);
    }
    Err(if text::record(line).is_some() { OUT_OF_ORDER } else { BAD_LINE })
}

/// `v` and three numbers.
pub fn numbers_of_block_line(line: &[u8]) -> Option<[i64; 3]> {
    let fields = line.strip_prefix(b"v\t")?.split(|&byte| byte == b'\t');
    let numbers: Option<Vec<i64>> = fields.map(text::coordinate).collect();
    numbers?.try_into().ok()
}

/// Whether two sewn vertices end in two places.
pub fn comes_apart(scene: &Scene, block: &[[i64; 3]]) -> bool {
    scene.seams.iter().any(|&[i, j]| block.get(i) != block.get(j))
}

// ---- what is told

#[derive(Clone, Copy, Debug, PartialEq, Eq)]
pub struct HitAt {
    pub step: u64,
    pub pair: Pair,
}

#[derive(Clone, Debug, Default, PartialEq, Eq)]
pub struct Told {
    pub log: Vec<HitAt>,
    pub later: u64,
    pub listed: u64,
    /// in the order of `WORDS`
    pub totals: [u64; 4],
    pub first: u64,
}

/// Each listed pair of a step with its word.
pub type Judged = Vec<(Pair, Settled)>;

pub fn judged(step: &Scene) -> Judged {
    listing::listed(step).into_iter().map(|pair| (pair, settled::of_pair(step, pair))).collect()
}

/// The hits in step and list order.
pub fn hits(steps: &[Judged]) -> Vec<HitAt> {
    let mut out = Vec::new();
    for (step, judged) in (1..).zip(steps) {
        let hit = judged.iter().filter(|(_, word)| *word == Settled::Hit);
        out.extend(hit.map(|&(pair, _)| HitAt { step, pair }));
    }
    out
}

pub fn told(steps: &[Judged]) -> Told {
    let hits = hits(steps);
    let count = |wanted: Settled| steps.iter().flatten().filter(|(_, word)| *word == wanted).count() as u64;
    Told {
        log: hits.iter().take(LOG_LIMIT).copied().collect(),
        later: hits.len().saturating_sub(LOG_LIMIT) as u64,
        listed: steps.iter().map(|judged| judged.len() as u64).sum(),
        totals: WORDS.map(count),
        first: hits.first().map_or(0, |hit| hit.step),
    }
}

/// What a series comes to: its last step with the list of it, and what is told.
#[derive(Clone, Debug, PartialEq, Eq)]
pub struct Ended {
    pub last: Scene,
    pub list: Vec<Pair>,
    pub told: Told,
}

/// 8, the first faulty line, then 7 for the first step whose list has no room.
pub fn ended(text: &[u8], room: usize) -> Result<Ended, Refusal> {
    let steps = read(text)?.steps();
    for step in &steps {
        listing::list(step, room)?;
    }
    let judged: Vec<Judged> = steps.iter().map(judged).collect();
    let list = judged.last().unwrap().iter().map(|&(pair, _)| pair).collect();
    Ok(Ended { last: steps.last().unwrap().clone(), list, told: told(&judged) })
}

// ---- what is printed

pub fn printed(text: &[u8], room: usize) -> String {
    written(&ended(text, room).map(|ended| ended.told))
}

pub fn written(told: &Result<Told, Refusal>) -> String {
    let told = match told {
        Err(refusal) => return format!("refused\t{}\t{}\n", refusal.number, refusal.third),
        Ok(told) => told,
    };
    let mut out = String::new();
    for HitAt { step, pair } in &told.log {
        let kind = match pair.kind {
            Kind::PointTriangle => "pt",
            Kind::EdgeEdge => "ee",
        };
        out.push_str(&format!("hit\t{step}\t{kind}\t{}\t{}\n", pair.first, pair.second));
    }
    let totals = told.totals.map(|total| total.to_string()).join("\t");
    out + &format!("later\t{}\ntotal\t{}\t{totals}\nfirst\t{}\n", told.later, told.listed, told.first)
}

// ---- what is lent to the call, and what it leaves

#[derive(Clone, Debug, PartialEq, Eq)]
pub struct Lent {
    pub positions: Vec<i32>,
    pub edges: Vec<u16>,
    pub triangles: Vec<u16>,
    pub seams: Vec<u16>,
    pub boxes: Vec<i32>,
    pub list: Vec<u32>,
    pub counts: [u64; 4],
    /// a row for each entry: its step and the pair's number
    pub log: [u32; 2 * LOG_LIMIT],
    /// held, later, listed, hits, misses, touches, aparts, first
    pub told: [u64; 8],
}

impl Lent {
    /// Buffers of these lengths, positions to boxes, and a list of so much room, filled with numbers that no call writes.
    pub fn marked(lengths: [usize; 5], room: usize) -> Lent {
        let odd = |i: usize| (i * 4_099 + 50_001) as u32;
        let short = |length: usize| (0..length).map(|i| odd(i) as u16).collect::<Vec<u16>>();
        let long = |length: usize| (0..length).map(|i| (odd(i) | 1 << 30) as i32).collect::<Vec<i32>>();
        Lent {
            positions: long(lengths[0]),
            edges: short(lengths[1]),
            triangles: short(lengths[2]),
            seams: short(lengths[3]),
            boxes: long(lengths[4]),
            list: (0..room).map(|i| odd(i) | 1 << 31).collect(),
            counts: [1, 2, 3, 4].map(|i| odd(i) as u64 | 1 << 40),
            log: std::array::from_fn(|i| odd(i) | 1 << 31),
            told: std::array::from_fn(|i| odd(i) as u64 | 1 << 40),
        }
    }

    fn lengths(&self) -> [usize; 5] {
        [self.positions.len(), self.edges.len(), self.triangles.len(), self.seams.len(), self.boxes.len()]
    }
}

/// The least lengths of the five buffers: those of a scene, and of the boxes.
pub fn least_lengths() -> [usize; 5] {
    let [positions, edges, triangles, seams] = LENT_LENGTHS;
    [positions, edges, triangles, seams, BOX_NUMBERS]
}

/// 12 before everything.
pub fn ended_lent(text: &[u8], lent: &Lent) -> Result<Ended, Refusal> {
    if lent.lengths().into_iter().zip(least_lengths()).any(|(length, least)| length < least) {
        return Err(Refusal::bare(LENT_TOO_SHORT));
    }
    ended(text, lent.list.len())
}

/// The number that the call answers; what is lent then holds what the call leaves.
pub fn called(text: &[u8], lent: &mut Lent) -> u64 {
    answered(&ended_lent(text, lent), lent)
}

/// After success the buffers hold the last step in front and what lies behind is unchanged; a refusal changes nothing.
pub fn answered(ended: &Result<Ended, Refusal>, lent: &mut Lent) -> u64 {
    let Ended { last, list, told } = match ended {
        Err(Refusal { number, third }) => return (number << 32) + third,
        Ok(ended) => ended,
    };
    let numbers = |places: Vec<usize>| places.into_iter().map(|v| v as u16).collect::<Vec<u16>>();
    let wide = |numbers: Vec<i64>| numbers.into_iter().map(|n| n as i32).collect::<Vec<i32>>();
    in_front(&mut lent.positions, &wide(last.vertices.concat()));
    in_front(&mut lent.edges, &numbers(last.edges.concat()));
    in_front(&mut lent.triangles, &numbers(last.triangles.concat()));
    in_front(&mut lent.seams, &numbers(last.seams.concat()));
    in_front(&mut lent.boxes, &wide(stored::boxes(last, stored::Wrong::None)));
    in_front(&mut lent.list, &list.iter().map(|&pair| entry(pair)).collect::<Vec<u32>>());
    lent.counts = [last.vertices.len(), last.edges.len(), last.triangles.len(), last.seams.len()].map(|count| count as u64);
    let rows: Vec<u32> = told.log.iter().flat_map(|hit| [hit.step as u32, entry(hit.pair)]).collect();
    in_front(&mut lent.log, &rows);
    let [hits, misses, touches, aparts] = told.totals;
    lent.told = [told.log.len() as u64, told.later, told.listed, hits, misses, touches, aparts, told.first];
    list.len() as u64
}

fn in_front<T: Copy>(buffer: &mut [T], front: &[T]) {
    buffer[..front.len()].copy_from_slice(front);
}

// ---- writing

/// The text of a series; whether it is accepted is not looked at.
pub fn write(series: &Series) -> String {
    let mut out = text::write(&series.scene);
    for block in &series.blocks {
        out.push_str("n\n");
        out.extend(block.iter().map(|next| format!("v\t{}\n", next.map(|n| n.to_string()).join("\t"))));
    }
    out
}
