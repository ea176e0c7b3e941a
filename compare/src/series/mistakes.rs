//! Programs of series that are wrong in one respect each: what trainees write of a log, and every wrong order of checks. A comparison that cannot tell
//! one of these from document 02 is not worth running.

use super::faults::{add, cells, of_line, of_lines, LINE_CHECKS};
use super::*;
use crate::text::faults::Cell;

type Read = Box<dyn Fn(&[u8]) -> Result<Series, Refusal>>;
type Steps = Box<dyn Fn(&Series) -> Vec<Scene>>;
type Room = fn(&[usize], usize) -> Result<(), Refusal>;
type Tell = fn(&[Judged]) -> Told;
type Leave = fn(&Whole, &mut Lent);

/// The five stages of a program, of which a mistake has one; the others go right.
#[derive(Default)]
struct Stages {
    read: Option<Read>,
    steps: Option<Steps>,
    room: Option<Room>,
    tell: Option<Tell>,
    leave: Option<Leave>,
}

pub struct Mistake {
    /// A word to call it by.
    pub key: String,
    /// What is done wrong.
    pub says: String,
    stages: Stages,
}

/// All steps with their lists, which a program has in its hands when it leaves something in the lent buffers.
struct Whole {
    steps: Vec<Scene>,
    lists: Vec<Vec<Pair>>,
    /// 7 was the answer
    refused: bool,
}

/// What a program prints, answers and leaves.
#[derive(Clone, Debug, PartialEq, Eq)]
pub struct Outcome {
    pub printed: String,
    pub answer: u64,
    pub left: Lent,
}

/// What the stages come to when they go right, found once for all the mistakes that are tried on a text.
pub struct Right {
    text: Vec<u8>,
    series: Result<Series, Refusal>,
    steps: Vec<Scene>,
    lists: Vec<Vec<Pair>>,
    /// where every list has room
    judged: Option<Vec<Judged>>,
    lent: Lent,
}

impl Right {
    /// With buffers of the least lengths, and the program's room.
    pub fn of(text: &[u8]) -> Right {
        Right::lent(text, Lent::marked(least_lengths(), REPORT_ROOM))
    }

    pub fn lent(text: &[u8], lent: Lent) -> Right {
        let series = read(text);
        let steps = series.as_ref().map(Series::steps).unwrap_or_default();
        let lists: Vec<Vec<Pair>> = steps.iter().map(listing::listed).collect();
        let fits = lists.iter().all(|list| list.len() <= lent.list.len());
        let judged = (fits && series.is_ok()).then(|| steps.iter().map(judged).collect());
        Right { text: text.to_vec(), series, steps, lists, judged, lent }
    }

    pub fn outcome(&self) -> Outcome {
        self.after(&Stages::default())
    }

    fn after(&self, stages: &Stages) -> Outcome {
        let mut left = self.lent.clone();
        let series = stages.read.as_ref().map_or_else(|| self.series.clone(), |read| read(&self.text));
        let series = match series {
            Err(refusal) => return refused(refusal, left),
            Ok(series) => series,
        };
        let steps = stages.steps.as_ref().map_or_else(|| series.steps(), |steps| steps(&series));
        let same = self.series.is_ok() && steps == self.steps;
        let lists = if same { self.lists.clone() } else { steps.iter().map(listing::listed).collect() };
        let counts: Vec<usize> = lists.iter().map(Vec::len).collect();
        let room = left.list.len();
        let full = stages.room.unwrap_or(first_without_room)(&counts, room);
        let mut whole = Whole { steps, lists, refused: full.is_err() };
        if let Err(refusal) = full {
            stages.leave.into_iter().for_each(|leave| leave(&whole, &mut left));
            return refused(refusal, left);
        }
        let judged = match &self.judged {
            Some(judged) if same => judged.clone(),
            _ => whole.steps.iter().map(judged).collect(),
        };
        let told = stages.tell.unwrap_or(told)(&judged);
        let printed = written(&Ok(told.clone()));
        let (last, list) = (whole.steps.last().unwrap().clone(), whole.lists.last().unwrap().clone());
        // what a program lists beyond the room is not written anywhere
        let list_left = list.iter().take(room).copied().collect();
        answered(&Ok(Ended { last, list: list_left, told }), &mut left);
        whole.lists.iter_mut().for_each(|list| list.truncate(room));
        stages.leave.into_iter().for_each(|leave| leave(&whole, &mut left));
        Outcome { printed, answer: list.len() as u64, left }
    }
}

fn refused(refusal: Refusal, left: Lent) -> Outcome {
    Outcome { printed: written(&Err(refusal)), answer: (refusal.number << 32) + refusal.third, left }
}

fn first_without_room(counts: &[usize], room: usize) -> Result<(), Refusal> {
    no_room(counts.iter().find(|&&count| count > room))
}

fn no_room(count: Option<&usize>) -> Result<(), Refusal> {
    count.map_or(Ok(()), |&count| Err(Refusal::new(NO_ROOM, count as u64)))
}

impl Mistake {
    pub fn outcome(&self, right: &Right) -> Outcome {
        right.after(&self.stages)
    }
}

fn mistake(key: impl Into<String>, says: impl Into<String>, stages: Stages) -> Mistake {
    Mistake { key: key.into(), says: says.into(), stages }
}

/// Every one of them, those of the log first.
pub fn all() -> Vec<Mistake> {
    let mut out = logs();
    out.extend(steps_wrong());
    out.extend(rooms());
    out.extend(leavings());
    out.extend(readings());
    out.extend(orders());
    out
}

pub fn find(key: &str) -> Option<Mistake> {
    all().into_iter().find(|mistake| mistake.key == key)
}

// ---- the log and the totals

fn telling(key: &str, says: &str, tell: Tell) -> Mistake {
    mistake(key, says, Stages { tell: Some(tell), ..Stages::default() })
}

/// The hits and touches in step and list order.
fn contacts(steps: &[Judged]) -> Vec<HitAt> {
    let taken = |word: &Settled| [Settled::Hit, Settled::Touch].contains(word);
    let of_step = |(step, judged): (u64, &Judged)| {
        let taken = judged.iter().filter(|(_, word)| taken(word));
        taken.map(|&(pair, _)| HitAt { step, pair }).collect::<Vec<HitAt>>()
    };
    (1..).zip(steps).flat_map(of_step).collect()
}

fn logs() -> Vec<Mistake> {
    vec![
        telling("oldest-dropped", "the oldest entry makes room for the newest", |steps| {
            let hits = hits(steps);
            let log = hits[hits.len().saturating_sub(LOG_LIMIT)..].to_vec();
            // who asks where trouble began asks the log
            Told { first: log.first().map_or(0, |hit| hit.step), log, ..told(steps) }
        }),
        telling("newest-replaced", "the last entry is written over by each later hit", |steps| {
            let (hits, mut told) = (hits(steps), told(steps));
            if hits.len() > LOG_LIMIT {
                told.log[LOG_LIMIT - 1] = *hits.last().unwrap();
            }
            told
        }),
        telling("touch-logged", "a touch goes into the log as a hit does", |steps| {
            let contacts = contacts(steps);
            let log: Vec<HitAt> = contacts.iter().take(LOG_LIMIT).copied().collect();
            Told { later: (contacts.len() - log.len()) as u64, log, ..told(steps) }
        }),
        telling("full-at-63", "the log is full one entry early", |steps| {
            let mut told = told(steps);
            let early = told.log.len() == LOG_LIMIT;
            told.log.truncate(LOG_LIMIT - 1);
            told.later += early as u64;
            told
        }),
        telling("later-counts-all", "every hit counted as a later one", |steps| Told {
            later: hits(steps).len() as u64,
            ..told(steps)
        }),
        telling("later-dropped", "hits behind the log not counted", |steps| Told { later: 0, ..told(steps) }),
        telling("steps-from-0", "steps counted from 0", |steps| {
            let mut told = told(steps);
            told.log.iter_mut().for_each(|hit| hit.step -= 1);
            Told { first: told.first.saturating_sub(1), ..told }
        }),
        telling("first-from-0", "the first step with a hit counted from 0", |steps| {
            let told = told(steps);
            Told { first: told.first.saturating_sub(1), ..told }
        }),
        telling("first-by-touch", "the first step with a hit or a touch", |steps| {
            let first = contacts(steps).first().map_or(0, |contact| contact.step);
            Told { first, ..told(steps) }
        }),
        telling("first-is-the-last", "the last step with a hit", |steps| {
            let first = hits(steps).last().map_or(0, |hit| hit.step);
            Told { first, ..told(steps) }
        }),
        telling("totals-of-the-last-step", "totals of the last step only", |steps| {
            let last = told(&steps[steps.len() - 1..]);
            Told { listed: last.listed, totals: last.totals, ..told(steps) }
        }),
        telling("hits-of-the-log", "only hits in the log are totalled", |steps| {
            let mut told = told(steps);
            told.totals[0] = told.log.len() as u64;
            told
        }),
        telling("log-by-kind", "points before edges over the whole series", |steps| {
            let mut hits = hits(steps);
            hits.sort_by_key(|hit| hit.pair.kind == Kind::EdgeEdge);
            hits.truncate(LOG_LIMIT);
            Told { log: hits, ..told(steps) }
        }),
        telling("one-hit-a-step", "of each step only the first hit logged", |steps| {
            let mut hits = hits(steps);
            let all = hits.len();
            hits.dedup_by_key(|hit| hit.step);
            hits.truncate(LOG_LIMIT);
            Told { later: (all - hits.len()) as u64, log: hits, ..told(steps) }
        }),
    ]
}

// ---- steps

fn steps_wrong() -> Vec<Mistake> {
    let stepping = |key: &str, says: &str, steps: fn(&Series) -> Vec<Scene>| {
        mistake(key, says, Stages { steps: Some(Box::new(steps)), ..Stages::default() })
    };
    vec![
        stepping("start-from-the-scene", "each step starts where the scene started", |series| {
            let scene = &series.scene;
            let restarted = |block: &Vec<[i64; 3]>| {
                let goes = |(v, next): (&[i64; 6], &[i64; 3])| [v[0], v[1], v[2], next[0], next[1], next[2]];
                Scene { vertices: scene.vertices.iter().zip(block).map(goes).collect(), ..scene.clone() }
            };
            std::iter::once(scene.clone()).chain(series.blocks.iter().map(restarted)).collect()
        }),
        stepping("start-from-the-scenes-end", "each step starts where the scene ended", |series| {
            let scene = &series.scene;
            let restarted = series.blocks.iter().map(|block| step_after(scene, block));
            std::iter::once(scene.clone()).chain(restarted).collect()
        }),
        stepping("scene-no-step", "the first block is step 1", |series| {
            let steps = series.steps();
            steps[(steps.len() > 1) as usize..].to_vec()
        }),
        stepping("last-block-lost", "a step is walked at the next `n`, and the last never", |series| {
            let steps = series.steps();
            steps[..(steps.len() - 1).max(1)].to_vec()
        }),
    ]
}

// ---- room

fn rooms() -> Vec<Mistake> {
    let room = |key: &str, says: &str, room: Room| mistake(key, says, Stages { room: Some(room), ..Stages::default() });
    vec![
        room("room-of-the-last-step", "7 looked for in the last step only", |counts, room| {
            no_room(counts.last().filter(|&&count| count > room))
        }),
        room("room-the-largest", "7 with the largest count", |counts, room| {
            no_room(counts.iter().max().filter(|&&count| count > room))
        }),
        room("room-the-last", "7 for the last step without room", |counts, room| {
            no_room(counts.iter().rev().find(|&&count| count > room))
        }),
        room("room-together", "7 where all lists together have no room", |counts, room| {
            no_room(Some(&counts.iter().sum::<usize>()).filter(|&&count| count > room))
        }),
    ]
}

// ---- what is left in the lent buffers

fn leavings() -> Vec<Mistake> {
    let leaving = |key: &str, says: &str, leave: Leave| mistake(key, says, Stages { leave: Some(leave), ..Stages::default() });
    vec![
        leaving("earlier-list-left", "each step lists into the lent list, and a longer list stays behind", |whole, left| {
            if !whole.refused {
                whole.lists.iter().for_each(|list| put_list(list, left));
            }
        }),
        leaving("first-list-left", "the list of the scene is left", |whole, left| {
            if !whole.refused {
                put_list(&whole.lists[0], left);
            }
        }),
        leaving("scene-left", "the buffers hold the scene, not the last step", |whole, left| {
            if !whole.refused {
                put_positions(&whole.steps[0], left);
            }
        }),
        leaving("boxes-of-the-scene", "the boxes are those of the scene", |whole, left| {
            if !whole.refused {
                let boxes: Vec<i32> = stored::boxes(&whole.steps[0], stored::Wrong::None).iter().map(|&n| n as i32).collect();
                in_front(&mut left.boxes, &boxes);
            }
        }),
        leaving("log-cleared", "rows of the log that hold nothing are set to 0", |whole, left| {
            if !whole.refused {
                left.log[2 * left.told[0] as usize..].fill(0);
            }
        }),
        leaving("scene-before-room", "the scene is left in the buffers though a list has no room", |whole, left| {
            if whole.refused {
                put_positions(&whole.steps[0], left);
            }
        }),
        leaving("lists-before-room", "steps are listed until one has no room", |whole, left| {
            let room = left.list.len();
            let listed = whole.lists.iter().take_while(|list| whole.refused && list.len() <= room);
            listed.for_each(|list| put_list(list, left));
        }),
    ]
}

fn put_list(list: &[Pair], left: &mut Lent) {
    in_front(&mut left.list, &list.iter().map(|&pair| entry(pair)).collect::<Vec<u32>>());
}

fn put_positions(step: &Scene, left: &mut Lent) {
    let positions: Vec<i32> = step.vertices.iter().flatten().map(|&n| n as i32).collect();
    in_front(&mut left.positions, &positions);
}

// ---- reading

fn reading(
    key: impl Into<String>,
    says: impl Into<String>,
    read: impl Fn(&[u8]) -> Result<Series, Refusal> + 'static,
) -> Mistake {
    mistake(key, says, Stages { read: Some(Box::new(read)), ..Stages::default() })
}

/// What a reader does otherwise.
#[derive(Clone, Copy, PartialEq, Eq)]
enum Knob {
    TooManyTaken,
    TooFewTaken,
    EndTooSoonTaken,
    SeamNever,
    SeamAtTheEnd,
    SixTaken,
    ElevenInABlock,
    OtherIsBad,
    NextWithATab,
}

/// A line as such a reader takes it.
fn understood(knob: Knob, line: &[u8], in_block: bool) -> Vec<u8> {
    let fields: Vec<&[u8]> = line.split(|&byte| byte == b'\t').collect();
    match knob {
        Knob::SixTaken if in_block && fields.len() == 7 && fields[0] == b"v" && text::record(line).is_some() => {
            [&[&b"v"[..]], &fields[4..]].concat().join(&b'\t')
        }
        Knob::NextWithATab if line == b"n\t" => b"n".to_vec(),
        _ => line.to_vec(),
    }
}

fn read_with(knob: Knob, text: &[u8]) -> Result<Series, Refusal> {
    if text.len() > TEXT_LIMIT {
        return Err(Refusal::bare(TEXT_TOO_LONG));
    }
    let mut above = Series::default();
    let lines: Vec<&[u8]> = text.split_inclusive(|&byte| byte == b'\n').collect();
    let mut apart = false;
    for (place, line) in lines.iter().enumerate() {
        let number = place as u64 + 1;
        let last = place + 1 == lines.len();
        let in_block = above.blocks.last().map(Vec::len);
        let body = line.strip_suffix(b"\n");
        let line = understood(knob, body.unwrap_or(line), in_block.is_some());
        let mut faults = of_line(&line, body.is_some(), &above, last);
        let vertices = above.scene.vertices.len();
        let is_end = in_block.is_some() && line.first() == Some(&b'v');
        let too_many = is_end && in_block == Some(vertices);
        let is_next = line == b"n";
        let too_soon = is_next && in_block.is_some_and(|lines| lines < vertices);
        match knob {
            Knob::TooManyTaken if too_many => faults.retain(|&fault| fault != WRONG_BLOCK),
            Knob::TooFewTaken if !too_many => faults.retain(|&fault| fault != WRONG_BLOCK),
            Knob::EndTooSoonTaken if !too_many && !too_soon => faults.retain(|&fault| fault != WRONG_BLOCK),
            Knob::ElevenInABlock if too_many && vertices == VERTEX_LIMIT && faults.first() == Some(&WRONG_BLOCK) => {
                faults.insert(0, ONE_TOO_MANY)
            }
            Knob::OtherIsBad if in_block.is_some() && faults.first() == Some(&OUT_OF_ORDER) => faults.insert(0, BAD_LINE),
            Knob::SeamNever | Knob::SeamAtTheEnd if is_end => {
                apart |= faults.contains(&BROKEN_SEAM);
                faults.retain(|&fault| fault != BROKEN_SEAM);
            }
            _ => {}
        }
        if let Some(&fault) = faults.first() {
            return Err(Refusal::new(fault, number));
        }
        if knob == Knob::SeamAtTheEnd && last && apart {
            return Err(Refusal::new(BROKEN_SEAM, number));
        }
        if too_soon {
            fill_last_block(&mut above);
        }
        if !too_many {
            add(&mut above, &line);
        }
    }
    fill_last_block(&mut above);
    Ok(above)
}

/// The vertices that a block does not speak of stay where they are.
fn fill_last_block(series: &mut Series) {
    let Some(block) = series.blocks.pop() else { return };
    let step = series.steps().pop().unwrap();
    let stay = step.vertices.iter().skip(block.len()).map(|v| [v[3], v[4], v[5]]);
    let block = block.iter().copied().chain(stay).collect();
    series.blocks.push(block);
}

/// The line of the `n` above a line.
fn next_above(text: &[u8], line: u64) -> u64 {
    let lines: Vec<&[u8]> = text.split_inclusive(|&byte| byte == b'\n').collect();
    let above = (0..line as usize).rev().find(|&place| lines[place] == b"n\n");
    above.map_or(line, |place| place as u64 + 1)
}

fn readings() -> Vec<Mistake> {
    let line_of_13 = |key: &str, says: &str, line: fn(&[u8], u64) -> u64| {
        reading(key, says, move |text| {
            read(text).map_err(|refusal| match refusal.number {
                WRONG_BLOCK => Refusal::new(WRONG_BLOCK, line(text, refusal.third)),
                _ => refusal,
            })
        })
    };
    let lines_of = |text: &[u8]| text.split_inclusive(|&byte| byte == b'\n').count() as u64;
    let knob = |key: &str, says: &str, knob: Knob| reading(key, says, move |text| read_with(knob, text));
    vec![
        line_of_13("13-at-its-block", "13 at the `n` of the block", next_above),
        line_of_13("13-a-line-later", "13 at the line behind the one too many or too soon", |_, line| line + 1),
        reading("13-behind-the-end", "where the text ends too soon, 13 behind its last line", move |text| {
            read(text).map_err(|refusal| match refusal {
                Refusal { number: WRONG_BLOCK, third } if third == lines_of(text) && ends_short(text) => {
                    Refusal::new(WRONG_BLOCK, third + 1)
                }
                _ => refusal,
            })
        }),
        reading("13-at-the-next-n", "lines too many told at the next `n`, or at the last line", move |text| {
            read(text).map_err(|refusal| match refusal {
                Refusal { number: WRONG_BLOCK, third }
                    if at_line(text, third).starts_with(b"v") && !ends_short_at(text, third) =>
                {
                    let behind = (third + 1..=lines_of(text)).find(|&line| at_line(text, line) == b"n\n");
                    Refusal::new(WRONG_BLOCK, behind.unwrap_or(lines_of(text)))
                }
                _ => refusal,
            })
        }),
        knob("too-many-taken", "a `v` line too many passed over", Knob::TooManyTaken),
        knob("too-few-taken", "vertices that a block leaves out stay where they are", Knob::TooFewTaken),
        knob("end-too-soon-taken", "a last block that is too short taken", Knob::EndTooSoonTaken),
        knob("15-never", "seams not looked at in blocks", Knob::SeamNever),
        knob("15-at-the-end", "seams of all blocks looked at behind the last line", Knob::SeamAtTheEnd),
        reading("15-at-its-line", "15 at the line of the sewn vertex, not at the block's last", |text| {
            read(text).map_err(|refusal| match refusal.number {
                BROKEN_SEAM if next_above(text, refusal.third) < refusal.third => {
                    Refusal::new(BROKEN_SEAM, sewn_line(text, refusal.third))
                }
                _ => refusal,
            })
        }),
        knob("six-taken", "six numbers in a block taken, the first three passed over", Knob::SixTaken),
        knob("11-in-a-block", "the 513th line of a block refused with 11", Knob::ElevenInABlock),
        knob("other-is-9", "another record after an `n` refused with 9", Knob::OtherIsBad),
        knob("next-with-a-tab", "`n` taken with a tab behind it", Knob::NextWithATab),
        reading("room-first", "7 of an early step given where a later line is faulty", |text| {
            let series = read(text);
            if series.as_ref().is_err_and(|refusal| refusal.number != TEXT_TOO_LONG) {
                for step in super::faults::faultless(text) {
                    listing::list(&step, REPORT_ROOM)?;
                }
            }
            series
        }),
        reading("last-faulty-line", "the last faulty line given, not the first", |text| {
            let series = read(text);
            match &series {
                Err(refusal) if LINE_CHECKS.contains(&refusal.number) => {
                    let lines = of_lines(text);
                    let last = lines.iter().rposition(|faults| !faults.is_empty()).unwrap();
                    Err(Refusal::new(lines[last][0], last as u64 + 1))
                }
                _ => series,
            }
        }),
        reading("lines-from-0", "lines counted from 0", |text| {
            read(text).map_err(|refusal| Refusal::new(refusal.number, refusal.third.saturating_sub(1)))
        }),
        reading("lines-of-blocks", "lines counted from the last `n`", |text| {
            read(text).map_err(|refusal| match next_above(text, refusal.third.max(1).min(lines_in(text))) {
                above if refusal.third > above && LINE_CHECKS.contains(&refusal.number) => {
                    Refusal::new(refusal.number, refusal.third - above)
                }
                _ => refusal,
            })
        }),
        reading("length-last", "8 looked for after the lines", |text| {
            let long = text.len() > TEXT_LIMIT;
            let lines = of_lines(text);
            let first = lines.iter().position(|faults| !faults.is_empty()).filter(|_| long);
            first.map_or_else(|| read(text), |place| Err(Refusal::new(lines[place][0], place as u64 + 1)))
        }),
    ]
}

fn lines_in(text: &[u8]) -> u64 {
    text.split_inclusive(|&byte| byte == b'\n').count() as u64
}

fn at_line(text: &[u8], line: u64) -> &[u8] {
    text.split_inclusive(|&byte| byte == b'\n').nth(line as usize - 1).unwrap_or_default()
}

/// Whether the text is refused because it ends too soon: without its last line being too many or too soon.
fn ends_short(text: &[u8]) -> bool {
    ends_short_at(text, lines_in(text))
}

/// The same of the line at which 13 was found: with a line more behind it that is no fault it would not have been.
fn ends_short_at(text: &[u8], line: u64) -> bool {
    let front: Vec<u8> = text.split_inclusive(|&byte| byte == b'\n').take(line as usize).flatten().copied().collect();
    let more = [&front[..], b"v\t0\t0\t0\n"].concat();
    line == lines_in(text) && !matches!(read(&more), Err(Refusal { number: WRONG_BLOCK, third }) if third == line)
}

/// The line of the first sewn vertex that comes apart in the block of this line.
fn sewn_line(text: &[u8], line: u64) -> u64 {
    let scene_lines = text.split_inclusive(|&byte| byte == b'\n').take_while(|line| *line != b"n\n");
    let scene = text::read(&scene_lines.flatten().copied().collect::<Vec<u8>>()).expect("a scene above the first `n`");
    let above = next_above(text, line);
    let next = |v: usize| at_line(text, above + 1 + v as u64);
    let apart = scene.seams.iter().find(|&&[i, j]| next(i) != next(j));
    apart.map_or(line, |&[i, _]| above + 1 + i as u64)
}

/// One check before another, in a line or in the whole text.
fn orders() -> Vec<Mistake> {
    let in_one_line = cells().into_iter().filter_map(|cell| match cell {
        Cell::InOneLine(given, other) => Some((given, other)),
        _ => None,
    });
    let in_one_line = in_one_line.map(|(right, early)| {
        reading(format!("{early}-before-{right}"), format!("in one line, {early} looked for before {right}"), move |text| {
            read(text).map_err(|refusal| {
                let too = refusal.number == right && of_lines(text)[refusal.third as usize - 1].contains(&early);
                Refusal::new(if too { early } else { refusal.number }, refusal.third)
            })
        })
    });
    let in_the_whole = LINE_CHECKS.map(|early| {
        let says = format!("{early} looked for in the whole text before the other faults of lines");
        reading(format!("{early}-before-all"), says, move |text| {
            let series = read(text);
            let first = of_lines(text).iter().position(|faults| faults.contains(&early));
            match (&series, first) {
                (Err(refusal), Some(line)) if refusal.number != TEXT_TOO_LONG => Err(Refusal::new(early, line as u64 + 1)),
                _ => series,
            }
        })
    });
    in_one_line.chain(in_the_whole).collect()
}
