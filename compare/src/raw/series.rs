//! The call that tells of a series: what it is asked, what it must answer and leave, and the sorts of question.

use super::question::*;
use crate::list::listing;
use crate::numbers::random::Random;
use crate::scene::refusal::*;
use crate::scene::{REPORT_ROOM, TEXT_LIMIT};
use crate::series::making;
use crate::series::mistakes::{Mistake, Right};
use crate::series::{self, ended_lent, least_lengths, LOG_LIMIT};

/// Mistakes that are made on purpose in answers: of each stage some.
pub const DAMAGES: [&str; 21] = [
    "oldest-dropped", "newest-replaced", "touch-logged", "full-at-63", "later-dropped", "steps-from-0", "first-by-touch",
    "totals-of-the-last-step", "start-from-the-scene", "last-block-lost", "room-of-the-last-step", "room-the-largest",
    "earlier-list-left", "first-list-left", "scene-left", "boxes-of-the-scene", "log-cleared", "scene-before-room",
    "lists-before-room", "13-at-its-block", "2-before-13",
];

/// Longer texts take their time with every mistake.
pub fn is_short(question: &Question) -> bool {
    question.lent.text.len() <= 2_000
}

// ---- from what is lent here to what the independent program takes

fn taken(lent: &Lent) -> series::Lent {
    series::Lent {
        positions: lent.positions.clone(),
        edges: lent.edges.clone(),
        triangles: lent.triangles.clone(),
        seams: lent.seams.clone(),
        boxes: lent.boxes.clone(),
        list: lent.list.clone(),
        counts: lent.counts[..].try_into().expect("four counts"),
        log: lent.log[..].try_into().expect("64 rows"),
        told: lent.told[..].try_into().expect("eight numbers"),
    }
}

fn left(lent: &mut Lent, after: series::Lent) {
    let series::Lent { positions, edges, triangles, seams, boxes, list, counts, log, told } = after;
    let (counts, log, told) = (counts.to_vec(), log.to_vec(), told.to_vec());
    *lent = Lent { positions, edges, triangles, seams, boxes, list, counts, log, told, ..lent.clone() };
}

pub fn told(lent: &mut Lent) -> Result<u64, Refusal> {
    let mut after = taken(lent);
    let ended = ended_lent(&lent.text, &after);
    let number = series::answered(&ended, &mut after);
    left(lent, after);
    ended.map(|_| number)
}

/// The answer of a program that makes this mistake.
pub fn wrong(question: &Question, mistake: &Mistake) -> Answer {
    let mut lent = question.lent.clone();
    let short = ended_lent(&lent.text, &taken(&lent)).is_err_and(|refusal| refusal.number == LENT_TOO_SHORT);
    if short {
        return Answer { number: LENT_TOO_SHORT << 32, buffers: lent.bytes() };
    }
    let outcome = mistake.outcome(&Right::lent(&lent.text, taken(&lent)));
    left(&mut lent, outcome.left);
    Answer { number: outcome.answer, buffers: lent.bytes() }
}

// ---- asking

fn ask(text: &[u8], lengths: [usize; 5], room: usize) -> Question {
    let [positions, edges, triangles, seams, boxes] = lengths;
    let wide = |length: usize| marks_of_32(length).into_iter().map(|n| n as i32).collect::<Vec<i32>>();
    let lent = Lent {
        positions: wide(positions),
        edges: marks_of_16(edges),
        triangles: marks_of_16(triangles),
        seams: marks_of_16(seams),
        boxes: wide(boxes),
        list: marks_of_32(room),
        counts: vec![u64::MAX - 1, 77, 1 << 40, 5],
        log: marks_of_32(2 * LOG_LIMIT),
        told: (0..8).map(|i| u64::MAX - 3 * i).collect(),
        text: text.to_vec(),
        ..Lent::default()
    };
    Question::new(Call::TellSeries, lent)
}

/// With just the lengths and more, with each buffer too short, with just the room of the largest step, one less, and none.
fn about(random: &mut Random, text: &[u8]) -> Vec<Question> {
    let least = least_lengths();
    let longer = least.map(|length| length + random.below(30));
    let mut short = longer;
    let which = random.below(5);
    short[which] = random.pick(&[least[which] - 1, least[which] - 1, 0]);
    let steps = series::read(text).map(|series| series.steps()).unwrap_or_default();
    let most = if steps.len() > 200 { 0 } else { steps.iter().map(|step| listing::listed(step).len()).max().unwrap_or(0) };
    let room = REPORT_ROOM + random.below(9);
    let mut out = vec![ask(text, least, room), ask(text, longer, room), ask(text, short, room)];
    if most > 0 && most <= REPORT_ROOM {
        out.extend([most, most - 1, 0].map(|room| ask(text, least, room)));
    }
    out
}

/// Texts that are long in steps or in pairs take their time, and are left to the comparison of programs.
const LONGEST: usize = 12_000;

pub fn fixed() -> Vec<Question> {
    let mut random = Random::new(2);
    let own = making::own().into_iter().filter(|trial| trial.text.len() <= LONGEST || trial.text.len() > TEXT_LIMIT);
    own.flat_map(|trial| about(&mut random, &trial.text)).collect()
}

pub fn seeded(seed: u64) -> Vec<Question> {
    let mut random = Random::new(seed ^ 0x5e71e5);
    let trials = making::seeded(seed).into_iter().filter(|trial| trial.text.len() <= LONGEST || trial.text.len() > TEXT_LIMIT);
    trials.flat_map(|trial| about(&mut random, &trial.text)).collect()
}

// ---- sorts

const SHORT: [&str; 5] = ["positions", "edges", "triangles", "seams", "boxes"];
const OTHERS: [&str; 12] = [
    "answered", "answered with seams", "no vertices", "no hit", "fewer hits than the log holds", "just so many", "more",
    "a longer list before the last", "just the room", "7 in a later step", "12 before 8", "12 before a line",
];
const REFUSED: [u64; 11] = [2, 3, 4, 7, 8, 9, 10, 11, 12, 13, 15];

pub fn sorts() -> Vec<String> {
    let short = SHORT.map(|buffer| format!("tell_series: 12, {buffer}"));
    let refused = REFUSED.map(|number| format!("tell_series: refused {number}"));
    short.into_iter().chain(refused).chain(OTHERS.map(|sort| format!("tell_series: {sort}"))).collect()
}

pub fn sorts_of(question: &Question, answer: &Answer) -> Vec<String> {
    let lent = &question.lent;
    let mut out = Vec::new();
    let mut add = |holds: bool, sort: &str| out.extend(holds.then(|| format!("tell_series: {sort}")));
    let given = answer.refusal();
    let read = series::read(&lent.text);
    add(given > 0, &format!("refused {given}"));
    if given == LENT_TOO_SHORT {
        let lengths = [lent.positions.len(), lent.edges.len(), lent.triangles.len(), lent.seams.len(), lent.boxes.len()];
        let short = SHORT.iter().zip(lengths).zip(least_lengths()).filter(|((_, length), least)| length < least);
        short.for_each(|((buffer, _), _)| add(true, &format!("12, {buffer}")));
        add(lent.text.len() > TEXT_LIMIT, "12 before 8");
        add(read.is_err() && lent.text.len() <= TEXT_LIMIT, "12 before a line");
    }
    let Ok(series) = read else { return out };
    let steps = series.steps();
    if given == NO_ROOM {
        add(listing::listed(&steps[0]).len() <= lent.list.len(), "7 in a later step");
    }
    if given == 0 {
        let lists: Vec<usize> = steps.iter().map(|step| listing::listed(step).len()).collect();
        let told = &answer.buffers[TOLD][MARGIN..];
        let number = |place: usize| u64::from_le_bytes(told[8 * place..8 * place + 8].try_into().unwrap());
        let (held, later) = (number(0), number(1));
        add(true, "answered");
        add(!series.scene.seams.is_empty(), "answered with seams");
        add(series.scene.vertices.is_empty(), "no vertices");
        add(held == 0, "no hit");
        add(held > 0 && held < LOG_LIMIT as u64, "fewer hits than the log holds");
        add(held == LOG_LIMIT as u64 && later == 0, "just so many");
        add(later > 0, "more");
        add(lists.iter().any(|before| before > lists.last().unwrap()), "a longer list before the last");
        add(lists.iter().any(|&count| count > 0 && count == lent.list.len()), "just the room");
    }
    out
}
