//! Answers of calls with stored boxes that are wrong in one respect each.

use super::change::{damage, Damage};
use super::expected::{self, Expecting};
use super::question::*;
use crate::calls::stored::{self, BOX_NUMBERS, WRONG};
use crate::scene::refusal::*;
use crate::scene::COORDINATE_LIMIT;

pub fn all() -> Vec<Damage> {
    let mut out = wrong_ways();
    out.extend(moves());
    out.extend(orders());
    out.extend(buffers());
    out.extend(reading());
    out
}

/// A text read with its boxes.
fn reading() -> Vec<Damage> {
    let read = |question: &Question, answer: &Answer| question.call == Call::ReadBoxed && answer.refusal() == 0;
    let few = |question: &Question| question.call == Call::ReadBoxed && question.lent.boxes.len() < BOX_NUMBERS;
    vec![
        damage("a text is read without its boxes", move |question, answer| {
            if read(question, answer) {
                answer.buffers[BOXES] = question.lent.bytes()[BOXES].clone();
            }
        }),
        damage("boxes of one edge less than was read", move |question, answer| {
            if let (true, Ok(scene)) = (read(question, answer), crate::text::read(&question.lent.text)) {
                if !scene.edges.is_empty() {
                    keep(question, answer, BOXES, 6 * (scene.vertices.len() + scene.edges.len() - 1), 6);
                }
            }
        }),
        damage("zeros behind the boxes of a text", move |question, answer| {
            if read(question, answer) {
                let length = question.lent.boxes.len();
                numbers(answer, BOXES, length - 1, 1).fill(0);
            }
        }),
        damage("a refused text leaves a box", |question, answer| {
            if question.call == Call::ReadBoxed && answer.refusal() > 0 && question.lent.boxes.len() >= 6 {
                numbers(answer, BOXES, 0, 6).fill(0);
            }
        }),
        damage("a text's boxes may be short", move |question, answer| {
            if few(question) {
                answer.number = 0;
            }
        }),
        damage("8 before 12 for boxes", move |question, answer| {
            if few(question) && question.lent.text.len() > crate::scene::TEXT_LIMIT {
                answer.number = TEXT_TOO_LONG << 32;
            }
        }),
        damage("a line before 12 for boxes", move |question, answer| {
            if let (true, Err(refusal)) = (few(question), crate::text::read(&question.lent.text)) {
                answer.number = (refusal.number << 32) + refusal.third;
            }
        }),
        damage("a text's highs first", move |question, answer| {
            if read(question, answer) {
                *answer = Expecting::going_wrong(stored::Wrong::HighsFirst).answer(question);
            }
        }),
    ]
}

/// The answer that a program gives which goes wrong in this way.
fn wrong_ways() -> Vec<Damage> {
    let by = |wrong| {
        damage(format!("stored boxes: {wrong:?}"), move |question: &Question, answer: &mut Answer| {
            // a scene of full size has nothing to show that a small one has not, and takes its time
            if question.call.takes_boxes() && question.lent.positions.len() < 600 {
                *answer = Expecting::going_wrong(wrong).answer(question);
            }
        })
    };
    WRONG.map(by).into()
}

fn moved(question: &Question, answer: &Answer) -> bool {
    question.call == Call::MoveVertex && answer.refusal() == 0
}

/// The bytes of so many numbers from a place of a buffer on.
fn numbers(answer: &mut Answer, buffer: usize, place: usize, count: usize) -> &mut [u8] {
    &mut answer.buffers[buffer][MARGIN + 4 * place..][..4 * count]
}

/// The numbers that were there before, from a place on.
fn keep(question: &Question, answer: &mut Answer, buffer: usize, place: usize, count: usize) {
    let before = question.lent.bytes()[buffer][MARGIN + 4 * place..][..4 * count].to_vec();
    numbers(answer, buffer, place, count).copy_from_slice(&before);
}

/// The boxes of the parts that this picks stay as they were.
fn kept_boxes(name: &str, which: fn(&[usize], usize) -> bool) -> Damage {
    damage(name, move |question, answer| {
        if moved(question, answer) {
            let scene = expected::scene(&question.lent).expect("it was moved");
            let vertex = question.asked[0] as usize;
            let parts = stored::parts(&scene).into_iter().enumerate();
            parts.filter(|(_, part)| which(part, vertex)).for_each(|(place, _)| keep(question, answer, BOXES, 6 * place, 6));
        }
    })
}

/// What a move leaves.
fn moves() -> Vec<Damage> {
    let narrowed = |bits: u32| {
        damage(format!("only {bits} bits of the vertex are looked at"), move |question: &Question, answer: &mut Answer| {
            if question.call == Call::MoveVertex && question.lent.positions.len() < 600 {
                let asked = question.asked.map(|n| n & ((1 << bits) - 1));
                *answer = Expecting::default().answer(&Question { asked, ..question.clone() });
            }
        })
    };
    vec![
        kept_boxes("the moved vertex's own box stays", |part, vertex| part == [vertex]),
        kept_boxes("the boxes of its edges stay", |part, vertex| part.len() == 2 && part.contains(&vertex)),
        kept_boxes("the boxes of its triangles stay", |part, vertex| part.len() == 3 && part.contains(&vertex)),
        kept_boxes("only the first end is looked for", |part, vertex| part.len() == 2 && part[1] == vertex),
        kept_boxes("only the first two corners are looked for", |part, vertex| part.len() == 3 && part[2] == vertex),
        damage("a move fills all boxes", |question, answer| {
            if moved(question, answer) {
                let mut scene = expected::scene(&question.lent).expect("it was moved");
                scene.vertices[question.asked[0] as usize] = std::array::from_fn(|k| question.lent.coordinates[k] as i64);
                let right: Vec<u8> =
                    stored::boxes(&scene, stored::Wrong::None).iter().flat_map(|&n| (n as i32).to_le_bytes()).collect();
                answer.buffers[BOXES][MARGIN..MARGIN + right.len()].copy_from_slice(&right);
            }
        }),
        damage("a box only grows", |question, answer| {
            if moved(question, answer) {
                let count = stored::parts(&expected::scene(&question.lent).unwrap()).len();
                for (place, &before) in question.lent.boxes[..6 * count].iter().enumerate() {
                    let bytes = numbers(answer, BOXES, place, 1);
                    let after = i32::from_le_bytes((&*bytes).try_into().unwrap());
                    let joint = if place % 6 < 3 { after.min(before) } else { after.max(before) };
                    bytes.copy_from_slice(&joint.to_le_bytes());
                }
            }
        }),
        damage("the end is not placed", |question, answer| {
            if moved(question, answer) {
                keep(question, answer, POSITIONS, 6 * question.asked[0] as usize + 3, 3);
            }
        }),
        damage("the start is not placed", |question, answer| {
            if moved(question, answer) {
                keep(question, answer, POSITIONS, 6 * question.asked[0] as usize, 3);
            }
        }),
        damage("start and end change places", |question, answer| {
            if moved(question, answer) {
                numbers(answer, POSITIONS, 6 * question.asked[0] as usize, 6).rotate_left(12);
            }
        }),
        damage("what is sewn to a vertex goes with it", |question, answer| {
            let (lent, vertex) = (&question.lent, question.asked[0]);
            let seam = lent.seams.chunks_exact(2).find(|seam| seam.iter().any(|&v| v as u64 == vertex));
            if let (Call::MoveVertex, BROKEN_SEAM, Some(_), Ok(_)) =
                (question.call, answer.refusal(), seam, expected::scene(lent))
            {
                answer.number = 0;
            }
        }),
        narrowed(16),
        narrowed(32),
    ]
}

/// Which refusal is given where there are two, and what it carries.
fn orders() -> Vec<Damage> {
    let refused = |name: &str, given: u64, other: u64, holds: fn(&Question) -> bool| {
        damage(name, move |question: &Question, answer: &mut Answer| {
            if question.call.takes_boxes() && answer.refusal() == given && holds(question) {
                answer.number = other << 32;
            }
        })
    };
    let far = |question: &Question| question.lent.coordinates.iter().any(|&n| (n as i64).abs() > COORDINATE_LIMIT);
    let sewn = |question: &Question| question.lent.seams.iter().any(|&v| v as u64 == question.asked[0]);
    let answered = |name: &str, given: u64, holds: fn(&Question) -> bool| {
        damage(name, move |question: &Question, answer: &mut Answer| {
            if question.call.takes_boxes() && answer.refusal() == given && holds(question) {
                answer.number = 0;
            }
        })
    };
    vec![
        refused("1 before 12 for boxes", LENT_TOO_SHORT, BAD_SHAPE, |question| {
            expected::scene(&question.lent).is_err_and(|refusal| refusal.number == BAD_SHAPE)
        }),
        refused("15 of the scene before 12 for boxes", LENT_TOO_SHORT, BROKEN_SEAM, |question| {
            expected::scene(&question.lent).is_err_and(|refusal| refusal.number == BROKEN_SEAM)
        }),
        refused("2 before 5", NOT_THERE, OUT_OF_RANGE, far),
        refused("15 before 2", OUT_OF_RANGE, BROKEN_SEAM, sewn),
        refused("2 for 15", BROKEN_SEAM, OUT_OF_RANGE, sewn),
        refused("5 before the scene", VERTEX_TWICE, NOT_THERE, |question| {
            question.call == Call::MoveVertex && question.asked[0] >= question.lent.positions.len() as u64 / 6
        }),
        refused("17 before the scene", VERTEX_TWICE, STALE_BOX, |question| question.call.looks_over_boxes()),
        answered("12 goes by the boxes that the scene has", LENT_TOO_SHORT, |question| {
            let lent = &question.lent;
            lent.boxes.len() >= lent.positions.len() + 6 * (lent.edges.len() / 2 + lent.triangles.len() / 3)
        }),
        answered("12,287 box numbers are enough", LENT_TOO_SHORT, |question| question.lent.boxes.len() + 1 == BOX_NUMBERS),
        answered("new coordinates are not looked at", OUT_OF_RANGE, far),
        answered("a seam is seen from the vertex replaced alone", BROKEN_SEAM, |question| {
            expected::scene(&question.lent)
                .is_ok_and(|scene| scene.stands_for(question.asked[0] as usize) as u64 == question.asked[0])
        }),
        answered("a seam is seen from the one stood for alone", BROKEN_SEAM, |question| {
            expected::scene(&question.lent)
                .is_ok_and(|scene| scene.stands_for(question.asked[0] as usize) as u64 != question.asked[0])
        }),
        answered("a seam is looked at at the start alone", BROKEN_SEAM, |question| {
            let own = question.lent.positions.get(6 * question.asked[0] as usize..).map(|from| &from[..3]);
            question.call == Call::MoveVertex && own == Some(&question.lent.coordinates[..3])
        }),
        damage("a sewn vertex is never moved", move |question, answer| {
            if moved(question, answer) && sewn(question) {
                *answer = Answer { number: BROKEN_SEAM << 32, buffers: question.lent.bytes() };
            }
        }),
        damage("a move looks for 17", |question, answer| {
            let stale = |question: &Question| {
                let scene = expected::scene(&question.lent).expect("it was moved");
                stored::boxes(&scene, stored::Wrong::None).iter().zip(&question.lent.boxes).any(|(&right, &n)| right != n as i64)
            };
            if moved(question, answer) && stale(question) {
                *answer = Answer { number: STALE_BOX << 32, buffers: question.lent.bytes() };
            }
        }),
        damage("17 carries a place", |question, answer| {
            answer.number |= (question.call.takes_boxes() && answer.refusal() == STALE_BOX) as u64
        }),
        damage("the list of the stored boxes, stale as they are", |_, answer| {
            if answer.refusal() == STALE_BOX {
                answer.number = 0;
            }
        }),
    ]
}

/// What is written where nothing is to be.
fn buffers() -> Vec<Damage> {
    let behind = |question: &Question| stored::parts(&expected::scene(&question.lent).unwrap()).len();
    vec![
        damage("zeros behind the boxes that are filled in", move |question, answer| {
            if question.call == Call::FillBoxes && answer.refusal() == 0 {
                let place = 6 * behind(question);
                numbers(answer, BOXES, place, question.lent.boxes.len() - place).fill(0);
            }
        }),
        damage("boxes at the places that a full scene has", move |question, answer| {
            if question.call == Call::FillBoxes && answer.refusal() == 0 {
                let vertices = question.lent.positions.len() / 6;
                let edges: Vec<u8> = numbers(answer, BOXES, 6 * vertices, 6 * (behind(question) - vertices)).to_vec();
                let from = MARGIN + 4 * 6 * 512;
                answer.buffers[BOXES][from..from + edges.len()].copy_from_slice(&edges);
            }
        }),
        damage("the first box is filled in before 12", |question, answer| {
            if question.call.takes_boxes() && answer.refusal() == LENT_TOO_SHORT && question.lent.boxes.len() >= 6 {
                numbers(answer, BOXES, 0, 6).fill(0);
            }
        }),
        damage("a refused move is placed all the same", |question, answer| {
            let vertex = question.asked[0] as usize;
            if question.call == Call::MoveVertex && answer.refusal() == BROKEN_SEAM && vertex < question.lent.positions.len() / 6
            {
                let to: Vec<u8> = question.lent.coordinates.iter().flat_map(|n| n.to_le_bytes()).collect();
                numbers(answer, POSITIONS, 6 * vertex, 6).copy_from_slice(&to);
            }
        }),
        damage("a refused move mends the box all the same", |question, answer| {
            if question.call == Call::MoveVertex && answer.refusal() == OUT_OF_RANGE && question.lent.boxes.len() >= BOX_NUMBERS {
                numbers(answer, BOXES, 0, 6).fill(0);
            }
        }),
        damage("a list from stale boxes mends them", |question, answer| {
            if answer.refusal() == STALE_BOX {
                let scene = expected::scene(&question.lent).expect("17 is of a scene that is one");
                let right: Vec<u8> =
                    stored::boxes(&scene, stored::Wrong::None).iter().flat_map(|&n| (n as i32).to_le_bytes()).collect();
                answer.buffers[BOXES][MARGIN..MARGIN + right.len()].copy_from_slice(&right);
            }
        }),
        damage("box tests told with 17", |question, answer| {
            if question.call.tells_tests() && answer.refusal() == STALE_BOX {
                answer.buffers[COUNTS][MARGIN..MARGIN + 8].fill(0);
            }
        }),
        damage("the look over the boxes counts as tests", move |question, answer| {
            if question.call.takes_boxes() && question.call.tells_tests() && answer.refusal() == 0 {
                let bytes = &mut answer.buffers[COUNTS][MARGIN..MARGIN + 8];
                let tests = u64::from_le_bytes((&*bytes).try_into().unwrap()) + behind(question) as u64;
                bytes.copy_from_slice(&tests.to_le_bytes());
            }
        }),
    ]
}
