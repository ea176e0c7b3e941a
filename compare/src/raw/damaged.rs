//! Answers that are wrong in one respect each, so that the comparison can be seen to fail.

use super::change::{damage, Damage};
use super::expected::{self, Expecting};
use super::harm::{of_asked, of_range, of_scene, SCENE_CHECKS, SCENE_FAULTS};
use super::question::*;
use super::sorts::row;
use super::stored_damaged;
use crate::contacts::mistakes::{self, Mistake};
use crate::list::box_tests;
use crate::list::listing;
use crate::obj;
use crate::scene::backwards;
use crate::scene::refusal::*;
use crate::scene::{Kind, Pair, Scene, COORDINATE_LIMIT, FIRST_COORDINATE_LIMIT};

pub fn all() -> Vec<Damage> {
    let mut out = numbers();
    out.extend(words());
    out.extend(orders());
    out.extend(rooms());
    out.extend(counts());
    out.extend(texts());
    out.extend(buffers());
    out.extend(bytes());
    out.extend(turning());
    out.extend(claims());
    out.extend(seams());
    out.extend(box_tests());
    out.extend(contacts());
    out.extend(contact_rows());
    out.extend(wrong_contacts());
    out.extend(own_lists());
    out.extend(saving());
    out.extend(just_long_enough());
    out.extend(stored_damaged::all());
    out.extend(importing());
    out.extend(series());
    out.extend(super::meshes::damages());
    out
}

/// The text of the scene as this makes it, in the place of the right one.
fn saved_as(name: &str, wrong: impl Fn(&mut Lent) -> String + 'static) -> Damage {
    damage(name, move |question, answer| {
        if question.call == Call::SaveScene && answer.refusal() == 0 {
            let text = wrong(&mut question.lent.clone());
            let room = question.lent.text.len();
            let mut buffer = question.lent.text.clone();
            let length = text.len().min(room);
            buffer[..length].copy_from_slice(&text.as_bytes()[..length]);
            answer.buffers[TEXT][MARGIN..MARGIN + room].copy_from_slice(&buffer);
            answer.number = length as u64;
        }
    })
}

/// What a program of series gets wrong, and leaves in what it was lent.
fn series() -> Vec<Damage> {
    let wrong = crate::series::mistakes::all().into_iter().filter(|mistake| super::series::DAMAGES.contains(&&mistake.key[..]));
    let change = |mistake: crate::series::mistakes::Mistake| {
        damage(format!("a series: {}", mistake.says), move |question, answer| {
            if question.call == Call::TellSeries && super::series::is_short(question) {
                *answer = super::series::wrong(question, &mistake);
            }
        })
    };
    wrong.map(change).collect()
}

/// What a writer of texts gets wrong.
fn saving() -> Vec<Damage> {
    let text = |lent: &Lent| expected::saved(lent).expect("it was answered");
    vec![
        saved_as("an edge's ends saved in rising number", move |lent| {
            lent.edges.chunks_exact_mut(2).for_each(|ends| ends.sort_unstable());
            text(lent)
        }),
        saved_as("a triangle's corners saved in rising number", move |lent| {
            lent.triangles.chunks_exact_mut(3).for_each(|corners| corners.sort_unstable());
            text(lent)
        }),
        saved_as("seams left out of what is saved", move |lent| {
            lent.seams.clear();
            text(lent)
        }),
        saved_as("seams saved before the triangles", move |lent| {
            let text = text(lent);
            let of = |records: &str| text.split_inclusive('\n').filter(|line| records.contains(&line[..1])).collect::<String>();
            of("ve") + &of("w") + &of("t")
        }),
        saved_as("a minus lost", move |lent| text(lent).replace('-', "")),
        saved_as("a plus where a minus stands", move |lent| text(lent).replace('-', "+")),
        saved_as("a last line without LF", move |lent| text(lent).trim_end_matches('\n').into()),
        damage("7 before 8 of a text that is saved", |question, answer| {
            let text = expected::scene(&question.lent).map(|scene| crate::text::write(&scene).len());
            if let (Call::SaveScene, TEXT_TOO_LONG, Ok(length)) = (question.call, answer.refusal(), text) {
                if question.lent.text.len() < length {
                    answer.number = (NO_ROOM << 32) + length as u64;
                }
            }
        }),
        damage("8 of a text that is saved carries its length", |question, answer| {
            if let (true, TEXT_TOO_LONG, Ok(scene)) = (question.call.saves(), answer.refusal(), expected::scene(&question.lent)) {
                answer.number += crate::text::write(&scene).len() as u64;
            }
        }),
        damage("a length one byte short", |question, answer| {
            if question.call == Call::SavedLength && answer.refusal() == 0 && answer.number > 0 {
                answer.number -= 1;
            }
        }),
        damage("7 of a text that is saved with one byte too few", |question, answer| {
            answer.number -= (question.call == Call::SaveScene && answer.refusal() == NO_ROOM) as u64;
        }),
        damage("a text of 32,768 bytes is not saved", |question, answer| {
            if question.call == Call::SavedLength && answer.number == crate::scene::TEXT_LIMIT as u64 {
                answer.number = TEXT_TOO_LONG << 32;
            }
        }),
        damage("a text saved where there is no room", |question, answer| {
            if let (Call::SaveScene, NO_ROOM, Ok(text)) = (question.call, answer.refusal(), expected::saved(&question.lent)) {
                let room = question.lent.text.len();
                answer.buffers[TEXT][MARGIN..MARGIN + room].copy_from_slice(&text.as_bytes()[..room]);
            }
        }),
        damage("zeros behind a text that is saved", |question, answer| {
            if question.call == Call::SaveScene && answer.refusal() == 0 {
                let from = MARGIN + answer.number as usize;
                let to = MARGIN + question.lent.text.len();
                answer.buffers[TEXT][from..to].fill(0);
            }
        }),
    ]
}

/// A refusal that leaves everything as it was lent.
fn refused_with(question: &Question, number: u64, carries: u64) -> Answer {
    Answer { number: (number << 32) + carries, buffers: question.lent.bytes() }
}

/// Buffers that are just long enough, and refused; and whatever there is.
fn just_long_enough() -> Vec<Damage> {
    vec![
        damage("every scene is refused", |question, answer| {
            if question.call.takes_a_scene() && answer.refusal() == 0 {
                *answer = refused_with(question, VERTEX_TWICE, 0);
            }
        }),
        damage("a text that just fits is refused", |question, answer| {
            let length = question.lent.text.len() as u64;
            if question.call == Call::SaveScene && answer.number == length && length > 0 {
                *answer = refused_with(question, NO_ROOM, length);
            }
        }),
        damage("words of one's own list that just fit are refused", |question, answer| {
            let count = question.lent.list.len();
            if question.call.takes_a_list() && answer.refusal() == 0 && count > 0 && question.lent.words.len() == count {
                *answer = refused_with(question, NO_ROOM, count as u64);
            }
        }),
        damage("a series whose last list just fits is refused", |question, answer| {
            let count = question.lent.list.len() as u64;
            if question.call == Call::TellSeries && answer.number == count && count > 0 {
                *answer = refused_with(question, NO_ROOM, count);
            }
        }),
        damage("a series without room is told by the room of its boxes", |question, answer| {
            let needed = answer.number as u32 as u64;
            if question.call == Call::TellSeries && answer.refusal() == NO_ROOM && needed <= question.lent.boxes.len() as u64 {
                answer.number = needed;
            }
        }),
        damage("a seam buffer that is just long enough is refused", |question, answer| {
            if question.call.reads() && answer.number == 0 && question.lent.seams.len() == 2 * crate::scene::SEAM_LIMIT {
                *answer = refused_with(question, LENT_TOO_SHORT, 0);
            }
        }),
    ]
}

/// What an import gets wrong: the file of a refusal, the boxes, numbers behind, and each mistake of a reader.
fn importing() -> Vec<Damage> {
    let in_a_file = |answer: &Answer| answer.refusal() > 0 && answer.number as u32 >> 30 > 0;
    let imports = |question: &Question, answer: &Answer| question.call == Call::ImportScene && answer.number == 0;
    let parts = |answer: &Answer| {
        let count = |place: usize| u64::from_le_bytes(answer.buffers[COUNTS][MARGIN + 8 * place..][..8].try_into().unwrap());
        [count(0), count(1), count(2)].map(|count| count as usize)
    };
    let mut out = vec![
        damage("a refusal of a file without the file", move |question, answer| {
            if question.call == Call::ImportScene && in_a_file(answer) {
                answer.number &= !(3 << 30);
            }
        }),
        damage("the files of a refusal exchanged", move |question, answer| {
            if question.call == Call::ImportScene && in_a_file(answer) {
                answer.number ^= 3 << 30;
            }
        }),
        damage("14 told of the end file", |question, answer| {
            answer.number |= ((question.call == Call::ImportScene && answer.refusal() == FILES_DIFFER) as u64) << 31;
        }),
        damage("12 told of the start file", |question, answer| {
            answer.number |= ((question.call == Call::ImportScene && answer.refusal() == LENT_TOO_SHORT) as u64) << 30;
        }),
        damage("an import leaves the boxes", move |question, answer| {
            if imports(question, answer) {
                answer.buffers[BOXES] = question.lent.bytes()[BOXES].clone();
            }
        }),
        damage("an import fills in the boxes of one edge less", move |question, answer| {
            let [vertices, edges, _] = parts(answer);
            if imports(question, answer) && edges > 0 {
                let last = MARGIN + 24 * (vertices + edges - 1);
                answer.buffers[BOXES][last..last + 24].copy_from_slice(&question.lent.bytes()[BOXES][last..last + 24]);
            }
        }),
        damage("an import clears what is behind the boxes", move |question, answer| {
            if imports(question, answer) {
                let [vertices, edges, triangles] = parts(answer);
                let end = answer.buffers[BOXES].len() - MARGIN;
                answer.buffers[BOXES][MARGIN + 24 * (vertices + edges + triangles)..end].fill(0);
            }
        }),
        damage("an import clears the seam buffer", move |question, answer| {
            if imports(question, answer) {
                let end = answer.buffers[SEAMS].len() - MARGIN;
                answer.buffers[SEAMS][MARGIN..end].fill(0);
            }
        }),
        damage("boxes of edges and triangles at their places in the largest scene", move |question, answer| {
            if imports(question, answer) {
                let [vertices, edges, _] = parts(answer);
                let own = answer.buffers[BOXES].clone();
                let from = MARGIN + 24 * vertices;
                answer.buffers[BOXES][MARGIN + 24 * 512..][..24 * edges].copy_from_slice(&own[from..][..24 * edges]);
            }
        }),
        damage("a refused import leaves counts of 0", |question, answer| {
            if question.call == Call::ImportScene && answer.refusal() > 0 {
                answer.buffers[COUNTS][MARGIN..MARGIN + 32].fill(0);
            }
        }),
        damage("a short box buffer is taken where it is long enough for the scene", |question, answer| {
            let short = question.call == Call::ImportScene && question.lent.boxes.len() < 12_288;
            if short && obj::import(&question.lent.text, &question.lent.ending).is_ok() {
                answer.number = 0;
            }
        }),
    ];
    out.extend(obj::WRONG.into_iter().map(|wrong| damage(format!("import: {wrong:?}"), by_mistake(wrong))));
    out
}

/// The answer of a reader that makes this mistake. A scene that it takes and should not, or another one, shows in the first position.
fn by_mistake(wrong: obj::Wrong) -> impl Fn(&Question, &mut Answer) {
    move |question, answer| {
        let (start, end) = (&question.lent.text, &question.lent.ending);
        if question.call != Call::ImportScene || answer.refusal() == LENT_TOO_SHORT {
            return;
        }
        let given = obj::import_with(start, end, wrong);
        if given == obj::import(start, end) {
            return;
        }
        answer.buffers = question.lent.bytes();
        answer.number = match given {
            Ok(_) => 0,
            Err(obj::Refused { number, third, file }) => {
                let which = file.map_or(0, |file| if file == obj::File::Start { 1 << 30 } else { 1 << 31 });
                (number << 32) + which + third
            }
        };
        answer.buffers[POSITIONS][MARGIN] ^= (answer.number == 0) as u8;
    }
}

/// Lists of one's own.
fn own_lists() -> Vec<Damage> {
    let at_fault = |question: &Question, answer: &Answer| {
        question.call.takes_a_list() && [NOT_THERE, SHARES_A_VERTEX].contains(&answer.refusal())
    };
    vec![
        damage("entries of one's own list counted from 0", move |question, answer| {
            answer.number -= at_fault(question, answer) as u64;
        }),
        damage("6 of an entry told as 5", move |question, answer| {
            if at_fault(question, answer) && answer.refusal() == SHARES_A_VERTEX {
                answer.number -= (SHARES_A_VERTEX - NOT_THERE) << 32;
            }
        }),
        damage("two edges of an entry are said to share a vertex", |question, answer| {
            let edges = question.lent.list.iter().position(|&entry| entry >> 20 == 1);
            if let (true, 0, Some(place)) = (question.call.takes_a_list(), answer.refusal(), edges) {
                *answer = refused_with(question, SHARES_A_VERTEX, place as u64 + 1);
            }
        }),
        damage("the upper bits of an entry are not looked at", |question, answer| {
            if question.call.takes_a_list() && question.lent.list.iter().any(|entry| entry >> 21 > 0) {
                let mut other = question.clone();
                other.lent.list.iter_mut().for_each(|entry| *entry %= 1 << 21);
                let given = Expecting::default().answer(&other);
                answer.number = given.number;
                answer.buffers[WORDS] = given.buffers[WORDS].clone();
            }
        }),
        damage("an entry at fault told without its number", move |question, answer| {
            if at_fault(question, answer) {
                answer.number &= !(u32::MAX as u64);
            }
        }),
        damage("the words of one's own list in the order of the library's", |question, answer| {
            if question.call.takes_a_list() && answer.refusal() == 0 {
                let mut entries = question.lent.list.clone();
                entries.sort();
                let words = answer.buffers[WORDS].clone();
                for (place, entry) in entries.iter().enumerate() {
                    let from = question.lent.list.iter().position(|other| other == entry).unwrap();
                    answer.buffers[WORDS][MARGIN + place] = words[MARGIN + from];
                }
            }
        }),
        damage("words written before an entry at fault is found", move |question, answer| {
            if at_fault(question, answer) && answer.number as u32 > 1 && !question.lent.words.is_empty() {
                answer.buffers[WORDS][MARGIN] = 0;
            }
        }),
    ]
}

/// What an answer is as one number.
fn numbers() -> Vec<Damage> {
    vec![
        damage("a refusal without line or count carries 1", |_, answer| {
            answer.number |= (answer.refusal() > 0 && answer.number as u32 == 0) as u64;
        }),
        damage("a refusal is its number alone", |_, answer| {
            if answer.refusal() > 0 {
                answer.number >>= 32;
            }
        }),
        damage("an accepted scene is 1", |question, answer| answer.number |= (question.call == Call::CheckScene) as u64),
        damage("a text that was read is the count of its vertices", |question, answer| {
            if question.call.reads() && answer.number == 0 {
                answer.number = answer.buffers[COUNTS][MARGIN] as u64;
            }
        }),
        damage("the count with the room in it", |question, answer| {
            if question.call == Call::CountPairs && answer.refusal() == 0 {
                answer.number *= 3;
            }
        }),
    ]
}

/// Seams that are looked at in part.
fn seams() -> Vec<Damage> {
    let mut out = vec![
        damage("seams are not looked at", |question, answer| {
            if question.call.takes_seams() {
                unsewn(question, answer);
            }
        }),
        damage("corners by own number", |question, answer| {
            if question.call.asked().is_some() && answer.refusal() == 0 {
                unsewn(question, answer);
            }
        }),
        damage("sharing by own number", |question, answer| {
            if question.call.asked().is_some() && answer.refusal() == SHARES_A_VERTEX {
                unsewn(question, answer);
            }
        }),
        damage("the numbers of a seam change places", |question, answer| {
            if question.call.takes_seams() && question.lent.seams.len() > 1 {
                answer.buffers[SEAMS][MARGIN..MARGIN + 4].rotate_left(2);
            }
        }),
        damage("a text's seams are not written", |question, answer| {
            if question.call.reads() && answer.number == 0 {
                answer.buffers[SEAMS] = question.lent.bytes()[SEAMS].clone();
            }
        }),
        damage("15 in a text without its line", |question, answer| {
            if question.call.reads() && answer.refusal() == BROKEN_SEAM {
                answer.number = BROKEN_SEAM << 32;
            }
        }),
    ];
    let faults = SCENE_FAULTS.into_iter().filter(|fault| fault.0 == BROKEN_SEAM || fault.1.ends_with("sewn together"));
    out.extend(faults.map(|(_, fault)| {
        answered(format!("answers where refused for: {fault}"), move |question| sole(question) == Some(fault))
    }));
    out
}

/// The answer without seams, in buffers that have them.
fn unsewn(question: &Question, answer: &mut Answer) {
    let lent = Lent { seams: vec![], ..question.lent.clone() };
    let other = Expecting::default().answer(&Question { lent, ..question.clone() });
    let seams = answer.buffers[SEAMS].clone();
    *answer = other;
    answer.buffers[SEAMS] = seams;
}

fn leave_tests(answer: &mut Answer, tests: usize) {
    answer.buffers[COUNTS][MARGIN..MARGIN + 8].copy_from_slice(&(tests as u64).to_le_bytes());
}

/// The box tests, wrongly counted, or told with a refusal.
fn box_tests() -> Vec<Damage> {
    let wrong = box_tests::wrong().into_iter().map(|wrong| {
        damage(format!("box tests: {}", wrong.name), move |question: &Question, answer: &mut Answer| {
            if question.call.tells_tests() && answer.refusal() == 0 {
                leave_tests(answer, (wrong.count)(&expected::scene(&question.lent).unwrap()));
            }
        })
    });
    let refused = damage("box tests: a refused scene has none", |question, answer| {
        if question.call.tells_tests() && answer.refusal() > 0 && answer.refusal() != NO_ROOM {
            leave_tests(answer, 0);
        }
    });
    let no_room = damage("box tests: told with 7", |question, answer| {
        if question.call.tells_tests() && answer.refusal() == NO_ROOM {
            leave_tests(answer, box_tests::of(&expected::scene(&question.lent).unwrap()));
        }
    });
    let settled = damage("box tests: the number behind the lent one is written", |question, answer| {
        if question.call.tells_tests() && answer.refusal() == 0 {
            answer.buffers[COUNTS][MARGIN + 8] = 0;
        }
    });
    wrong.chain([refused, no_room, settled]).collect()
}

/// Answers to claims.
fn claims() -> Vec<Damage> {
    let answered = |question: &Question, answer: &Answer| question.call == Call::CheckClaims && answer.refusal() == 0;
    vec![
        damage("a yes is a no", move |question, answer| {
            if answered(question, answer) {
                let count = answer.number as usize;
                answer.buffers[WORDS][MARGIN..MARGIN + count].iter_mut().for_each(|byte| *byte = 0);
            }
        }),
        damage("a no is 2", move |question, answer| {
            if answered(question, answer) {
                let count = answer.number as usize;
                answer.buffers[WORDS][MARGIN..MARGIN + count].iter_mut().for_each(|byte| *byte = 2 - *byte);
            }
        }),
        damage("a byte behind the answers is 0", move |question, answer| {
            let count = answer.number as usize;
            if answered(question, answer) && question.lent.words.len() > count {
                answer.buffers[WORDS][MARGIN + count] = 0;
            }
        }),
        damage("the claims above a faulty line are answered", |question, answer| {
            let line = answer.number as u32;
            if question.call == Call::CheckClaims && answer.refusal() == BAD_LINE && line > 1 && !question.lent.words.is_empty() {
                answer.buffers[WORDS][MARGIN] = 0;
            }
        }),
        damage("lines of claims from 0", |question, answer| {
            if question.call == Call::CheckClaims && answer.refusal() == BAD_LINE {
                answer.number -= 1;
            }
        }),
        damage("claims that are too many are answered as far as there is room", |question, answer| {
            if question.call == Call::CheckClaims && answer.refusal() == NO_ROOM {
                answer.number = question.lent.words.len() as u64;
            }
        }),
    ]
}

/// The row at a place gets other numbers.
fn put(answer: &mut Answer, place: usize, row: [u32; ROW]) {
    for (i, number) in row.into_iter().enumerate() {
        answer.buffers[CONTACTS][MARGIN + 4 * (ROW * place + i)..][..4].copy_from_slice(&number.to_le_bytes());
    }
}

/// The rows that an answer has written: a place in the buffer, and the pair.
fn written_rows(question: &Question, answer: &Answer) -> Vec<(usize, Pair)> {
    if answer.refusal() > 0 {
        return Vec::new();
    }
    match question.call {
        Call::Contact(asked) if answer.number == 0 => {
            let [first, second, _] = question.asked.map(|place| place as usize);
            vec![(0, Pair { kind: asked.kind(), first, second })]
        }
        Call::ContactScene => {
            let pairs = listing::listed(&expected::scene(&question.lent).unwrap()).into_iter().enumerate();
            pairs.filter(|(place, _)| answer.buffers[WORDS][MARGIN + place] == 0).collect()
        }
        _ => Vec::new(),
    }
}

/// What a contact is refused for, and what is left where there is none.
fn contacts() -> Vec<Damage> {
    let blank = |name: &str, which: fn(&Question, &Answer) -> bool| {
        damage(name, move |question: &Question, answer: &mut Answer| {
            if matches!(question.call, Call::Contact(_)) && which(question, answer) {
                put(answer, 0, [0; ROW]);
            }
        })
    };
    vec![
        blank("a miss clears the contact", |_, answer| answer.number == 1),
        blank("a touch clears the contact", |_, answer| answer.number == 3),
        blank("a pair that is apart clears the contact", |_, answer| answer.number == 4),
        blank("5 clears the contact", |_, answer| answer.refusal() == NOT_THERE),
        blank("16 clears the contact", |_, answer| answer.refusal() == BEYOND_OLD_RANGE),
        damage("contacts beyond the old range are given", |question, answer| {
            if question.call.finds_contacts() && answer.refusal() == BEYOND_OLD_RANGE {
                answer.number = 1;
            }
        }),
        damage("16 goes by the pair and not by the scene", |question, answer| {
            let Some(asked) = question.call.asked().filter(|_| answer.refusal() == BEYOND_OLD_RANGE) else { return };
            let scene = expected::scene(&question.lent).unwrap();
            let pair = Pair { kind: asked.kind(), first: question.asked[0] as usize, second: question.asked[1] as usize };
            let (first, second) = pair.parts(&scene);
            let near = |&vertex: &usize| scene.vertices[vertex].iter().all(|n| n.abs() <= FIRST_COORDINATE_LIMIT);
            if first.iter().chain(second).all(near) {
                answer.number = 1;
            }
        }),
        damage("262143 is beyond the old range", |question, answer| {
            let largest = question.lent.positions.iter().map(|n| n.unsigned_abs() as i64).max();
            if question.call.finds_contacts() && answer.refusal() == 0 && largest == Some(FIRST_COORDINATE_LIMIT) {
                *answer = Answer { number: BEYOND_OLD_RANGE << 32, buffers: question.lent.bytes() };
            }
        }),
        damage("7 before 16", |question, answer| {
            if question.call == Call::ContactScene && answer.refusal() == BEYOND_OLD_RANGE && question.lent.list.is_empty() {
                answer.number = NO_ROOM << 32;
            }
        }),
        damage("16 with the count", |question, answer| {
            if question.call == Call::ContactScene && answer.refusal() == BEYOND_OLD_RANGE {
                answer.number += listing::listed(&expected::scene(&question.lent).unwrap()).len() as u64;
            }
        }),
    ]
}

/// Which rows of a scene are written, and the room for them.
fn contact_rows() -> Vec<Damage> {
    let scene_call = |question: &Question, answer: &Answer| question.call == Call::ContactScene && answer.refusal() == 0;
    vec![
        damage("the fifth number of two edges stays", |question, answer| {
            for (place, _) in written_rows(question, answer).into_iter().filter(|(_, pair)| pair.kind == Kind::EdgeEdge) {
                let [piece, k, first, second, _] = row(answer, place);
                put(answer, place, [piece, k, first, second, question.lent.contacts[ROW * place + 4]]);
            }
        }),
        damage("the row of a pair that is not hit is 0", move |question, answer| {
            if scene_call(question, answer) {
                let hit: Vec<usize> = written_rows(question, answer).into_iter().map(|(place, _)| place).collect();
                (0..answer.number as usize).filter(|place| !hit.contains(place)).for_each(|place| put(answer, place, [0; ROW]));
            }
        }),
        damage("the rows of hits one behind the other", move |question, answer| {
            if scene_call(question, answer) {
                let rows: Vec<[u32; ROW]> = written_rows(question, answer).iter().map(|&(place, _)| row(answer, place)).collect();
                answer.buffers[CONTACTS] = question.lent.bytes()[CONTACTS].clone();
                rows.into_iter().enumerate().for_each(|(place, row)| put(answer, place, row));
            }
        }),
        damage("what is behind the last row is 0", move |question, answer| {
            if scene_call(question, answer) {
                let behind = MARGIN + 4 * ROW * answer.number as usize;
                let end = answer.buffers[CONTACTS].len() - MARGIN;
                answer.buffers[CONTACTS][behind..end].fill(0);
            }
        }),
        damage("the rows' room does not count", |question, answer| {
            let (count, lent) = (answer.number as u32 as usize, &question.lent);
            if question.call == Call::ContactScene
                && answer.refusal() == NO_ROOM
                && lent.list.len().min(lent.words.len()) >= count
            {
                answer.number = count as u64;
            }
        }),
        damage("a part of a row is room for one", |question, answer| {
            let (count, lent) = (answer.number as u32 as usize, &question.lent);
            let others = lent.list.len().min(lent.words.len()) >= count;
            let refused = question.call == Call::ContactScene && answer.refusal() == NO_ROOM;
            if refused && others && lent.contacts.len().div_ceil(ROW) >= count {
                answer.number = count as u64;
            }
        }),
        damage("a row written where there is no room", |question, answer| {
            let refused = question.call == Call::ContactScene && answer.refusal() == NO_ROOM;
            if refused && question.lent.contacts.len() >= ROW {
                put(answer, 0, [0; ROW]);
            }
        }),
        damage("edges as they are asked for", |question, answer| {
            for (place, pair) in written_rows(question, answer).into_iter().filter(|(_, pair)| pair.first > pair.second) {
                if pair.kind == Kind::EdgeEdge {
                    let [piece, k, first, second, last] = row(answer, place);
                    put(answer, place, [[0, 2, 1, 3][piece as usize], k, second, first, last]);
                }
            }
        }),
    ]
}

/// The rows of a program that finds contacts in a wrong way.
fn wrong_contacts() -> Vec<Damage> {
    let of_rows = [
        Mistake::NearestInPlaceOfCut,
        Mistake::SmallestExactTime,
        Mistake::TieToTheLaterPiece,
        Mistake::LowestPieceWhateverItsTime,
        Mistake::StartWeightsOnly,
        Mistake::EndWeightsOnly,
        Mistake::ShareOfTheLowerEnd,
        Mistake::EndsAsWritten,
        Mistake::CornersAsWritten,
        Mistake::HigherEdgeFirst,
        Mistake::TouchingPiecesTakePart,
        Mistake::FloatsThroughout,
        Mistake::WeightWrapsAt64Bits,
        Mistake::LastShareIsTheRest,
        Mistake::OneIsOneLess,
        Mistake::TimeFromTheEnd,
        Mistake::PiecesFromOne,
    ];
    let wrong = |mistake: Mistake| {
        damage(format!("contacts: {mistake:?}"), move |question: &Question, answer: &mut Answer| {
            let rows = written_rows(question, answer);
            let Ok(scene) = expected::scene(&question.lent) else { return };
            // a long list has nothing to show that a short one has not
            for (place, pair) in rows.into_iter().take(20) {
                if let Some(contact) = mistakes::of_pair(mistake, &scene, pair) {
                    put(answer, place, contact.row());
                }
            }
        })
    };
    of_rows.map(wrong).into()
}

fn renamed(name: &str, from: u64, to: u64, which: fn(Call) -> bool) -> Damage {
    damage(name, move |question: &Question, answer: &mut Answer| {
        if which(question.call) && answer.number == from {
            answer.number = to;
        }
    })
}

/// What is said of a pair or a piece.
fn words() -> Vec<Damage> {
    let mut out = Vec::new();
    for asked in ASKED {
        let (three, four) = (Call::Judge(asked), Call::Settle(asked));
        for (call, from, to) in [(three, 0, 1), (three, 1, 2), (three, 2, 3), (four, 3, 2), (four, 4, 3), (four, 1, 0)] {
            out.push(damage(format!("{} says {to} for {from}", call.name()), move |question: &Question, answer: &mut Answer| {
                if question.call == call && answer.number == from {
                    answer.number = to;
                }
            }));
        }
    }
    out.push(renamed("touch is 2", 3, 2, |call| matches!(call, Call::Settle(_))));
    out.push(renamed("pierced told as clear", 1, 0, |call| matches!(call, Call::Pierced(_))));
    out.push(damage("a pair that is not listed is a miss", |question, answer| {
        let Some(asked) = question.call.asked().filter(|_| answer.refusal() == 0) else { return };
        let scene = expected::scene(&question.lent).unwrap();
        let pair = Pair { kind: asked.kind(), first: question.asked[0] as usize, second: question.asked[1] as usize };
        if !listing::is_listed(&scene, pair) {
            answer.number = 1;
        }
    }));
    out.push(another("pieces go by the order in which two edges are asked for", |question| {
        let turned = question.call.asked() == Some(Asked::EePiece) && question.asked[0] > question.asked[1];
        turned.then(|| [question.asked[0], question.asked[1], [0, 2, 1, 3].get(question.asked[2] as usize).map_or(9, |&p| p)])
    }));
    out.push(another("piece 0 for every piece", |question| {
        let there = question.call.asked().is_some_and(Asked::piece) && question.asked[2] < 3;
        there.then(|| [question.asked[0], question.asked[1], 0])
    }));
    for (name, bits) in [("16", 16), ("32", 32)] {
        let cut = move |question: &Question| question.call.asked().map(|_| question.asked.map(|n| n & ((1 << bits) - 1)));
        out.push(another(&format!("only {name} bits of a place are looked at"), cut));
    }
    out
}

/// The right answer to another question.
fn another(name: &str, asked: impl Fn(&Question) -> Option<[u64; 3]> + 'static) -> Damage {
    damage(name, move |question, answer| {
        if let Some(asked) = asked(question) {
            *answer = Expecting::default().answer(&Question { asked, ..question.clone() });
        }
    })
}

fn faults(question: &Question) -> Vec<(u64, &'static str)> {
    let mut faults = of_scene(&question.lent);
    faults.extend(question.call.asked().map(|asked| of_asked(question, asked)).unwrap_or_default());
    faults.extend(question.call.finds_contacts().then(|| of_range(&question.lent)).flatten());
    faults
}

/// The one fault that a question about a scene has.
fn sole(question: &Question) -> Option<&'static str> {
    match faults(question)[..] {
        [(_, fault)] if question.call.takes_a_scene() => Some(fault),
        _ => None,
    }
}

/// A miss, where it should be a refusal.
fn answered(name: String, which: impl Fn(&Question) -> bool + 'static) -> Damage {
    damage(name, move |question, answer| {
        if which(question) {
            answer.number = 1;
        }
    })
}

/// Which refusal is given where there are two; and one that is never given.
fn orders() -> Vec<Damage> {
    let mut out = Vec::new();
    let numbers = [&SCENE_CHECKS[..], &[NOT_THERE, SHARES_A_VERTEX, BEYOND_OLD_RANGE]].concat();
    for (i, &lower) in numbers.iter().enumerate() {
        for &higher in &numbers[i + 1..] {
            out.push(damage(format!("{higher} before {lower}"), move |question: &Question, answer: &mut Answer| {
                let scene_call = question.call.takes_a_scene();
                if scene_call && answer.refusal() == lower && faults(question).iter().any(|fault| fault.0 == higher) {
                    answer.number = higher << 32;
                }
            }));
        }
    }
    for fault in
        ["with itself", "the same edge again", "lowest corner", "highest corner", "lower with higher", "higher with lower"]
    {
        out.push(answered(format!("answers where refused for: {fault}"), move |question| sole(question) == Some(fault)));
    }
    for (fault, place) in [("vertex", 0), ("triangle", 1), ("first edge", 0), ("second edge", 1), ("piece", 2)] {
        out.push(answered(format!("a {fault} just at its bound is answered"), move |question| {
            let lent = &question.lent;
            let (vertices, edges, triangles) = (lent.positions.len() / 6, lent.edges.len() / 2, lent.triangles.len() / 3);
            let bounds = if matches!(question.call.asked(), Some(Asked::Ee | Asked::EePiece)) {
                [edges, edges, 4]
            } else {
                [vertices, triangles, 3]
            };
            sole(question) == Some(fault) && question.asked[place] == bounds[place] as u64
        }));
    }
    out.push(damage("a coordinate beyond the first range is refused in slices", |question, answer| {
        let far = |&n: &i32| n.unsigned_abs() as i64 > FIRST_COORDINATE_LIMIT;
        let for_contacts = question.call.finds_contacts();
        if question.call.takes_a_scene()
            && !for_contacts
            && faults(question).is_empty()
            && question.lent.positions.iter().any(far)
        {
            answer.number = OUT_OF_RANGE << 32;
        }
    }));
    out.push(answered("a coordinate one step too far is taken".into(), |question| {
        let far = |&n: &i32| n.unsigned_abs() as i64 > COORDINATE_LIMIT + 1;
        let range = matches!(sole(question), Some("a coordinate too low" | "a coordinate too high"));
        range && !question.lent.positions.iter().any(far)
    }));
    out.push(damage("7 before the scene is looked at", |question, answer| {
        if question.call.lists() && question.lent.list.is_empty() && answer.refusal() > 0 {
            answer.number = NO_ROOM << 32;
        }
    }));
    out
}

fn lists(question: &Question, answer: &Answer) -> bool {
    question.call.lists() && answer.refusal() == 0
}

/// Room, and what is written where there is none, or behind the end.
fn rooms() -> Vec<Damage> {
    vec![
        damage("7 with the room and not the count", |question, answer| {
            if question.call.lists() && answer.refusal() == NO_ROOM {
                answer.number = (NO_ROOM << 32) + question.lent.list.len() as u64;
            }
        }),
        damage("a list filled up to its room, and refused after", |question, answer| {
            if question.call.lists() && answer.refusal() == NO_ROOM && !question.lent.list.is_empty() {
                answer.buffers[LIST][MARGIN..MARGIN + 4].fill(0);
            }
        }),
        damage("words filled up to their room, and refused after", |question, answer| {
            if question.call.lists() && answer.refusal() == NO_ROOM && !question.lent.words.is_empty() {
                answer.buffers[WORDS][MARGIN] = 0;
            }
        }),
        damage("a list is counted and not written", |question, answer| {
            if lists(question, answer) {
                answer.buffers[LIST].clone_from(&question.lent.bytes()[LIST]);
            }
        }),
        damage("a number behind the list is 0", |question, answer| {
            let end = MARGIN + 4 * answer.number as usize;
            if lists(question, answer) && question.lent.list.len() > answer.number as usize {
                answer.buffers[LIST][end..end + 4].fill(0);
            }
        }),
        damage("a byte behind the words is 0", |question, answer| {
            if lists(question, answer) && question.lent.words.len() > answer.number as usize {
                answer.buffers[WORDS][MARGIN + answer.number as usize] = 0;
            }
        }),
    ]
}

/// The entry at a place of the list, made anew of its kind, 0 or 1, and its two places.
fn rewrite(answer: &mut Answer, place: usize, make: impl Fn(u32, u32, u32) -> u32) {
    let bytes = &mut answer.buffers[LIST][MARGIN + 4 * place..][..4];
    let entry = u32::from_le_bytes(bytes.try_into().unwrap());
    bytes.copy_from_slice(&make(entry >> 20, entry >> 10 & 1_023, entry & 1_023).to_le_bytes());
}

/// A list whose entries are made in another way.
fn entries(name: &str, make: fn(u32, u32, u32) -> u32) -> Damage {
    damage(name, move |question, answer| {
        if lists(question, answer) {
            (0..answer.number as usize).for_each(|place| rewrite(answer, place, make));
        }
    })
}

/// Which room counts, and what the list and the words are.
fn counts() -> Vec<Damage> {
    vec![
        damage("just the room is refused", |question, answer| {
            if lists(question, answer) && question.lent.list.len() == answer.number as usize && answer.number > 0 {
                answer.number += NO_ROOM << 32;
            }
        }),
        damage("only the list's room counts", |question, answer| {
            let count = answer.number as u32 as usize;
            if question.call == Call::SettleScene && answer.refusal() == NO_ROOM && question.lent.list.len() >= count {
                answer.number = count as u64;
            }
        }),
        damage("only the words' room counts", |question, answer| {
            let count = answer.number as u32 as usize;
            if question.call == Call::SettleScene && answer.refusal() == NO_ROOM && question.lent.words.len() >= count {
                answer.number = count as u64;
            }
        }),
        damage("room is a third of the list, as it was", |question, answer| {
            let count = answer.number;
            if lists(question, answer) && question.lent.list.len() as u64 / 3 < count {
                *answer = Answer { number: (NO_ROOM << 32) + count, buffers: question.lent.bytes() };
            }
        }),
        damage("the last entry's edges change places", |question, answer| {
            if lists(question, answer) && answer.number > 0 {
                let last = answer.number as usize - 1;
                rewrite(answer, last, |kind, first, second| {
                    let (first, second) = if kind == 1 { (second, first) } else { (first, second) };
                    (kind << 20) + (first << 10) + second
                });
            }
        }),
        entries("the places of an entry exchanged", |kind, first, second| (kind << 20) + (second << 10) + first),
        entries("the kind at another bit", |kind, first, second| (kind << 21) + (first << 10) + second),
        entries("the kind at the lowest bit", |kind, first, second| (first << 11) + (second << 1) + kind),
        entries("places that overlap, nine bits each", |kind, first, second| (kind << 20) + (first << 9) + second),
        entries("no kind in an entry", |_, first, second| (first << 10) + second),
        damage("the words of a list in three", |question, answer| {
            if question.call == Call::SettleScene && answer.refusal() == 0 {
                let words = &mut answer.buffers[WORDS][MARGIN..MARGIN + answer.number as usize];
                words.iter_mut().for_each(|word| *word = (*word).min(2));
            }
        }),
    ]
}

fn texts() -> Vec<Damage> {
    let read = |question: &Question, answer: &Answer| question.call.reads() && answer.refusal() == 0;
    vec![
        damage("lines from 0", |question, answer| {
            if question.call.reads() && answer.number as u32 > 0 {
                answer.number -= 1;
            }
        }),
        damage("counts are 0 after a refusal", |question, answer| {
            if question.call.reads() && answer.refusal() > 0 {
                answer.buffers[COUNTS][MARGIN..MARGIN + 32].fill(0);
            }
        }),
        damage("the last count stays", move |question, answer| {
            if read(question, answer) {
                answer.buffers[COUNTS][MARGIN + 24..MARGIN + 32].copy_from_slice(&question.lent.counts[3].to_le_bytes());
            }
        }),
        damage("what lies behind the positions is 0", move |question, answer| {
            if read(question, answer) {
                let last = answer.buffers[POSITIONS].len() - MARGIN;
                answer.buffers[POSITIONS][last - 4..last].fill(0);
            }
        }),
        damage("the first line's numbers stay after a refusal", |question, answer| {
            if question.call.reads() && answer.refusal() > 0 && question.lent.positions.len() > 6 {
                answer.buffers[POSITIONS][MARGIN..MARGIN + 24].fill(0);
            }
        }),
    ]
}

/// Short buffers, and the report.
fn buffers() -> Vec<Damage> {
    vec![
        damage("8 before 12", |question, answer| {
            if question.call.reads() && question.lent.text.len() > 32_768 {
                answer.number = TEXT_TOO_LONG << 32;
            }
        }),
        damage("triangle buffers may be short", |question, answer| {
            if question.call.reads() && answer.refusal() == LENT_TOO_SHORT && question.lent.triangles.len() < 1_536 {
                answer.number = 0;
            }
        }),
        damage("seam buffers may be short", |question, answer| {
            if question.call.reads() && answer.refusal() == LENT_TOO_SHORT && question.lent.seams.len() < 1_024 {
                answer.number = 0;
            }
        }),
        damage("12 with a line", |_, answer| answer.number |= (answer.refusal() == LENT_TOO_SHORT) as u64),
        damage("the report is one byte longer", |question, answer| answer.number += (question.call == Call::WriteReport) as u64),
        damage("the report ends with a 0", |question, answer| {
            if question.call == Call::WriteReport {
                answer.buffers[REPORT][MARGIN + answer.number as usize] = 0;
            }
        }),
    ]
}

fn accepted(question: &Question) -> Scene {
    expected::scene(&question.lent).expect("a scene that was turned round is one")
}

/// A scene that is not, or not wholly, turned round.
fn turning() -> Vec<Damage> {
    let wrong = |name: &str, lend: fn(&Question) -> Lent| {
        damage(name, move |question: &Question, answer: &mut Answer| {
            if question.call == Call::TurnScene && answer.number == 0 {
                answer.buffers = lend(question).bytes();
            }
        })
    };
    let mut out = vec![
        wrong("a scene stays as it was", |question| question.lent.clone()),
        wrong("vertices keep their numbers", |question| Lent::of_scene(&backwards::swapped(&accepted(question)))),
        wrong("starts stay starts", |question| Lent::of_scene(&backwards::turned(&backwards::swapped(&accepted(question))))),
        wrong("the edges' numbers stay", |question| Lent {
            edges: question.lent.edges.clone(),
            ..Lent::of_scene(&backwards::turned(&accepted(question)))
        }),
        wrong("the triangles' numbers stay", |question| Lent {
            triangles: question.lent.triangles.clone(),
            ..Lent::of_scene(&backwards::turned(&accepted(question)))
        }),
        wrong("x and z change places", |question| {
            let mut lent = question.lent.clone();
            lent.positions.reverse();
            lent
        }),
    ];
    out.push(damage("a refused scene is turned round", |question, answer| {
        let halves = question.lent.positions.len() / 6 * 24;
        if question.call == Call::TurnScene && answer.number > 0 && halves > 0 {
            answer.buffers[POSITIONS][MARGIN..MARGIN + 24].rotate_left(12);
        }
    }));
    out
}

/// A byte of what is only read, and the bytes beside each buffer.
fn bytes() -> Vec<Damage> {
    let mut out = vec![damage("the ends of an edge are put in order", |question, answer| {
        if question.call.takes_a_scene() && question.lent.edges.len() > 1 && question.lent.edges[0] > question.lent.edges[1] {
            answer.buffers[EDGES][MARGIN..MARGIN + 4].rotate_left(2);
        }
    })];
    for (place, buffer) in BUFFERS.iter().enumerate() {
        out.push(damage(format!("the byte in front of {buffer} changes"), move |_: &Question, answer: &mut Answer| {
            answer.buffers[place][MARGIN - 1] ^= 1;
        }));
        out.push(damage(format!("the byte behind {buffer} changes"), move |_: &Question, answer: &mut Answer| {
            let behind = answer.buffers[place].len() - MARGIN;
            answer.buffers[place][behind] ^= 1;
        }));
    }
    out
}
