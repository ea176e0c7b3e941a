//! What each call must answer, and what it must leave in every buffer, by document 01, §2, §3, §8 and §12 of document 02, and
//! docs/DECISIONS.md, D13, D15, D25 and D68.

use super::question::*;
use crate::calls::slices::{self, Slices};
use crate::calls::stored::{self, Moved, Wrong};
use crate::claims;
use crate::contacts::{self, Contact};
use crate::list::box_tests;
use crate::list::listing;
use crate::mesh::answering::Answering;
use crate::mesh::lent::Ask;
use crate::mesh::rows;
use crate::mesh::wrong::Wrong as MeshWrong;
use crate::obj;
use crate::report;
use crate::scene::backwards;
use crate::scene::refusal::{Refusal, LENT_TOO_SHORT, NOT_THERE, NO_ROOM, SHARES_A_VERTEX, TEXT_TOO_LONG};
use crate::scene::*;
use crate::text;
use crate::verdicts::settled::{self, Settled};
use crate::verdicts::verdict::{self, Verdict};
use std::collections::HashMap;

/// Remembers the words of the last scene's pieces, which take their time.
#[derive(Default)]
pub struct Expecting {
    scene: Scene,
    words: HashMap<Pair, Vec<Settled>>,
    contacts: HashMap<Pair, Option<Contact>>,
    /// The way in which stored boxes are got wrong, if any.
    wrong: Wrong,
    meshes: Answering,
}

fn number_of(verdict: Verdict) -> u64 {
    match verdict {
        Verdict::Hit => 0,
        Verdict::Miss => 1,
        Verdict::Degenerate => 2,
    }
}

impl Expecting {
    /// As a program would answer that gets stored boxes wrong in this way.
    pub fn going_wrong(wrong: Wrong) -> Expecting {
        Expecting { wrong, ..Expecting::default() }
    }

    pub fn answer(&mut self, question: &Question) -> Answer {
        if let Call::Mesh(call) = question.call {
            let ask = Ask { call, asked: question.asked, lent: question.lent.mesh.clone() };
            let (number, mesh) = self.meshes.answer(&ask, MeshWrong::Nothing);
            return Answer { number, buffers: Lent { mesh, ..question.lent.clone() }.bytes() };
        }
        let mut lent = question.lent.clone();
        let number = match self.called(question, &mut lent) {
            Ok(value) => value,
            Err(Refusal { number, third }) => (number << 32) + third,
        };
        Answer { number, buffers: lent.bytes() }
    }

    fn called(&mut self, question: &Question, lent: &mut Lent) -> Result<u64, Refusal> {
        match question.call {
            Call::CheckScene => scene(lent).map(|_| 0),
            Call::CountPairs => {
                let scene = scene(lent)?;
                lent.counts = vec![box_tests::of(&scene) as u64];
                Ok(listing::listed(&scene).len() as u64)
            }
            Call::ListPairs => {
                let room = lent.list.len();
                let (scene, pairs) = listed(lent, room)?;
                lent.counts = vec![box_tests::of(&scene) as u64];
                Ok(pairs.len() as u64)
            }
            Call::SettleScene => {
                let room = lent.list.len().min(lent.words.len());
                let (scene, pairs) = listed(lent, room)?;
                for (word, &pair) in lent.words.iter_mut().zip(&pairs) {
                    *word = settled::joined(self.words(&scene, pair)).byte();
                }
                Ok(pairs.len() as u64)
            }
            Call::Judge(asked) => {
                let words = self.words_asked(question, asked)?;
                let verdicts: Vec<Verdict> = words.iter().map(|word| word.verdict()).collect();
                Ok(number_of(verdict::joined(&verdicts)))
            }
            Call::Settle(asked) => Ok(settled::joined(&self.words_asked(question, asked)?).byte() as u64),
            Call::ReadScene => read(lent),
            Call::WriteReport => Ok(write(lent)),
            Call::TurnScene => turn(lent),
            Call::CheckClaims => check_claims(lent),
            Call::Contact(asked) => self.contact(question, asked, lent),
            Call::ContactScene => self.contact_scene(lent),
            Call::SettleList | Call::ContactList => self.own_list(question.call, lent),
            Call::SavedLength => Ok(saved(lent)?.len() as u64),
            Call::SaveScene => save(lent),
            Call::FillBoxes => {
                let filled = with_boxes(lent, |slices, boxes| stored::filled(slices, boxes, self.wrong))?;
                lent.boxes = narrow(&filled);
                Ok(0)
            }
            Call::MoveVertex => {
                let to = std::array::from_fn(|k| lent.coordinates[k] as i64);
                let vertex = question.asked[0];
                let Moved { positions, stored } =
                    with_boxes(lent, |slices, boxes| stored::moved(slices, boxes, vertex, to, self.wrong))?;
                (lent.positions, lent.boxes) = (narrow(&positions), narrow(&stored));
                Ok(0)
            }
            Call::CountStored => {
                let pairs = with_boxes(lent, |slices, boxes| stored::listed(slices, boxes, usize::MAX, self.wrong))?;
                lent.counts = vec![box_tests::of(&scene(lent)?) as u64];
                Ok(pairs.len() as u64)
            }
            Call::ListStored => {
                let pairs = self.listed_stored(lent, lent.list.len())?;
                lent.counts = vec![box_tests::of(&scene(lent)?) as u64];
                Ok(pairs.len() as u64)
            }
            Call::SettleStored => {
                let pairs = self.listed_stored(lent, lent.list.len().min(lent.words.len()))?;
                let scene = scene(lent)?;
                for (word, &pair) in lent.words.iter_mut().zip(&pairs) {
                    *word = settled::joined(self.words(&scene, pair)).byte();
                }
                Ok(pairs.len() as u64)
            }
            Call::ReadBoxed => read_boxed(lent, self.wrong),
            Call::ImportScene => import(lent),
            Call::TellSeries => super::series::told(lent),
            Call::Pierced(time) => {
                let scene = scene(lent)?;
                let [edge, triangle] = edge_and_triangle(&scene, question.asked)?;
                Ok(rows::is_pierced(&scene, time, edge, triangle, MeshWrong::Nothing) as u64)
            }
            Call::Mesh(_) => unreachable!("a mesh's answer is no scene's"),
        }
    }

    /// The list from the stored boxes, in front of its buffer.
    fn listed_stored(&self, lent: &mut Lent, room: usize) -> Result<Vec<Pair>, Refusal> {
        let pairs = with_boxes(lent, |slices, boxes| stored::listed(slices, boxes, room, self.wrong))?;
        lent.list.iter_mut().zip(&pairs).for_each(|(entry, &pair)| *entry = slices::entry(pair));
        Ok(pairs)
    }

    /// The word, and on a hit the row in what is lent for it.
    fn contact(&mut self, question: &Question, asked: Asked, lent: &mut Lent) -> Result<u64, Refusal> {
        let [first, second, _] = question.asked;
        let (scene, pair) = with_slices(lent, |slices| slices::a_pair(slices, asked.kind(), first, second))?;
        contacts::refuse_beyond(&scene)?;
        if let Some(contact) = self.contact_of(&scene, pair) {
            lent.contacts.copy_from_slice(&contact.row());
        }
        Ok(settled::joined(self.words(&scene, pair)).byte() as u64)
    }

    /// List and words, and a row for each pair of the list that is hit.
    fn contact_scene(&mut self, lent: &mut Lent) -> Result<u64, Refusal> {
        contacts::refuse_beyond(&scene(lent)?)?;
        let room = lent.list.len().min(lent.words.len()).min(lent.contacts.len() / ROW);
        let (scene, pairs) = listed(lent, room)?;
        for (place, &pair) in pairs.iter().enumerate() {
            lent.words[place] = settled::joined(self.words(&scene, pair)).byte();
            if let Some(contact) = self.contact_of(&scene, pair) {
                lent.contacts[ROW * place..][..ROW].copy_from_slice(&contact.row());
            }
        }
        Ok(pairs.len() as u64)
    }

    /// The words of a list of one's own, and rows where contacts are asked for: the scene, then the first entry at fault with its number, for
    /// contacts the range, then the room.
    fn own_list(&mut self, call: Call, lent: &mut Lent) -> Result<u64, Refusal> {
        let scene = scene(lent)?;
        let mut pairs = Vec::new();
        for (place, &entry) in lent.list.iter().enumerate() {
            pairs.push(asked_by(&scene, entry).map_err(|number| Refusal::new(number, place as u64 + 1))?);
        }
        let mut room = lent.words.len();
        if call == Call::ContactList {
            contacts::refuse_beyond(&scene)?;
            room = room.min(lent.contacts.len() / ROW);
        }
        if room < pairs.len() {
            return Err(Refusal::new(NO_ROOM, pairs.len() as u64));
        }
        for (place, &pair) in pairs.iter().enumerate() {
            lent.words[place] = settled::joined(self.words(&scene, pair)).byte();
            if call == Call::ContactList {
                if let Some(contact) = self.contact_of(&scene, pair) {
                    lent.contacts[ROW * place..][..ROW].copy_from_slice(&contact.row());
                }
            }
        }
        Ok(pairs.len() as u64)
    }

    /// The words of the pieces that are asked about: all of a pair, or one.
    fn words_asked(&mut self, question: &Question, asked: Asked) -> Result<Vec<Settled>, Refusal> {
        let [first, second, piece] = question.asked;
        if asked.piece() {
            let (scene, pair, piece) =
                with_slices(&question.lent, |slices| slices::a_piece(slices, asked.kind(), first, second, piece))?;
            Ok(vec![self.words(&scene, pair)[piece]])
        } else {
            let (scene, pair) = with_slices(&question.lent, |slices| slices::a_pair(slices, asked.kind(), first, second))?;
            Ok(self.words(&scene, pair).to_vec())
        }
    }

    fn words(&mut self, scene: &Scene, pair: Pair) -> &[Settled] {
        self.forget_another(scene);
        self.words.entry(pair).or_insert_with(|| settled::of_pieces(scene, pair))
    }

    fn contact_of(&mut self, scene: &Scene, pair: Pair) -> Option<Contact> {
        self.forget_another(scene);
        self.contacts.entry(pair).or_insert_with(|| contacts::of_pair(scene, pair)).clone()
    }

    fn forget_another(&mut self, scene: &Scene) {
        if self.scene != *scene {
            *self = Expecting { scene: scene.clone(), ..Expecting::going_wrong(self.wrong) };
        }
    }
}

/// 5 where there is no such edge or triangle, 6 where an end stands for a corner.
fn edge_and_triangle(scene: &Scene, [edge, triangle, _]: [u64; 3]) -> Result<[usize; 2], Refusal> {
    if edge >= scene.edges.len() as u64 || triangle >= scene.triangles.len() as u64 {
        return Err(Refusal::bare(NOT_THERE));
    }
    let (edge, triangle) = (edge as usize, triangle as usize);
    if scene.edges[edge].iter().any(|&end| Pair::pt(end, triangle).shares_a_vertex(scene)) {
        return Err(Refusal::bare(SHARES_A_VERTEX));
    }
    Ok([edge, triangle])
}

fn with_slices<T>(lent: &Lent, then: impl FnOnce(Slices) -> T) -> T {
    let wide = |numbers: &[u16]| numbers.iter().map(|&n| n as u64).collect::<Vec<u64>>();
    let positions: Vec<i64> = lent.positions.iter().map(|&n| n as i64).collect();
    let [edges, triangles, seams] = [&lent.edges, &lent.triangles, &lent.seams].map(|numbers| wide(numbers));
    then(Slices { positions: &positions, edges: &edges, triangles: &triangles, seams: &seams })
}

fn with_boxes<T>(lent: &Lent, then: impl FnOnce(Slices, &[i64]) -> T) -> T {
    let boxes: Vec<i64> = lent.boxes.iter().map(|&n| n as i64).collect();
    with_slices(lent, |slices| then(slices, &boxes))
}

fn narrow(numbers: &[i64]) -> Vec<i32> {
    numbers.iter().map(|&n| n as i32).collect()
}

/// The pair that an entry asks for, the lower edge first; or 5 or 6.
pub fn asked_by(scene: &Scene, entry: u32) -> Result<Pair, u64> {
    let (kind, first, second) = (entry >> 20, (entry >> 10 & 1_023) as usize, (entry & 1_023) as usize);
    let (firsts, seconds) = match kind {
        0 => (scene.vertices.len(), scene.triangles.len()),
        1 => (scene.edges.len(), scene.edges.len()),
        _ => return Err(NOT_THERE),
    };
    if first >= firsts || second >= seconds {
        return Err(NOT_THERE);
    }
    let pair = if kind == 0 { Pair::pt(first, second) } else { Pair::ee(first.min(second), first.max(second)) };
    if pair.shares_a_vertex(scene) {
        return Err(SHARES_A_VERTEX);
    }
    Ok(pair)
}

pub fn scene(lent: &Lent) -> Result<Scene, Refusal> {
    with_slices(lent, slices::scene)
}

/// The list in front of its buffer, where there is room.
fn listed(lent: &mut Lent, room: usize) -> Result<(Scene, Vec<Pair>), Refusal> {
    let scene = scene(lent)?;
    let pairs = listing::listed(&scene);
    if pairs.len() > room {
        return Err(Refusal::new(NO_ROOM, pairs.len() as u64));
    }
    for (entry, &pair) in lent.list.iter_mut().zip(&pairs) {
        *entry = slices::entry(pair);
    }
    Ok((scene, pairs))
}

fn read(lent: &mut Lent) -> Result<u64, Refusal> {
    let lengths = [lent.positions.len(), lent.edges.len(), lent.triangles.len(), lent.seams.len()];
    let scene = text::read_lent(&lent.text, lengths)?;
    put_scene(lent, &scene);
    Ok(0)
}

/// The scene in front of the four buffers, and its counts.
fn put_scene(lent: &mut Lent, scene: &Scene) {
    let read = Lent::of_scene(scene);
    lent.positions[..read.positions.len()].copy_from_slice(&read.positions);
    lent.edges[..read.edges.len()].copy_from_slice(&read.edges);
    lent.triangles[..read.triangles.len()].copy_from_slice(&read.triangles);
    lent.seams[..read.seams.len()].copy_from_slice(&read.seams);
    let counts = [scene.vertices.len(), scene.edges.len(), scene.triangles.len(), scene.seams.len()];
    lent.counts = counts.map(|count| count as u64).to_vec();
}

/// The scene of two files in front of its buffers, and its boxes in front of theirs. A refusal that is about a file says so in the two upper bits of
/// what it carries.
fn import(lent: &mut Lent) -> Result<u64, Refusal> {
    let lengths = [lent.positions.len(), lent.edges.len(), lent.triangles.len(), lent.seams.len()];
    let imported = obj::import_lent(&lent.text, &lent.ending, lengths, lent.boxes.len());
    let scene = imported.map_err(|obj::Refused { number, third, file }| {
        let which = file.map_or(0, |file| if file == obj::File::Start { 1 << 30 } else { 1 << 31 });
        Refusal::new(number, third + which)
    })?;
    put_scene(lent, &scene);
    for (number, worked_out) in lent.boxes.iter_mut().zip(stored::boxes(&scene, Wrong::None)) {
        *number = worked_out as i32;
    }
    Ok(0)
}

/// 12 for the boxes too; then the text, and the boxes of its scene in front.
fn read_boxed(lent: &mut Lent, wrong: Wrong) -> Result<u64, Refusal> {
    if lent.boxes.len() < stored::BOX_NUMBERS {
        return Err(Refusal::bare(LENT_TOO_SHORT));
    }
    let answer = read(lent)?;
    let right = stored::boxes(&text::read(&lent.text)?, wrong);
    lent.boxes[..right.len()].copy_from_slice(&narrow(&right));
    Ok(answer)
}

fn turn(lent: &mut Lent) -> Result<u64, Refusal> {
    *lent = Lent::of_scene(&backwards::turned(&scene(lent)?));
    Ok(0)
}

/// The answers in front of their buffer: 1 for yes, 0 for no.
fn check_claims(lent: &mut Lent) -> Result<u64, Refusal> {
    let answers = claims::answers(&scene(lent)?, &lent.text, lent.words.len())?;
    lent.words.iter_mut().zip(&answers).for_each(|(byte, &yes)| *byte = yes as u8);
    Ok(answers.len() as u64)
}

/// The scene's text, where it is no longer than a text may be.
pub fn saved(lent: &Lent) -> Result<String, Refusal> {
    let text = text::write(&scene(lent)?);
    if text.len() > TEXT_LIMIT {
        return Err(Refusal::new(TEXT_TOO_LONG, 0));
    }
    Ok(text)
}

/// The text in front of its buffer, where there is room.
fn save(lent: &mut Lent) -> Result<u64, Refusal> {
    let text = saved(lent)?;
    if text.len() > lent.text.len() {
        return Err(Refusal::new(NO_ROOM, text.len() as u64));
    }
    lent.text[..text.len()].copy_from_slice(text.as_bytes());
    Ok(text.len() as u64)
}

fn write(lent: &mut Lent) -> u64 {
    let report = report::report(&lent.text, REPORT_ROOM);
    lent.report[..report.len()].copy_from_slice(report.as_bytes());
    report.len() as u64
}
