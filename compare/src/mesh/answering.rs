//! What each call over a mesh answers, and what it leaves in all that is lent but the scratch.

use super::checks;
use super::edges;
use super::lent::*;
use super::rows;
use super::wrong::Wrong;
use crate::contacts::{self, Contact};
use crate::scene::refusal::*;
use crate::scene::*;
use crate::verdicts::settled::{self, Settled};
use std::collections::HashMap;

/// Numbers of a contact.
pub const ROW: usize = 5;

/// Remembers of the last mesh what takes its time.
#[derive(Default)]
pub struct Answering {
    scene: Scene,
    listed: Option<Vec<Pair>>,
    words: HashMap<Pair, Settled>,
    contacts: HashMap<Pair, Option<Contact>>,
}

/// What a stretch comes to: an entry for each pair that is to be written, with its word and the row of its contact where it is asked for.
struct Found {
    entries: Vec<u64>,
    words: Vec<u8>,
    /// For each pair that is hit its place among the entries, and its row.
    rows: Vec<(usize, [u32; ROW])>,
    told: Vec<u64>,
}

impl Answering {
    /// The refusal's number, or 0; and all that was lent as the call leaves it, the scratch as it was.
    pub fn answer(&mut self, ask: &Ask, wrong: Wrong) -> (u64, Lent) {
        let mut lent = ask.lent.clone();
        let number = match ask.call {
            Call::CheckMesh => check_mesh(&lent, wrong),
            Call::CheckEdges => edges::checked(&ask.lent, wrong).map(|told| put(&mut lent.told, &told)),
            _ => self.rows(ask, &mut lent, wrong),
        };
        let refused = number.err().unwrap_or(0);
        if wrong == Wrong::ToldAtRefusals && refused > 0 && refused != NO_ROOM {
            lent.told.iter_mut().for_each(|number| *number = 0);
        }
        (refused, lent)
    }

    fn rows(&mut self, ask: &Ask, lent: &mut Lent, wrong: Wrong) -> Result<(), u64> {
        let scene = checks::before_room(ask, wrong)?;
        self.forget_another(&scene);
        let mut found = self.found(ask, &scene, wrong);
        let needed = self.needed(ask, &scene, &found, wrong);
        if let Some(room) = room(ask.call, lent, wrong).filter(|&room| (room as u64) < needed) {
            if wrong == Wrong::WrittenUntilFull {
                found.cut(room);
                found.write(lent);
            }
            if wrong != Wrong::NeededNotTold {
                put(&mut lent.told, &[needed]);
            }
            return Err(NO_ROOM);
        }
        // the wrong place for 16: what is found is not written then
        if let Some(number) = checks::out_of_range(ask, wrong).filter(|_| wrong == Wrong::RangeBehindRoom) {
            return Err(number);
        }
        if wrong == Wrong::RestCleared {
            lent.list.iter_mut().for_each(|entry| *entry = 0);
        }
        found.write(lent);
        put(&mut lent.told, &found.told);
        Ok(())
    }

    /// How many must fit.
    fn needed(&mut self, ask: &Ask, scene: &Scene, found: &Found, wrong: Wrong) -> u64 {
        match (wrong, ask.call) {
            (Wrong::NeedsTheWhole, Call::List(_) | Call::Settle(_)) if found.entries.len() > ask.lent.list.len() => {
                let all = [0, rows::row_count(scene)];
                rows::rows_in(scene, &self.listed(scene, wrong), ask.call.pairs(), all, wrong).len() as u64
            }
            (Wrong::RoomForAll, Call::Keep(_) | Call::KeepContacts(_)) => found.told[1],
            _ => found.entries.len() as u64,
        }
    }

    fn found(&mut self, ask: &Ask, scene: &Scene, wrong: Wrong) -> Found {
        let [first, end, wanted] = ask.asked;
        let most = rows::row_count(scene) as u64;
        let stretch = [first, end.min(most)].map(|row| row as usize);
        if let Call::Pierced(time) = ask.call {
            let through = rows::pierced_in(scene, time, stretch, wrong);
            let kind = if wrong == Wrong::PiercedKind { 1 << 63 } else { 0 };
            let entries: Vec<u64> =
                through.iter().map(|[edge, triangle]| kind + ((*edge as u64) << 32) + *triangle as u64).collect();
            return Found { told: vec![entries.len() as u64], entries, words: vec![], rows: vec![] };
        }
        let mut pairs = rows::rows_in(scene, &self.listed(scene, wrong), ask.call.pairs(), stretch, wrong);
        if wrong == Wrong::ListedInTheOrder {
            sort_by_orders(scene, &mut pairs, &ask.lent);
        }
        if [Wrong::PlaceLedTwice, Wrong::DroppedSortedIn].contains(&wrong) {
            rows::in_runs(scene, &mut pairs, &ask.lent.edge_order, wrong);
        }
        let words: Vec<Settled> = match ask.call.settles() {
            true => pairs.iter().map(|&pair| self.word(scene, judged(scene, pair, wrong))).collect(),
            false => vec![],
        };
        let kept: Vec<usize> = (0..pairs.len()).filter(|&at| !ask.call.keeps() || wants(wanted, words[at], wrong)).collect();
        let mut found = Found {
            entries: kept.iter().map(|&at| rows::entry(pairs[at], wrong)).collect(),
            words: kept.iter().filter_map(|&at| words.get(at)).map(|word| word.byte()).collect(),
            rows: vec![],
            told: told(ask.call, kept.len(), &words, wrong),
        };
        if wrong == Wrong::HeldOverTheLast && !ask.call.keeps() {
            let rows: Vec<usize> = pairs.iter().map(|&pair| rows::row_of(scene, pair)).collect();
            found.entries = rows::held_over(&found.entries, &rows, &ask.lent);
        }
        if !ask.call.settles() {
            found.told = vec![pairs.len() as u64];
        }
        if ask.call.finds_contacts() {
            for (place, &at) in kept.iter().enumerate() {
                let row = self.contact(scene, pairs[at]).map(|contact| contact.row());
                let row = if wrong == Wrong::RowsOfMisses { Some(row.unwrap_or_default()) } else { row };
                let place = match wrong {
                    Wrong::RowsInPlace => at,
                    Wrong::RowsInOne => 0,
                    _ => place,
                };
                found.rows.extend(row.map(|row| (place, row)));
            }
        }
        if wrong == Wrong::TotalsOfTheKept && ask.call.keeps() {
            let of_kept: Vec<Settled> = kept.iter().map(|&at| words[at]).collect();
            found.told = told(ask.call, kept.len(), &of_kept, wrong);
            found.told[1] = words.len() as u64;
        }
        if wrong == Wrong::KeptInPlace && ask.call.keeps() {
            found.spread(&kept, ask);
        }
        found
    }

    fn listed(&mut self, scene: &Scene, wrong: Wrong) -> Vec<Pair> {
        if [Wrong::SeamsUnseen, Wrong::SharingUnseen, Wrong::AxisForAnother, Wrong::EdgeByOneEnd].contains(&wrong) {
            return rows::listed(scene, wrong);
        }
        self.listed.get_or_insert_with(|| rows::listed(scene, wrong)).clone()
    }

    /// What shares a vertex is judged by whoever lists it.
    fn word(&mut self, scene: &Scene, pair: Pair) -> Settled {
        *self.words.entry(pair).or_insert_with(|| settled::of_pair(scene, pair))
    }

    fn contact(&mut self, scene: &Scene, pair: Pair) -> Option<Contact> {
        self.contacts.entry(pair).or_insert_with(|| contacts::of_pair(scene, pair)).clone()
    }

    fn forget_another(&mut self, scene: &Scene) {
        if self.scene != *scene {
            *self = Answering { scene: scene.clone(), ..Answering::default() };
        }
    }
}

/// The pair whose word is asked for: it, or, of a program that exchanges its places, the other one where there is one.
fn judged(scene: &Scene, pair: Pair, wrong: Wrong) -> Pair {
    let other = Pair { first: pair.second, second: pair.first, ..pair };
    let there = pair.kind == Kind::PointTriangle && other.first < scene.vertices.len() && other.second < scene.triangles.len();
    match wrong {
        Wrong::WordsExchanged if there => other,
        _ => pair,
    }
}

impl Found {
    /// In front of each buffer that the call takes.
    fn write(&self, lent: &mut Lent) {
        put(&mut lent.list, &self.entries);
        put(&mut lent.words, &self.words);
        for (place, row) in &self.rows {
            if let Some(there) = lent.contacts.get_mut(ROW * place..ROW * (place + 1)) {
                there.copy_from_slice(row);
            }
        }
    }

    fn cut(&mut self, room: usize) {
        self.entries.truncate(room);
        self.words.truncate(room);
        self.rows.retain(|(place, _)| *place < room);
    }

    /// Each where it stood among all, as far as there is room.
    fn spread(&mut self, places: &[usize], ask: &Ask) {
        let (mut list, mut words) = (ask.lent.list.clone(), ask.lent.words.clone());
        for (number, &place) in places.iter().enumerate() {
            list.get_mut(place).into_iter().for_each(|entry| *entry = self.entries[number]);
            words.get_mut(place).into_iter().for_each(|word| *word = self.words[number]);
        }
        let length = self.entries.len();
        (self.entries, self.words) = (list, words);
        self.entries.truncate(length);
        self.words.truncate(length);
    }
}

fn check_mesh(lent: &Lent, wrong: Wrong) -> Result<(), u64> {
    let mesh = checks::mesh(lent, wrong);
    match (checks::table_short(lent, wrong), &mesh) {
        (true, Err(number)) if wrong == Wrong::TwelveBehindTheMesh => Err(*number),
        (true, _) => Err(LENT_TOO_SHORT),
        (false, _) => mesh.map(drop),
    }
}

/// Numbers in front of a buffer; those that it has no room for are lost, as only a wrong program would.
fn put<T: Copy>(buffer: &mut [T], numbers: &[T]) {
    buffer.iter_mut().zip(numbers).for_each(|(there, number)| *there = *number);
}

/// The room of a call that writes.
fn room(call: Call, lent: &Lent, wrong: Wrong) -> Option<usize> {
    if !call.lists() {
        return None;
    }
    let mut room = lent.list.len();
    if call.settles() && wrong != Wrong::NeedsWithoutWords {
        room = room.min(lent.words.len());
    }
    if call.finds_contacts() {
        let rows = lent.contacts.len();
        room = room.min(if wrong == Wrong::NeedsByRows { rows.div_ceil(ROW) } else { rows / ROW });
    }
    Some(room)
}

/// 2 to the power of each word's byte.
fn wants(wanted: u64, word: Settled, wrong: Wrong) -> bool {
    let bit = match wrong {
        Wrong::WantedInARow => settled::WORDS.iter().position(|&other| other == word).unwrap() as u32,
        _ => word.byte() as u32,
    };
    wrong == Wrong::WantedAll || wanted >> bit & 1 == 1
}

/// A count; or how many are kept, how many there are, and how many have each word.
fn told(call: Call, kept: usize, words: &[Settled], wrong: Wrong) -> Vec<u64> {
    if !call.keeps() {
        return vec![kept as u64];
    }
    let all = if wrong == Wrong::ListedIsKept { kept } else { words.len() };
    let with = |word: Settled| words.iter().filter(|&&other| other == word).count() as u64;
    [kept as u64, all as u64].into_iter().chain(settled::WORDS.map(with)).collect()
}

/// The pairs of each row as a walk finds them that goes by the lent orders.
fn sort_by_orders(scene: &Scene, pairs: &mut [Pair], lent: &Lent) {
    let place = |order: &[u32], part: usize| order.iter().position(|&other| other as usize == part).unwrap_or(part);
    pairs.sort_by_key(|&pair| {
        let order = if pair.kind == Kind::PointTriangle { &lent.triangle_order } else { &lent.edge_order };
        (rows::row_of(scene, pair), place(order, pair.second))
    });
}
