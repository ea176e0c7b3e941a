//! What the program asks of the library about a mesh, a stretch of rows at a time: the words and contacts of its pairs, and which edges are through a
//! triangle. The list is the library's own, of a mesh of any size; so is the check that the edges are those of the faces. How pairs are asked for is known
//! here and below, and nowhere else.

use crate::choice::Choice;
use crate::cutter::Cutter;
use crate::fault::Fault;
use crate::mesh::Mesh;
use crate::order;
use crate::pairs::Pair;
use crate::report::{pairs_of, place, Row, Tally};
use makhnodri::{EdgesFound, RowsRefusal, Scratch, Settled, Wanted};
use std::fmt::Display;
use std::ops::Range;
use std::sync::atomic::AtomicBool;
use std::sync::atomic::Ordering::Relaxed;
use std::sync::Mutex;

pub use makhnodri::RowPairs as Which;

/// What is asked of each stretch.
#[derive(Clone, Copy)]
pub struct Question<'a> {
    pub which: Which,
    /// The pairs that are judged, where not all are.
    pub choice: Option<&'a Choice>,
    /// The words whose pairs are handed back, in the order of `report::WORDS`; totals are of all.
    pub wanted: [bool; 4],
    /// Whether each hit is handed back with its contact.
    pub contacts: bool,
}

/// What came of a stretch.
#[derive(Default)]
pub struct Answer {
    /// The pairs whose words are wanted, in the list's order.
    pub told: Vec<(Pair, Settled)>,
    /// Beside them, where contacts are asked for: the numbers of a hit's contact, and of any other word nothing that counts.
    pub contacts: Vec<Row>,
    /// Of all pairs that were judged.
    pub tally: Tally,
    /// How many pairs the choice left out.
    pub left: u64,
}

/// The pairs of some rows whose words are wanted, as the library wrote them: entries, the byte of each word, and where contacts are asked for their numbers.
pub struct Found<'a> {
    pub list: &'a [u64],
    pub words: &'a [u8],
    pub contacts: &'a [Row],
}

/// How many pairs there were: by their words those that were judged, and those that the choice left out; and how much of the room they took.
#[derive(Clone, Copy, Debug, Default, PartialEq)]
pub struct Counts {
    pub tally: Tally,
    pub left: u64,
    pub filled: f64,
}

/// A mesh that the library takes, and whose edges it found to be whole.
pub struct Judge<'a> {
    mesh: &'a Mesh,
    asked: makhnodri::Mesh<'a>,
    /// The same without edges, for the rows of vertices, and without triangles, for those of edges: these do not look at them.
    of_kind: [makhnodri::Mesh<'a>; 2],
    /// What threads work in that wait for a stretch.
    waiting: Mutex<Vec<Room>>,
    /// Whether many pairs are of words that are kept, so that they are judged as fast with all others beside them.
    many: AtomicBool,
}

/// What a thread works in.
#[derive(Default)]
struct Room {
    scratch: Scratch,
    list: Vec<u64>,
    words: Vec<u8>,
    contacts: Vec<Row>,
}

/// Stretches for each thread where there are several, so that all end at about the same time; and the fewest rows of one.
const STRETCHES: usize = 3;
const FEWEST: usize = 512;

/// Pairs that a call has room for: at least so many, and so many for so many parts of the mesh, beside what the library works in: each call begins with
/// boxes and a tree of all parts of a kind. More of them go in several calls, so that falling cloth, which lists thousands for a vertex, takes no more memory
/// than any other.
const ROOM: usize = 1 << 17;
const PAIRS: usize = 2;
const PARTS: usize = 3;

/// More pairs than this a row seldom has.
const IN_A_ROW: usize = 1_024;

/// So many kept pairs the library holds in arrays of its own; where there are more, it judges all once more.
const KEPT: usize = 8_192;
/// Of this part of the rows, and fewer, so many are many.
const SHORT: usize = 32;

impl<'a> Judge<'a> {
    pub fn new(mesh: &'a Mesh) -> Result<Judge<'a>, Fault> {
        let mut room = Room::default();
        whole_edges(mesh, &lent(mesh), &mut room.scratch)?;
        Ok(Judge::of_whole(mesh, room))
    }

    /// The same; and what shows that the edges are those of the faces is let go, since the library has looked at it: the order, and the sides too, where
    /// they are not `kept`.
    pub fn sparing(mesh: &'a mut Mesh, kept: bool) -> Result<Judge<'a>, Fault> {
        let mut room = Room::default();
        whole_edges(mesh, &lent(mesh), &mut room.scratch)?;
        mesh.order = Vec::new();
        if !kept {
            mesh.sides = Vec::new();
        }
        Ok(Judge::of_whole(mesh, room))
    }

    fn of_whole(mesh: &'a Mesh, room: Room) -> Judge<'a> {
        let asked = lent(mesh);
        let points = makhnodri::Mesh { edges: [].as_slice().into(), ..asked.clone() };
        let sides = makhnodri::Mesh { triangles: [].as_slice().into(), ..asked.clone() };
        let of_kind = [
            points.ordered(&[], order::lent(&mesh.positions, &mesh.triangles)),
            sides.ordered(order::lent(&mesh.positions, &mesh.edges), &[]),
        ];
        Judge { mesh, asked, of_kind, waiting: Mutex::new(vec![room]), many: AtomicBool::new(false) }
    }

    pub fn mesh(&self) -> &'a Mesh {
        self.mesh
    }

    /// What the library is lent for the rows from this one up to the last of its kind.
    pub fn lent(&self, row: usize) -> &makhnodri::Mesh<'a> {
        &self.of_kind[(row >= self.border()) as usize]
    }

    /// Where the rows of the second kind begin.
    pub fn border(&self) -> usize {
        self.mesh.positions.len()
    }

    /// A row holds the pairs with the same first part: one for each vertex, then one for each edge. The rows in turn are the list.
    pub fn rows(&self) -> usize {
        self.asked.row_count()
    }

    /// All rows, cut as they are asked for.
    pub fn cutter(&self, threads: usize) -> Cutter {
        Cutter::new(self.rows(), self.border(), self.most() / IN_A_ROW, threads)
    }

    /// How many rows are well asked for in one piece, where nothing is learned from one to the next: each call makes boxes and trees anew, so there are few.
    pub fn length(&self, threads: usize) -> usize {
        let stretches = if threads > 1 { STRETCHES * threads } else { 1 };
        self.rows().div_ceil(stretches).max(FEWEST)
    }

    /// Where the rows of a row's kind end.
    pub fn end_of_kind(&self, row: usize) -> usize {
        if row < self.border() {
            self.border()
        } else {
            self.rows()
        }
    }

    /// How many pairs a call has room for.
    fn most(&self) -> usize {
        ROOM.max(PAIRS * (self.rows() + self.mesh.triangles.len()) / PARTS)
    }

    /// All that came of some rows.
    pub fn asked(&self, rows: Range<usize>, question: &Question) -> Result<Answer, Fault> {
        let mut answer = Answer::default();
        let counts = self.each(rows, question, |found| {
            answer.told.extend(pairs_of(found.list, found.words));
            answer.contacts.extend(found.contacts);
        })?;
        (answer.tally, answer.left) = (counts.tally, counts.left);
        Ok(answer)
    }

    /// The rows in turn, as many of a kind at a time as there is room for.
    pub fn each(&self, rows: Range<usize>, question: &Question, take: impl FnMut(Found)) -> Result<Counts, Fault> {
        let mut room = self.waiting().pop().unwrap_or_default();
        let counts = self.each_in(rows, question, &mut room, take);
        self.waiting().push(room);
        counts
    }

    /// What threads worked in is given back: edges that are through a triangle take more of it than rows of a kind.
    pub fn let_go(&self) {
        self.waiting().clear();
    }

    fn waiting(&self) -> std::sync::MutexGuard<'_, Vec<Room>> {
        self.waiting.lock().expect("nobody panics who holds it")
    }

    fn each_in(
        &self,
        rows: Range<usize>,
        question: &Question,
        room: &mut Room,
        mut take: impl FnMut(Found),
    ) -> Result<Counts, Fault> {
        let (mut counts, mut next, mut length) = (Counts::default(), rows.start, rows.len());
        room.fit(self.most(), question.contacts);
        while next < rows.end {
            let end = rows.end.min(next + length).min(self.end_of_kind(next));
            match self.called(next..end, question, room) {
                Ok((count, some)) => {
                    counts.join(some);
                    take(room.found(count, question.contacts));
                    next = end;
                }
                Err(RowsRefusal::NoRoom { needed }) if needed as usize > room.list.len() => match end - next {
                    1 => room.fit(needed as usize, question.contacts),
                    rows => length = fewer(rows, needed as usize, self.most()),
                },
                Err(refusal) => return Err(unlisted(refusal)),
            }
        }
        Ok(counts)
    }

    /// One call: how many pairs are wanted, which stand in front of the room's lists, and the counts of all.
    fn called(&self, rows: Range<usize>, question: &Question, room: &mut Room) -> Result<(usize, Counts), RowsRefusal> {
        let (Room { scratch, list, words, contacts }, which, asked) = (&mut *room, question.which, self.lent(rows.start));
        let contacts = contacts.as_flattened_mut();
        if let Some(wanted) = question.kept().filter(|_| !self.many.load(Relaxed)) {
            let short = rows.len() <= self.rows() / SHORT;
            let kept = match question.contacts {
                true => asked.keep_contacts(scratch, which, rows, wanted, list, words, contacts)?,
                false => asked.keep_rows(scratch, which, rows, wanted, list, words)?,
            };
            self.many.fetch_or(short && kept.count as usize > KEPT, Relaxed);
            let filled = kept.count as f64 / KEPT as f64;
            return Ok((kept.count as usize, Counts { tally: Tally::of_rows(&kept), left: 0, filled }));
        }
        let count = match question.contacts {
            true => asked.contact_rows(scratch, which, rows, list, words, contacts)?,
            false => asked.settle_rows(scratch, which, rows, list, words)?,
        };
        let (wanted, counts) = room.chosen(count as usize, question);
        Ok((wanted, Counts { filled: count as f64 / self.most() as f64, ..counts }))
    }
}

/// So few rows that what is found in them has room, if it is spread evenly, and with some to spare.
fn fewer(rows: usize, needed: usize, most: usize) -> usize {
    (rows / (needed + needed / 4).div_ceil(most).max(2)).max(1)
}

impl Room {
    /// Room for so many pairs; what is not written to takes no memory.
    fn fit(&mut self, pairs: usize, contacts: bool) {
        if self.list.len() < pairs {
            (self.list, self.words) = (vec![0; pairs], vec![0; pairs]);
        }
        if contacts && self.contacts.len() < self.list.len() {
            self.contacts = vec![Row::default(); self.list.len()];
        }
    }

    fn found(&self, count: usize, contacts: bool) -> Found<'_> {
        let contacts = if contacts { &self.contacts[..count] } else { &[] };
        Found { list: &self.list[..count], words: &self.words[..count], contacts }
    }

    /// Of so many pairs those that the choice keeps are counted by their words, and of these the wanted ones stand in front.
    fn chosen(&mut self, count: usize, question: &Question) -> (usize, Counts) {
        if question.choice.is_none() && question.wanted == [true; 4] {
            return (count, Counts { tally: Tally::of_bytes(&self.words[..count]), ..Counts::default() });
        }
        let (mut counts, mut wanted) = (Counts::default(), 0);
        for at in 0..count {
            let word = Settled::of_byte(self.words[at]).expect("the library writes words alone");
            if question.choice.is_some_and(|choice| !choice.keeps(Pair::of_entry(self.list[at]))) {
                counts.left += 1;
                continue;
            }
            counts.tally.add(word);
            if question.wanted[place(word)] {
                self.list[wanted] = self.list[at];
                self.words[wanted] = self.words[at];
                if question.contacts {
                    self.contacts[wanted] = self.contacts[at];
                }
                wanted += 1;
            }
        }
        (wanted, counts)
    }
}

impl Question<'_> {
    /// The words that are kept, where others need not be seen: those that a choice leaves out are counted apart.
    fn kept(&self) -> Option<Wanted> {
        let [hits, misses, touches, aparts] = self.wanted;
        let some = self.wanted != [true; 4] && self.choice.is_none();
        some.then_some(Wanted { hits, misses, touches, aparts })
    }
}

impl Counts {
    fn join(&mut self, other: Counts) {
        self.tally.join(other.tally);
        self.left += other.left;
        self.filled += other.filled;
    }
}

/// As the library is lent it, without an order.
fn lent(mesh: &Mesh) -> makhnodri::Mesh<'_> {
    let (positions, edges, triangles) = (mesh.positions.as_flattened(), mesh.edges.as_flattened(), mesh.triangles.as_flattened());
    let seams: Vec<u32> = mesh.sewn().flatten().collect();
    makhnodri::Mesh::new(positions, edges, triangles).sewn(seams)
}

/// An edge that is dropped drops all its pairs, so the library looks at them: each side of each face is an edge, and none stands twice.
fn whole_edges(mesh: &Mesh, asked: &makhnodri::Mesh, scratch: &mut Scratch) -> Result<(), Fault> {
    if mesh.sides.is_empty() {
        return asked.check_mesh(scratch).map_err(unlisted);
    }
    match asked.check_edges(scratch, &mesh.sides, &mesh.order).map_err(unlisted)? {
        EdgesFound::Whole => Ok(()),
        EdgesFound::Bare { side } => {
            Err(Fault::new(format!("side {side} of the faces has no edge: this is a fault of the program")))
        }
        EdgesFound::Twice { place } => {
            Err(Fault::new(format!("edge {place} by its ends stands twice: this is a fault of the program")))
        }
    }
}

fn unlisted(refusal: impl Display) -> Fault {
    Fault::new(format!("the library refused the mesh ({refusal}): this is a fault of the program"))
}

/// An edge and a triangle.
#[derive(Clone, Copy, Debug, PartialEq, Eq, PartialOrd, Ord)]
pub struct Through {
    pub edge: u32,
    pub triangle: u32,
}

/// Which edges are through a triangle at the start.
impl Judge<'_> {
    /// One row for each edge.
    pub fn edge_rows(&self) -> usize {
        self.mesh.edges.len()
    }

    /// Every edge of these rows with each triangle that it is through and shares no vertex with, in rising order; without those that are left out.
    pub fn pierced(&self, rows: Range<usize>, choice: Option<&Choice>) -> Result<Vec<Through>, Fault> {
        let mut room = self.waiting().pop().unwrap_or_default();
        let found = self.listed_through(rows, &mut room);
        let through = |&entry: &u64| Through { edge: (entry >> 32) as u32, triangle: entry as u32 };
        let keeps = |through: &Through| choice.is_none_or(|choice| choice.keeps_through(*through));
        let pierced = found.map(|count| room.list[..count].iter().map(through).filter(keeps).collect());
        self.waiting().push(room);
        pierced
    }

    fn listed_through(&self, rows: Range<usize>, room: &mut Room) -> Result<usize, Fault> {
        room.fit(self.most(), false);
        loop {
            match self.asked.pierced_at_start_rows(&mut room.scratch, rows.clone(), &mut room.list) {
                Ok(count) => return Ok(count as usize),
                Err(RowsRefusal::NoRoom { needed }) if needed as usize > room.list.len() => room.fit(needed as usize, false),
                Err(refusal) => return Err(unlisted(refusal)),
            }
        }
    }
}
