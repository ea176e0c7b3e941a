//! Meshes of any size: the list by rows, a stretch at a time.

use crate::answers::settled;
use crate::answers::Refusal;
use crate::{raw, Contact, Kind, Settled, CONTACT_LENGTH};
use std::borrow::Cow;
use std::error::Error;
use std::fmt::{self, Display, Formatter};
use std::ops::Range;

/// A mesh of any size, at most [`PART_LIMIT`](crate::PART_LIMIT) parts of each kind: the lists of a [`Scene`](crate::Scene) in 32-bit vertex
/// numbers, and two orders, of the edges and of the triangles, which are hints and change no answer: parts that stand near each other next to
/// each other, each number once; empty, where none is lent. Each list is borrowed or owned. Whether the mesh may be used is found by each call.
///
/// ```
/// use makhnodri::{Mesh, RowPairs, Scratch};
///
/// // a resting triangle, and a point that goes through it
/// let positions = [0, 0, 0, 0, 0, 0, 4, 0, 0, 4, 0, 0, 0, 4, 0, 0, 4, 0, 1, 1, 1, 1, 1, -1];
/// let mesh = Mesh::new(&positions, &[], &[0, 1, 2]);
/// let mut scratch = Scratch::default();
/// assert_eq!(mesh.count_rows(&mut scratch, RowPairs::Near, 0..mesh.row_count()), Ok(1));
/// let mut list = [0; 8];
/// let count = mesh.list_rows(&mut scratch, RowPairs::Listed, 0..mesh.row_count(), &mut list).unwrap();
/// let pair = makhnodri::MeshPair::of_entry(list[0]);
/// assert_eq!((count, pair.kind, pair.first, pair.second), (1, makhnodri::Kind::PointTriangle, 3, 0));
/// ```
///
/// Rows are taken in stretches, by as many threads as one likes, each with a [`Scratch`] of its own: what neighbouring stretches list, joined,
/// is the list of both. Rows of vertices look at no edge and rows of edges at no triangle, which is proved; so once a mesh is accepted, a call
/// over rows of one kind may be lent an empty list of the other, and no order of it, and begins sooner, in less scratch.
#[derive(Clone, Debug, Default, PartialEq, Eq)]
pub struct Mesh<'a> {
    /// Six numbers a vertex: start x, y, z, end x, y, z.
    pub positions: Cow<'a, [i32]>,
    /// Two vertex numbers an edge.
    pub edges: Cow<'a, [u32]>,
    /// Three vertex numbers a triangle.
    pub triangles: Cow<'a, [u32]>,
    /// Two vertex numbers a seam: the vertex that is replaced, and the one that it stands for.
    pub seams: Cow<'a, [u32]>,
    /// An order of the edges, or none.
    pub edge_order: Cow<'a, [u32]>,
    /// An order of the triangles, or none.
    pub triangle_order: Cow<'a, [u32]>,
}

/// What a call over a mesh works in. It grows as a mesh needs it, and nothing is kept in it from call to call; it is kept so that memory is
/// asked for once. Each thread has its own.
#[derive(Clone, Debug, Default)]
pub struct Scratch {
    table: Vec<u32>,
    places: Vec<u32>,
    boxes: Vec<i32>,
}

/// Which pairs of a row: all that are listed, or of these the ones that are not far from each other. A pair is far where on one axis one part
/// lies strictly below the other at the start and at the end; it is neither hit nor touch.
#[derive(Clone, Copy, Debug, PartialEq, Eq, Hash)]
pub enum RowPairs {
    /// Those whose swept boxes meet, and that share no vertex.
    Listed,
    /// Of these the ones that are not far.
    Near,
}

/// A pair of a mesh: its kind and its two places.
#[derive(Clone, Copy, Debug, PartialEq, Eq, PartialOrd, Ord, Hash)]
pub struct MeshPair {
    /// A point and a triangle, or two edges.
    pub kind: Kind,
    /// The vertex, or the first edge.
    pub first: u32,
    /// The triangle, or the second edge.
    pub second: u32,
}

impl MeshPair {
    /// The pair that an entry of a mesh's list stands for.
    pub fn of_entry(entry: u64) -> MeshPair {
        let kind = if entry >> 63 == 0 { Kind::PointTriangle } else { Kind::EdgeEdge };
        MeshPair { kind, first: (entry >> 32) as u32 & 0x7fff_ffff, second: entry as u32 }
    }

    /// Its entry: 2^63 for two edges, plus 2^32 times the first place, plus the second.
    pub fn entry(self) -> u64 {
        ((self.kind as u64) << 63) + ((self.first as u64) << 32) + self.second as u64
    }
}

/// Why no stretch was listed.
#[derive(Clone, Copy, Debug, PartialEq, Eq, Hash)]
#[non_exhaustive]
pub enum RowsRefusal {
    /// 1, 2, 3, 15, 4, 18 or 5; for contacts 16 too.
    Mesh(Refusal),
    /// 7, with the count of pairs that need room.
    NoRoom {
        /// That count.
        needed: u64,
    },
}

impl RowsRefusal {
    /// The refusal alone.
    pub fn refusal(self) -> Refusal {
        match self {
            RowsRefusal::Mesh(refusal) => refusal,
            RowsRefusal::NoRoom { .. } => Refusal::NoRoom,
        }
    }
}

impl Display for RowsRefusal {
    fn fmt(&self, f: &mut Formatter) -> fmt::Result {
        match self {
            RowsRefusal::Mesh(refusal) => refusal.fmt(f),
            RowsRefusal::NoRoom { needed } => write!(f, "{}, {needed} needed", Refusal::NoRoom),
        }
    }
}

impl Error for RowsRefusal {}

/// The words whose pairs are kept; none by default.
#[derive(Clone, Copy, Debug, Default, PartialEq, Eq, Hash)]
pub struct Wanted {
    /// Pairs that are hit.
    pub hits: bool,
    /// Pairs that miss.
    pub misses: bool,
    /// Pairs that touch.
    pub touches: bool,
    /// Pairs that are apart.
    pub aparts: bool,
}

impl Wanted {
    /// As C asks: 2 to the power of each word's byte, added up.
    pub fn mask(self) -> u32 {
        let asked = [
            (self.hits, Settled::Hit),
            (self.misses, Settled::Miss),
            (self.touches, Settled::Touch),
            (self.aparts, Settled::Apart),
        ];
        asked.into_iter().map(|(is_wanted, word)| (is_wanted as u32) << word as u32).sum()
    }
}

/// What is told of rows of which pairs were kept.
#[derive(Clone, Copy, Debug, PartialEq, Eq, Hash)]
pub struct KeptRows {
    /// How many pairs are kept.
    pub count: u64,
    /// How many pairs there are.
    pub listed: u64,
    /// How many of all of these are hit.
    pub hits: u64,
    /// How many miss.
    pub misses: u64,
    /// How many touch.
    pub touches: u64,
    /// How many are apart.
    pub aparts: u64,
}

/// What was found of the edges of a mesh.
#[derive(Clone, Copy, Debug, PartialEq, Eq, Hash)]
pub enum EdgesFound {
    /// Every side of every triangle is an edge, and no edge stands twice.
    Whole,
    /// The first side, three to a triangle, that has not the edge that is lent for it.
    Bare {
        /// Its number.
        side: u64,
    },
    /// The first number of the order behind which the ends do not rise: an edge stands twice, or the order is not by ends.
    Twice {
        /// Its place in the order.
        place: u64,
    },
}

impl<'a> Mesh<'a> {
    /// A mesh without seams and orders.
    pub fn new(
        positions: impl Into<Cow<'a, [i32]>>,
        edges: impl Into<Cow<'a, [u32]>>,
        triangles: impl Into<Cow<'a, [u32]>>,
    ) -> Mesh<'a> {
        Mesh { positions: positions.into(), edges: edges.into(), triangles: triangles.into(), ..Mesh::default() }
    }

    /// The mesh with these seams, in the place of those that it has.
    pub fn sewn(self, seams: impl Into<Cow<'a, [u32]>>) -> Mesh<'a> {
        Mesh { seams: seams.into(), ..self }
    }

    /// The mesh with an order of its edges and one of its triangles; an empty one is none.
    pub fn ordered(self, edges: impl Into<Cow<'a, [u32]>>, triangles: impl Into<Cow<'a, [u32]>>) -> Mesh<'a> {
        Mesh { edge_order: edges.into(), triangle_order: triangles.into(), ..self }
    }

    /// How many rows it has: row v is vertex v's, its pairs with triangles; row vertices + e is edge e's, its pairs with the edges behind it.
    pub fn row_count(&self) -> usize {
        self.positions.len() / 6 + self.edges.len() / 2
    }
}

impl Scratch {
    /// As long as the mesh needs it, so that 12 is never met; for near rows with room for the nodes of both times, by which they are found faster; and with
    /// room to hold the entries of a list of this length until it is known that all of them fit, since rows are walked twice without it.
    fn fit(&mut self, mesh: &Mesh, list: usize, near: bool) {
        let [vertices, edges, triangles] = [mesh.positions.len() / 6, mesh.edges.len() / 2, mesh.triangles.len() / 3];
        let table = if mesh.seams.is_empty() { 0 } else { vertices };
        let orders = 2 * (mesh.edge_order.len() + mesh.triangle_order.len());
        let places = orders + (edges + triangles).max(2 * list.min(HELD));
        let nodes = edges / 15 + 16 + triangles / 15 + 16;
        let boxes = 6 * (vertices + edges + triangles + if near { 3 * nodes } else { nodes });
        self.table.resize(self.table.len().max(table), 0);
        self.places.resize(self.places.len().max(places), 0);
        self.boxes.resize(self.boxes.len().max(boxes), 0);
    }
}

/// The most entries that are held: with more the scratch would be larger than the list that it is for.
const HELD: usize = 1 << 23;

// SAFETY: each pointer goes with the length of its slice; a slice's pointer is neither null nor out of line, and what is lent to be
// written is borrowed by `&mut`, so it overlaps nothing else.
macro_rules! ask_mesh {
    ($mesh:expr, $function:ident $(, $more:expr)*) => {{
        let Mesh { positions: p, edges: e, triangles: t, seams: s, .. } = $mesh;
        unsafe { raw::$function(p.as_ptr(), p.len(), e.as_ptr(), e.len(), t.as_ptr(), t.len(), s.as_ptr(), s.len() $(, $more)*) }
    }};
}

macro_rules! ask_rows {
    ($mesh:expr, $scratch:expr, $list:expr, $function:ident $(, $more:expr)*) => {{
        $scratch.fit($mesh, $list, stringify!($function).contains("_near_"));
        let Mesh { edge_order: eo, triangle_order: to, .. } = $mesh;
        let Scratch { table: st, places: sp, boxes: sb } = $scratch;
        ask_mesh!($mesh, $function, eo.as_ptr(), eo.len(), to.as_ptr(), to.len(), st.as_mut_ptr(), st.len(), sp.as_mut_ptr(), sp.len(), sb.as_mut_ptr(), sb.len() $(, $more)*)
    }};
}

/// 0, or the refusal.
fn heard(number: u32) -> Result<(), Refusal> {
    if number == 0 {
        return Ok(());
    }
    Err(Refusal::numbered(number as u64))
}

/// What is told, or the refusal with the count needed, which stands in front.
fn told_of<const LENGTH: usize>(number: u32, told: [u64; LENGTH]) -> Result<[u64; LENGTH], RowsRefusal> {
    match heard(number) {
        Ok(()) => Ok(told),
        Err(Refusal::NoRoom) => Err(RowsRefusal::NoRoom { needed: told[0] }),
        Err(refusal) => Err(RowsRefusal::Mesh(refusal)),
    }
}

fn counted(number: u32, told: [u64; 1]) -> Result<u64, RowsRefusal> {
    told_of(number, told).map(|[count]| count)
}

fn kept(number: u32, told: [u64; 6]) -> Result<KeptRows, RowsRefusal> {
    let [count, listed, hits, misses, touches, aparts] = told_of(number, told)?;
    Ok(KeptRows { count, listed, hits, misses, touches, aparts })
}

/// Each call checks the whole mesh first: 1, 2, 3, 15, 4, with [`PART_LIMIT`](crate::PART_LIMIT) for its sizes. After a refusal nothing lent has
/// changed.
impl Mesh<'_> {
    /// May this mesh be used?
    pub fn check_mesh(&self, scratch: &mut Scratch) -> Result<(), Refusal> {
        scratch.fit(self, 0, false);
        heard(ask_mesh!(self, makhnodri_check_mesh_slices, scratch.table.as_mut_ptr(), scratch.table.len()))
    }

    /// Whether its edges are whole. Who made them lends in `sides` the number of the edge of each side, three to a triangle, from corner 0 to
    /// 1, 1 to 2, 2 to 0, and in `order` the edges by their ends, the lower end first; both are looked at. 18 where one is of another length,
    /// or the order is none.
    pub fn check_edges(&self, scratch: &mut Scratch, sides: &[u32], order: &[u32]) -> Result<EdgesFound, Refusal> {
        scratch.fit(self, 0, false);
        let mut told = [0; 2];
        let (s, o) = ((sides.as_ptr(), sides.len()), (order.as_ptr(), order.len()));
        let (t, p) = ((scratch.table.as_mut_ptr(), scratch.table.len()), (scratch.places.as_mut_ptr(), scratch.places.len()));
        heard(ask_mesh!(self, makhnodri_check_edges_slices, s.0, s.1, o.0, o.1, t.0, t.1, p.0, p.1, told.as_mut_ptr()))?;
        Ok(match told[0] {
            0 => EdgesFound::Whole,
            1 => EdgesFound::Bare { side: told[1] },
            _ => EdgesFound::Twice { place: told[1] },
        })
    }
}

/// Rows of the list, from the first up to and without the end; 5 for rows that are not there, 18 for an order that is none.
impl Mesh<'_> {
    /// How many pairs they have.
    pub fn count_rows(&self, scratch: &mut Scratch, which: RowPairs, rows: Range<usize>) -> Result<u64, Refusal> {
        let (a, b, mut told) = (rows.start, rows.end, [0; 1]);
        let number = match which {
            RowPairs::Listed => ask_rows!(self, scratch, 0, makhnodri_count_rows_slices, a, b, told.as_mut_ptr()),
            RowPairs::Near => ask_rows!(self, scratch, 0, makhnodri_count_near_rows_slices, a, b, told.as_mut_ptr()),
        };
        counted(number, told).map_err(RowsRefusal::refusal)
    }

    /// Their entries in front of `list`, in rising order; the rest of it is unchanged.
    pub fn list_rows(
        &self,
        scratch: &mut Scratch,
        which: RowPairs,
        rows: Range<usize>,
        list: &mut [u64],
    ) -> Result<u64, RowsRefusal> {
        let (a, b, mut told, l) = (rows.start, rows.end, [0; 1], (list.as_mut_ptr(), list.len()));
        let number = match which {
            RowPairs::Listed => ask_rows!(self, scratch, l.1, makhnodri_list_rows_slices, a, b, l.0, l.1, told.as_mut_ptr()),
            RowPairs::Near => ask_rows!(self, scratch, l.1, makhnodri_list_near_rows_slices, a, b, l.0, l.1, told.as_mut_ptr()),
        };
        counted(number, told)
    }

    /// And the word of each, `words[i]` that of entry i.
    pub fn settle_rows(
        &self,
        scratch: &mut Scratch,
        which: RowPairs,
        rows: Range<usize>,
        list: &mut [u64],
        words: &mut [u8],
    ) -> Result<u64, RowsRefusal> {
        let (a, b, mut told) = (rows.start, rows.end, [0; 1]);
        let (l, w) = ((list.as_mut_ptr(), list.len()), (words.as_mut_ptr(), words.len()));
        let number = match which {
            RowPairs::Listed => {
                ask_rows!(self, scratch, l.1, makhnodri_settle_rows_slices, a, b, l.0, l.1, w.0, w.1, told.as_mut_ptr())
            }
            RowPairs::Near => {
                ask_rows!(self, scratch, l.1, makhnodri_settle_near_rows_slices, a, b, l.0, l.1, w.0, w.1, told.as_mut_ptr())
            }
        };
        counted(number, told)
    }

    /// And the contact of each hit: that of entry i begins at `contacts[5 * i]`; the numbers of a pair that is not hit stay as they were.
    pub fn contact_rows(
        &self,
        scratch: &mut Scratch,
        which: RowPairs,
        rows: Range<usize>,
        list: &mut [u64],
        words: &mut [u8],
        contacts: &mut [u32],
    ) -> Result<u64, RowsRefusal> {
        let (a, b, mut told, l) = (rows.start, rows.end, [0; 1], (list.as_mut_ptr(), list.len()));
        let (w, c) = ((words.as_mut_ptr(), words.len()), (contacts.as_mut_ptr(), contacts.len()));
        let t = told.as_mut_ptr();
        let number = match which {
            RowPairs::Listed => {
                ask_rows!(self, scratch, l.1, makhnodri_contact_rows_slices, a, b, l.0, l.1, w.0, w.1, c.0, c.1, t)
            }
            RowPairs::Near => {
                ask_rows!(self, scratch, l.1, makhnodri_contact_near_rows_slices, a, b, l.0, l.1, w.0, w.1, c.0, c.1, t)
            }
        };
        counted(number, told)
    }

    /// Of their pairs those whose words are asked for: their entries and words, as of [`Mesh::settle_rows`] of those pairs alone. Room is
    /// needed for those that are kept, and no others; the totals are of all.
    ///
    /// ```
    /// use makhnodri::{Mesh, RowPairs, Scratch, Wanted};
    ///
    /// let positions = [0, 0, 0, 0, 0, 0, 4, 0, 0, 4, 0, 0, 0, 4, 0, 0, 4, 0, 1, 1, 1, 1, 1, -1];
    /// let mesh = Mesh::new(&positions, &[], &[0, 1, 2]);
    /// let wanted = Wanted { touches: true, ..Wanted::default() };
    /// let kept = mesh.keep_rows(&mut Scratch::default(), RowPairs::Near, 0..mesh.row_count(), wanted, &mut [], &mut []).unwrap();
    /// assert_eq!((kept.count, kept.listed, kept.hits), (0, 1, 1));
    /// ```
    pub fn keep_rows(
        &self,
        scratch: &mut Scratch,
        which: RowPairs,
        rows: Range<usize>,
        wanted: Wanted,
        list: &mut [u64],
        words: &mut [u8],
    ) -> Result<KeptRows, RowsRefusal> {
        let (a, b, m, mut told) = (rows.start, rows.end, wanted.mask(), [0; 6]);
        let (l, w) = ((list.as_mut_ptr(), list.len()), (words.as_mut_ptr(), words.len()));
        let t = told.as_mut_ptr();
        let number = match which {
            RowPairs::Listed => ask_rows!(self, scratch, 0, makhnodri_keep_rows_slices, a, b, m, l.0, l.1, w.0, w.1, t),
            RowPairs::Near => ask_rows!(self, scratch, 0, makhnodri_keep_near_rows_slices, a, b, m, l.0, l.1, w.0, w.1, t),
        };
        kept(number, told)
    }

    /// And the contact of each hit that is kept: that of entry i begins at `contacts[5 * i]`, as of [`Mesh::contact_rows`] of those pairs alone.
    /// 16 comes before 7, whichever words are asked for.
    ///
    /// ```
    /// use makhnodri::{Mesh, RowPairs, Scratch, Wanted};
    ///
    /// let positions = [0, 0, 0, 0, 0, 0, 4, 0, 0, 4, 0, 0, 0, 4, 0, 0, 4, 0, 1, 1, 1, 1, 1, -1];
    /// let mesh = Mesh::new(&positions, &[], &[0, 1, 2]);
    /// let (wanted, rows) = (Wanted { hits: true, ..Wanted::default() }, 0..mesh.row_count());
    /// let (mut list, mut words, mut contact) = ([0; 1], [0; 1], [0; 5]);
    /// let kept = mesh.keep_contacts(&mut Scratch::default(), RowPairs::Near, rows, wanted, &mut list, &mut words, &mut contact).unwrap();
    /// assert_eq!((kept.count, contact[1]), (1, 1 << 19));
    /// ```
    #[allow(clippy::too_many_arguments)]
    pub fn keep_contacts(
        &self,
        scratch: &mut Scratch,
        which: RowPairs,
        rows: Range<usize>,
        wanted: Wanted,
        list: &mut [u64],
        words: &mut [u8],
        contacts: &mut [u32],
    ) -> Result<KeptRows, RowsRefusal> {
        let (a, b, m, mut told) = (rows.start, rows.end, wanted.mask(), [0; 6]);
        let (l, w) = ((list.as_mut_ptr(), list.len()), (words.as_mut_ptr(), words.len()));
        let (c, t) = ((contacts.as_mut_ptr(), contacts.len()), told.as_mut_ptr());
        let number = match which {
            RowPairs::Listed => {
                ask_rows!(self, scratch, 0, makhnodri_keep_contacts_slices, a, b, m, l.0, l.1, w.0, w.1, c.0, c.1, t)
            }
            RowPairs::Near => {
                ask_rows!(self, scratch, 0, makhnodri_keep_near_contacts_slices, a, b, m, l.0, l.1, w.0, w.1, c.0, c.1, t)
            }
        };
        kept(number, told)
    }

    /// The edges that are through a triangle at the start: an entry for each such edge and triangle, by edge and then by triangle. Rows are the
    /// edges here.
    pub fn pierced_at_start_rows(
        &self,
        scratch: &mut Scratch,
        edges: Range<usize>,
        list: &mut [u64],
    ) -> Result<u64, RowsRefusal> {
        let (a, b, mut told, l) = (edges.start, edges.end, [0; 1], (list.as_mut_ptr(), list.len()));
        counted(ask_rows!(self, scratch, 0, makhnodri_pierced_at_start_rows_slices, a, b, l.0, l.1, told.as_mut_ptr()), told)
    }

    /// The same at the end.
    pub fn pierced_at_end_rows(&self, scratch: &mut Scratch, edges: Range<usize>, list: &mut [u64]) -> Result<u64, RowsRefusal> {
        let (a, b, mut told, l) = (edges.start, edges.end, [0; 1], (list.as_mut_ptr(), list.len()));
        counted(ask_rows!(self, scratch, 0, makhnodri_pierced_at_end_rows_slices, a, b, l.0, l.1, told.as_mut_ptr()), told)
    }
}

/// The stretch with room of its own.
impl Mesh<'_> {
    /// Its pairs with their words, in order.
    pub fn settled_rows(
        &self,
        scratch: &mut Scratch,
        which: RowPairs,
        rows: Range<usize>,
    ) -> Result<Vec<(MeshPair, Settled)>, Refusal> {
        let count = self.count_rows(scratch, which, rows.clone())? as usize;
        let (mut list, mut words) = (vec![0; count], vec![0; count]);
        self.settle_rows(scratch, which, rows, &mut list, &mut words).map_err(RowsRefusal::refusal)?;
        Ok(list.into_iter().map(MeshPair::of_entry).zip(words.into_iter().map(|byte| settled(byte as usize))).collect())
    }
}

/// The contacts of a stretch with room of their own.
impl Mesh<'_> {
    /// Its pairs with their contacts, in order.
    pub fn contacts_of_rows(
        &self,
        scratch: &mut Scratch,
        which: RowPairs,
        rows: Range<usize>,
    ) -> Result<Vec<(MeshPair, Contact)>, Refusal> {
        let count = self.count_rows(scratch, which, rows.clone())? as usize;
        let (mut list, mut words, mut contacts) = (vec![0; count], vec![0; count], vec![0; CONTACT_LENGTH * count]);
        self.contact_rows(scratch, which, rows, &mut list, &mut words, &mut contacts).map_err(RowsRefusal::refusal)?;
        let pairs = list.into_iter().map(MeshPair::of_entry).zip(words).zip(contacts.chunks_exact(CONTACT_LENGTH));
        let one = |((pair, word), row): ((MeshPair, u8), &[u32])| {
            (pair, Contact::heard(pair.kind, settled(word as usize), row.try_into().expect("five numbers")))
        };
        Ok(pairs.map(one).collect())
    }
}
