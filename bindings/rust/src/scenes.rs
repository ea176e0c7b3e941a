//! A scene as four lists, and what can be asked of it.

use crate::answers::{heard, settled, verdict};
use crate::{raw, ClaimsRefusal, Kind, ListRefusal, Listed, Pair, Refusal, Settled, TurnRefusal, Verdict};
use std::borrow::Cow;

/// The four lists of a scene: six numbers a vertex (start x, y, z, end x, y, z), two vertex numbers an edge and three a triangle, in any
/// order, and two a seam. Each is borrowed or owned, as in a [`Cow`]: [`Scene::new`] takes slices, arrays and `Vec`s, and a scene that was
/// read owns its lists. Whether it may be used is found by each call: none is made from a scene that is refused.
///
/// Seams say that vertex i stands for vertex j, where two pieces of cloth are sewn together: i and j a seam, in rising i, each i once, j below
/// i, j not itself replaced, both in one place at the start and at the end. Parts share a vertex, and are cut by the order of their vertices, by
/// the vertices stood for.
///
/// ```
/// use makhnodri::{Kind, Refusal, Scene};
///
/// // two triangles of cloth with a border in common, vertices 0 1 and 3 4; a vertex for each piece of cloth
/// let places = [[0, 0], [4, 0], [0, 4], [0, 0], [4, 0], [0, -4]];
/// let positions: Vec<i32> = places.iter().flat_map(|[x, y]| [*x, *y, 0, *x, *y, 0]).collect();
/// let cloth = Scene::new(positions, &[0, 1, 3, 4], &[0, 1, 2, 3, 4, 5]);
/// assert_eq!(cloth.count_pairs().unwrap().count, 5);
/// let sewn = cloth.sewn(&[3, 0, 4, 1]);
/// assert_eq!(sewn.count_pairs().unwrap().count, 0);
/// assert_eq!(sewn.settle_ee(0, 1), Err(Refusal::SharedVertex));
/// ```
#[derive(Clone, Debug, Default, PartialEq, Eq)]
pub struct Scene<'a> {
    /// Six numbers a vertex: start x, y, z, end x, y, z.
    pub positions: Cow<'a, [i32]>,
    /// Two vertex numbers an edge.
    pub edges: Cow<'a, [u16]>,
    /// Three vertex numbers a triangle.
    pub triangles: Cow<'a, [u16]>,
    /// Two vertex numbers a seam: the vertex that is replaced, and the one that it stands for.
    pub seams: Cow<'a, [u16]>,
}

impl<'a> Scene<'a> {
    /// A scene without seams.
    pub fn new(
        positions: impl Into<Cow<'a, [i32]>>,
        edges: impl Into<Cow<'a, [u16]>>,
        triangles: impl Into<Cow<'a, [u16]>>,
    ) -> Scene<'a> {
        Scene { positions: positions.into(), edges: edges.into(), triangles: triangles.into(), seams: Cow::default() }
    }

    /// The scene with these seams, in the place of those that it has.
    pub fn sewn(self, seams: impl Into<Cow<'a, [u16]>>) -> Scene<'a> {
        Scene { seams: seams.into(), ..self }
    }

    /// The vertex that a vertex stands for by the scene's seams: another, or itself. Lower and higher go by this number.
    pub fn stands_for(&self, vertex: usize) -> usize {
        let own = self.seams.chunks_exact(2).find(|seam| seam[0] as usize == vertex);
        own.map_or(vertex, |seam| seam[1] as usize)
    }

    /// The same lists, borrowed: nothing is copied.
    pub fn borrowed(&self) -> Scene<'_> {
        Scene::new(&*self.positions, &*self.edges, &*self.triangles).sewn(&*self.seams)
    }

    /// The same lists, owned: what was borrowed is copied.
    pub fn into_owned(self) -> Scene<'static> {
        Scene {
            positions: Cow::Owned(self.positions.into_owned()),
            edges: Cow::Owned(self.edges.into_owned()),
            triangles: Cow::Owned(self.triangles.into_owned()),
            seams: Cow::Owned(self.seams.into_owned()),
        }
    }
}

// SAFETY: each pointer goes with the length of its slice; a slice's pointer is neither null nor out of line, and what is lent to be
// written is borrowed by `&mut`, so it overlaps nothing else.
macro_rules! ask {
    ($scene:expr, $function:ident $(, $more:expr)*) => {{
        let Scene { positions: p, edges: e, triangles: t, seams: s } = $scene;
        unsafe { raw::$function(p.as_ptr(), p.len(), e.as_ptr(), e.len(), t.as_ptr(), t.len(), s.as_ptr(), s.len() $(, $more)*) }
    }};
}

pub(crate) use ask;

impl Scene<'_> {
    /// 1, 2, 3, 15, 4, each over the whole scene before the next.
    pub fn check_scene(&self) -> Result<(), Refusal> {
        heard(ask!(self, makhnodri_check_scene_slices)).map(drop).map_err(bare)
    }

    /// How many pairs are listed, and how many boxes are tested for that.
    pub fn count_pairs(&self) -> Result<Listed, Refusal> {
        let mut tests = [0; 1];
        let count = heard(ask!(self, makhnodri_count_pairs_slices, tests.as_mut_ptr())).map_err(bare)?;
        Ok(Listed { count, box_tests: tests[0] })
    }

    /// Makes the list in front of `list`, one number an entry ([`Pair::of_entry`] takes it apart), and returns the count of entries
    /// with the box tests. The rest of `list` is unchanged, and all of it after a refusal.
    pub fn list_pairs(&self, list: &mut [u32]) -> Result<Listed, ListRefusal> {
        let mut tests = [0; 1];
        let (l, n) = (list.as_mut_ptr(), list.len());
        let count = heard(ask!(self, makhnodri_list_pairs_slices, l, n, tests.as_mut_ptr())).map_err(list_refusal)?;
        Ok(Listed { count, box_tests: tests[0] })
    }

    /// Makes the list and settles it: `words[i]` is 0, 1, 3 or 4, for hit, miss, touch or apart, of entry i.
    pub fn settle_scene(&self, list: &mut [u32], words: &mut [u8]) -> Result<usize, ListRefusal> {
        let (l, w) = ((list.as_mut_ptr(), list.len()), (words.as_mut_ptr(), words.len()));
        heard(ask!(self, makhnodri_settle_scene_slices, l.0, l.1, w.0, w.1)).map_err(list_refusal)
    }

    /// The list, with room of its own.
    pub fn listed(&self) -> Result<Vec<Pair>, Refusal> {
        let mut list = vec![0; self.count_pairs()?.count];
        self.list_pairs(&mut list).map_err(ListRefusal::refusal)?;
        Ok(list.into_iter().map(Pair::of_entry).collect())
    }

    /// The list and its words, with room of their own.
    pub fn settled(&self) -> Result<Vec<(Pair, Settled)>, Refusal> {
        let count = self.count_pairs()?.count;
        let (mut list, mut words) = (vec![0; count], vec![0; count]);
        self.settle_scene(&mut list, &mut words).map_err(ListRefusal::refusal)?;
        Ok(list.into_iter().map(Pair::of_entry).zip(words.iter().map(|&byte| settled(byte as usize))).collect())
    }
}

/// A partner's claims of contact, each answered by its weights alone.
impl Scene<'_> {
    /// Answers each line of a text of claims in front of `answers`, 1 for yes and 0 for no, and returns their count. The rest of
    /// `answers` is unchanged, and all of it after a refusal. A yes means that the piece meets, singular or not.
    pub fn check_claims(&self, claims: &[u8], answers: &mut [u8]) -> Result<usize, ClaimsRefusal> {
        let (a, n) = (answers.as_mut_ptr(), answers.len());
        heard(ask!(self, makhnodri_check_claims_slices, claims.as_ptr(), claims.len(), a, n)).map_err(ClaimsRefusal::heard)
    }

    /// The answers, with room of their own.
    pub fn claims_answered(&self, claims: &[u8]) -> Result<Vec<bool>, ClaimsRefusal> {
        // a claim has its LF at least
        let mut answers = vec![0; claims.iter().filter(|&&byte| byte == b'\n').count()];
        let count = self.check_claims(claims, &mut answers)?;
        Ok(answers[..count].iter().map(|&byte| byte == 1).collect())
    }
}

/// A pair, listed or not, and its pieces, in three words. Two edges may be asked for in either order. Each call checks the whole
/// scene first; many pairs are better asked for at once, by `settle_scene`
/// or `settle_list`.
impl Scene<'_> {
    /// A vertex and a triangle.
    pub fn judge_pt(&self, vertex: usize, triangle: usize) -> Result<Verdict, Refusal> {
        heard(ask!(self, makhnodri_judge_pt_slices, vertex, triangle)).map(verdict).map_err(bare)
    }

    /// Two edges.
    pub fn judge_ee(&self, first: usize, second: usize) -> Result<Verdict, Refusal> {
        heard(ask!(self, makhnodri_judge_ee_slices, first, second)).map(verdict).map_err(bare)
    }

    /// Pieces 0, 1, 2.
    pub fn judge_pt_piece(&self, vertex: usize, triangle: usize, piece: usize) -> Result<Verdict, Refusal> {
        heard(ask!(self, makhnodri_judge_pt_piece_slices, vertex, triangle, piece)).map(verdict).map_err(bare)
    }

    /// Pieces 0 to 3.
    pub fn judge_ee_piece(&self, first: usize, second: usize, piece: usize) -> Result<Verdict, Refusal> {
        heard(ask!(self, makhnodri_judge_ee_piece_slices, first, second, piece)).map(verdict).map_err(bare)
    }

    /// The pair of this kind.
    pub fn judge_pair(&self, kind: Kind, first: usize, second: usize) -> Result<Verdict, Refusal> {
        match kind {
            Kind::PointTriangle => self.judge_pt(first, second),
            Kind::EdgeEdge => self.judge_ee(first, second),
        }
    }

    /// A piece of the pair of this kind.
    pub fn judge_piece(&self, kind: Kind, first: usize, second: usize, piece: usize) -> Result<Verdict, Refusal> {
        match kind {
            Kind::PointTriangle => self.judge_pt_piece(first, second, piece),
            Kind::EdgeEdge => self.judge_ee_piece(first, second, piece),
        }
    }
}

/// The same in four words: what is degenerate is decided too.
impl Scene<'_> {
    /// A vertex and a triangle.
    pub fn settle_pt(&self, vertex: usize, triangle: usize) -> Result<Settled, Refusal> {
        heard(ask!(self, makhnodri_settle_pt_slices, vertex, triangle)).map(settled).map_err(bare)
    }

    /// Two edges.
    pub fn settle_ee(&self, first: usize, second: usize) -> Result<Settled, Refusal> {
        heard(ask!(self, makhnodri_settle_ee_slices, first, second)).map(settled).map_err(bare)
    }

    /// Pieces 0, 1, 2.
    pub fn settle_pt_piece(&self, vertex: usize, triangle: usize, piece: usize) -> Result<Settled, Refusal> {
        heard(ask!(self, makhnodri_settle_pt_piece_slices, vertex, triangle, piece)).map(settled).map_err(bare)
    }

    /// Pieces 0 to 3.
    pub fn settle_ee_piece(&self, first: usize, second: usize, piece: usize) -> Result<Settled, Refusal> {
        heard(ask!(self, makhnodri_settle_ee_piece_slices, first, second, piece)).map(settled).map_err(bare)
    }

    /// The pair of this kind.
    pub fn settle_pair(&self, kind: Kind, first: usize, second: usize) -> Result<Settled, Refusal> {
        match kind {
            Kind::PointTriangle => self.settle_pt(first, second),
            Kind::EdgeEdge => self.settle_ee(first, second),
        }
    }

    /// A piece of the pair of this kind.
    pub fn settle_piece(&self, kind: Kind, first: usize, second: usize, piece: usize) -> Result<Settled, Refusal> {
        match kind {
            Kind::PointTriangle => self.settle_pt_piece(first, second, piece),
            Kind::EdgeEdge => self.settle_ee_piece(first, second, piece),
        }
    }
}

/// Whether an edge is through a triangle already, at one time: nonnegative weights give them one place. One that touches a side, or ends in the
/// triangle, is through it too. 5 where there is no such edge or triangle, 6 where they share a vertex.
///
/// ```
/// // an edge that comes down on a resting triangle, and ends with its lower end below it
/// let positions = [0, 0, 0, 0, 0, 0, 4, 0, 0, 4, 0, 0, 0, 4, 0, 0, 4, 0, 1, 1, 3, 1, 1, 1, 1, 1, 1, 1, 1, -1];
/// let scene = makhnodri::Scene::new(&positions, &[3, 4], &[0, 1, 2]);
/// assert_eq!((scene.pierced_at_start(0, 0), scene.pierced_at_end(0, 0)), (Ok(false), Ok(true)));
/// ```
impl Scene<'_> {
    /// At the start.
    pub fn pierced_at_start(&self, edge: usize, triangle: usize) -> Result<bool, Refusal> {
        heard(ask!(self, makhnodri_pierced_at_start_slices, edge, triangle)).map(|yes| yes == 1).map_err(bare)
    }

    /// At the end.
    pub fn pierced_at_end(&self, edge: usize, triangle: usize) -> Result<bool, Refusal> {
        heard(ask!(self, makhnodri_pierced_at_end_slices, edge, triangle)).map(|yes| yes == 1).map_err(bare)
    }
}

/// Played backwards.
impl Scene<'_> {
    /// The scene turned round, as by [`turn_scene`]; one with seams is not.
    pub fn turned(&self) -> Result<Scene<'static>, TurnRefusal> {
        if !self.seams.is_empty() {
            return Err(TurnRefusal::Seams);
        }
        let mut out = self.clone().into_owned();
        turn_scene(out.positions.to_mut(), out.edges.to_mut(), out.triangles.to_mut()).map_err(TurnRefusal::Scene)?;
        Ok(out)
    }
}

/// Turns a scene without seams round where it stands, so that a clip is played backwards: start and end are swapped, the vertices numbered from last
/// to first, edges and triangles stay in their places. A refusal is the scene's own, and changes nothing; turned twice it is the scene.
///
/// Every pair has its word under the numbers that it then has: pt `v`, `t` is pt `vertices - 1 - v`, `t`, and two edges keep theirs;
/// piece k of a pt pair is piece 2 - k, of an ee pair 3 - k. Vertices are numbered anew because a face is cut by the order of its
/// corners' numbers: with start and end swapped and nothing else, a word may change.
///
/// ```
/// use makhnodri::{turn_scene, Kind, Scene};
///
/// let mut positions = vec![0, 0, 0, 0, 0, 0, 4, 0, 0, 4, 0, 0, 0, 4, 0, 0, 4, 0, 1, 1, 1, 1, 1, -1];
/// let (mut edges, mut triangles) = (vec![], vec![0, 1, 2]);
/// let word = Scene::new(&positions, &edges, &triangles).settle_pair(Kind::PointTriangle, 3, 0);
/// turn_scene(&mut positions, &mut edges, &mut triangles).unwrap();
/// assert_eq!(triangles, [3, 2, 1]);
/// assert_eq!(Scene::new(&positions, &edges, &triangles).settle_pair(Kind::PointTriangle, 0, 0), word);
/// ```
pub fn turn_scene(positions: &mut [i32], edges: &mut [u16], triangles: &mut [u16]) -> Result<(), Refusal> {
    let (p, e, t) = (positions.len(), edges.len(), triangles.len());
    let (ps, es, ts) = (positions.as_mut_ptr(), edges.as_mut_ptr(), triangles.as_mut_ptr());
    // SAFETY: each pointer goes with the length of its slice, and what is written is borrowed by `&mut`
    let answer = unsafe { raw::makhnodri_turn_scene(ps, p, es, e, ts, t) };
    heard(answer).map(drop).map_err(bare)
}

/// A refusal that carries nothing.
pub(crate) fn bare((refusal, _): (Refusal, usize)) -> Refusal {
    refusal
}

pub(crate) fn list_refusal((refusal, carried): (Refusal, usize)) -> ListRefusal {
    match refusal {
        Refusal::NoRoom => ListRefusal::NoRoom { needed: carried },
        refusal => ListRefusal::Scene(refusal),
    }
}
