//! A scene that keeps the boxes of its parts, so that dragging one vertex works out no others.

use crate::answers::{heard, settled};
use crate::scenes::{ask, bare, list_refusal};
use crate::texts::text_refusal;
use crate::*;

/// A scene that owns its lists and keeps the boxes of its vertices, edges and triangles beside them. It is made of a scene that is accepted, its
/// boxes are filled in then, and nothing changes a position but a move, which works out the boxes of the parts that have the vertex. So the
/// boxes are right at all times, and the list is made from them: nobody can hand in one that isn't, and 17 is never met here.
///
/// Every other question is asked of [`BoxedScene::scene`].
///
/// ```
/// use makhnodri::{BoxedScene, Refusal, Scene, Settled};
///
/// // a resting triangle, and a point that stays above it
/// let positions = [0, 0, 0, 0, 0, 0, 4, 0, 0, 4, 0, 0, 0, 4, 0, 0, 4, 0, 1, 1, 9, 1, 1, 3];
/// let mut scene = BoxedScene::new(Scene::new(&positions, &[], &[0, 1, 2])).unwrap();
/// assert_eq!(scene.listed(), []);
///
/// // its end is dragged down, until it goes through
/// scene.move_vertex(3, [1, 1, 9, 1, 1, -2]).unwrap();
/// assert_eq!(scene.settled()[0].1, Settled::Hit);
/// assert_eq!(scene.boxes()[18..24], [1, 1, -2, 1, 1, 9]);
/// assert_eq!(scene.move_vertex(4, [0; 6]), Err(Refusal::NotThere));
/// ```
#[derive(Clone, Debug, PartialEq, Eq)]
pub struct BoxedScene {
    scene: Scene<'static>,
    /// As many as the library wants, however many parts there are.
    boxes: Vec<i32>,
}

/// What the library cannot refuse: the scene was accepted, its boxes are right, and there is room.
const SOUND: &str = "an accepted scene with right boxes";

impl BoxedScene {
    /// Of a scene, which it owns then; or 1, 2, 3, 15 or 4.
    pub fn new(scene: Scene) -> Result<BoxedScene, Refusal> {
        let (scene, mut boxes) = (scene.into_owned(), vec![0; BOXES_LENGTH]);
        let (b, n) = (boxes.as_mut_ptr(), boxes.len());
        heard(ask!(&scene, makhnodri_fill_boxes_slices, b, n)).map_err(bare)?;
        Ok(BoxedScene { scene, boxes })
    }

    /// Of a text, which is read with its boxes.
    pub fn read(text: &[u8]) -> Result<BoxedScene, TextRefusal> {
        let mut positions = vec![0; POSITIONS_LENGTH];
        let [mut edges, mut triangles, mut seams] = [EDGES_LENGTH, TRIANGLES_LENGTH, SEAMS_LENGTH].map(|length| vec![0; length]);
        let (mut boxes, mut counts) = (vec![0; BOXES_LENGTH], [0; 4]);
        let (p, e, t, s, b) = (positions.len(), edges.len(), triangles.len(), seams.len(), boxes.len());
        let (ps, es, ts, ss) = (positions.as_mut_ptr(), edges.as_mut_ptr(), triangles.as_mut_ptr(), seams.as_mut_ptr());
        let (bs, count) = (boxes.as_mut_ptr(), counts.as_mut_ptr());
        // SAFETY: each pointer goes with the length of its own buffer, and counts has four numbers
        let answer =
            unsafe { raw::makhnodri_read_boxed_slices(text.as_ptr(), text.len(), ps, p, es, e, ts, t, ss, s, bs, b, count) };
        heard(answer).map_err(text_refusal)?;
        positions.truncate(6 * counts[0]);
        edges.truncate(2 * counts[1]);
        triangles.truncate(3 * counts[2]);
        seams.truncate(2 * counts[3]);
        Ok(BoxedScene { scene: Scene::new(positions, edges, triangles).sewn(seams), boxes })
    }

    /// The scene as it stands, for every other question.
    pub fn scene(&self) -> &Scene<'static> {
        &self.scene
    }

    /// The scene alone; its boxes are gone.
    pub fn into_scene(self) -> Scene<'static> {
        self.scene
    }

    /// The boxes of all vertices, then edges, then triangles, six numbers each, the three lows first.
    pub fn boxes(&self) -> &[i32] {
        let Scene { positions, edges, triangles, .. } = &self.scene;
        &self.boxes[..6 * (positions.len() / 6 + edges.len() / 2 + triangles.len() / 3)]
    }

    /// Sets one vertex's six coordinates, start x, y, z, end x, y, z. 5 where there is no such vertex, 2 where a new coordinate is outside its range, 15
    /// where a seam would come apart, whichever of its two vertices is moved; nothing has changed then.
    pub fn move_vertex(&mut self, vertex: usize, coordinates: [i32; 6]) -> Result<(), Refusal> {
        let Scene { positions, edges: e, triangles: t, seams: s } = &mut self.scene;
        let (p, b) = (positions.to_mut(), &mut self.boxes);
        let (pl, bl) = (p.len(), b.len());
        let (ps, bs, to) = (p.as_mut_ptr(), b.as_mut_ptr(), coordinates.as_ptr());
        // SAFETY: each pointer goes with the length of its slice, there are six coordinates, and what is written is borrowed by `&mut`
        let answer = unsafe {
            raw::makhnodri_move_vertex_slices(
                ps,
                pl,
                e.as_ptr(),
                e.len(),
                t.as_ptr(),
                t.len(),
                s.as_ptr(),
                s.len(),
                bs,
                bl,
                vertex,
                to,
            )
        };
        heard(answer).map(drop).map_err(bare)
    }

    /// Moves a vertex with all that are sewn to it, to the same coordinates, so that no seam comes apart: 5 or 2, after which nothing has changed.
    /// Boxes do not go by seams, and the scene without its seams is accepted too, so that they are left out while the vertices are moved.
    pub fn move_sewn(&mut self, vertex: usize, coordinates: [i32; 6]) -> Result<(), Refusal> {
        let stood_for = self.scene.stands_for(vertex);
        let together: Vec<usize> =
            (0..self.scene.positions.len() / 6).filter(|&v| self.scene.stands_for(v) == stood_for).collect();
        let seams = std::mem::take(&mut self.scene.seams);
        // the first refusal is that of all: either there is no such vertex, or the coordinates are outside their range
        let first = self.move_vertex(vertex, coordinates);
        if first.is_ok() {
            together.into_iter().for_each(|v| self.move_vertex(v, coordinates).expect(SOUND));
        }
        self.scene.seams = seams;
        first
    }

    /// How many pairs are listed, and how many boxes are tested for that.
    pub fn count_stored(&self) -> Listed {
        let mut tests = [0; 1];
        let (b, n) = (self.boxes.as_ptr(), self.boxes.len());
        let count = heard(ask!(&self.scene, makhnodri_count_stored_slices, b, n, tests.as_mut_ptr())).expect(SOUND);
        Listed { count, box_tests: tests[0] }
    }

    /// Makes the list in front of `list`, as [`Scene::list_pairs`] does; the one refusal is [`ListRefusal::NoRoom`].
    pub fn list_stored(&self, list: &mut [u32]) -> Result<Listed, ListRefusal> {
        let mut tests = [0; 1];
        let (b, l) = ((self.boxes.as_ptr(), self.boxes.len()), (list.as_mut_ptr(), list.len()));
        let answer = ask!(&self.scene, makhnodri_list_stored_slices, b.0, b.1, l.0, l.1, tests.as_mut_ptr());
        Ok(Listed { count: heard(answer).map_err(list_refusal)?, box_tests: tests[0] })
    }

    /// Makes the list and settles it, as [`Scene::settle_scene`] does; the one refusal is [`ListRefusal::NoRoom`].
    pub fn settle_stored(&self, list: &mut [u32], words: &mut [u8]) -> Result<usize, ListRefusal> {
        let (b, l) = ((self.boxes.as_ptr(), self.boxes.len()), (list.as_mut_ptr(), list.len()));
        let (w, n) = (words.as_mut_ptr(), words.len());
        heard(ask!(&self.scene, makhnodri_settle_stored_slices, b.0, b.1, l.0, l.1, w, n)).map_err(list_refusal)
    }

    /// The list, with room of its own.
    pub fn listed(&self) -> Vec<Pair> {
        let mut list = vec![0; self.count_stored().count];
        self.list_stored(&mut list).expect(SOUND);
        list.into_iter().map(Pair::of_entry).collect()
    }

    /// The list and its words, with room of their own.
    pub fn settled(&self) -> Vec<(Pair, Settled)> {
        let count = self.count_stored().count;
        let (mut list, mut words) = (vec![0; count], vec![0; count]);
        self.settle_stored(&mut list, &mut words).expect(SOUND);
        list.into_iter().map(Pair::of_entry).zip(words.into_iter().map(|word| settled(word as usize))).collect()
    }
}
