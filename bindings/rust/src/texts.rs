//! Scene texts and reports.

use crate::answers::heard;
use crate::scenes::ask;
use crate::*;
use std::fmt::{self, Display, Formatter};

/// How many vertices, edges, triangles and seams a scene has.
#[derive(Clone, Copy, Debug, Default, PartialEq, Eq)]
pub struct Counts {
    /// Vertices.
    pub vertices: usize,
    /// Edges.
    pub edges: usize,
    /// Triangles.
    pub triangles: usize,
    /// Seams.
    pub seams: usize,
}

/// Reads a scene text into buffers that are at least [`POSITIONS_LENGTH`], [`EDGES_LENGTH`], [`TRIANGLES_LENGTH`] and [`SEAMS_LENGTH`] long.
/// The scene then stands in front of them; what lies behind is unchanged, and all of it after a refusal.
pub fn read_scene(
    text: &[u8],
    positions: &mut [i32],
    edges: &mut [u16],
    triangles: &mut [u16],
    seams: &mut [u16],
) -> Result<Counts, TextRefusal> {
    let mut counts = [0; 4];
    let (p, e, t, s) = (positions.len(), edges.len(), triangles.len(), seams.len());
    let (ps, es, ts, ss) = (positions.as_mut_ptr(), edges.as_mut_ptr(), triangles.as_mut_ptr(), seams.as_mut_ptr());
    let (text, length, count) = (text.as_ptr(), text.len(), counts.as_mut_ptr());
    // SAFETY: each pointer goes with the length of its slice, counts has four numbers, and what is written is borrowed by `&mut`
    let answer = unsafe { raw::makhnodri_read_scene_slices(text, length, ps, p, es, e, ts, t, ss, s, count) };
    let [vertices, edges, triangles, seams] = counts;
    heard(answer).map(|_| Counts { vertices, edges, triangles, seams }).map_err(text_refusal)
}

pub(crate) fn text_refusal((refusal, line): (Refusal, usize)) -> TextRefusal {
    match refusal {
        Refusal::ShortBuffer => TextRefusal::ShortBuffer,
        Refusal::LongText => TextRefusal::LongText,
        refusal => TextRefusal::Line { refusal, line },
    }
}

/// Writes the whole report of a text in front of `out`, and returns its length; the rest is unchanged.
pub fn write_report(text: &[u8], out: &mut [u8; REPORT_LENGTH]) -> usize {
    // SAFETY: the pointer goes with the text's length, out has as many bytes as the library takes, and the two do not overlap
    unsafe { raw::makhnodri_write_report(text.as_ptr(), text.len(), out.as_mut_ptr()) }
}

/// The whole report of a text.
pub fn report(text: &[u8]) -> Vec<u8> {
    // made where it stays: an array in a box would first stand on the stack
    let mut out = vec![0; REPORT_LENGTH];
    let length = write_report(text, out.as_mut_slice().try_into().expect("it is as long as a report"));
    out.truncate(length);
    out
}

impl Scene<'static> {
    /// The scene of a text, which owns its lists; it is accepted.
    pub fn read(text: &[u8]) -> Result<Scene<'static>, TextRefusal> {
        let mut positions = vec![0; POSITIONS_LENGTH];
        let [mut edges, mut triangles, mut seams] = [EDGES_LENGTH, TRIANGLES_LENGTH, SEAMS_LENGTH].map(|length| vec![0; length]);
        let counts = read_scene(text, &mut positions, &mut edges, &mut triangles, &mut seams)?;
        Ok(Scene::in_front(counts, positions, edges, triangles, seams))
    }

    /// The scene that stands in front of these lists.
    pub(crate) fn in_front(
        counts: Counts,
        mut positions: Vec<i32>,
        mut edges: Vec<u16>,
        mut triangles: Vec<u16>,
        mut seams: Vec<u16>,
    ) -> Scene<'static> {
        positions.truncate(6 * counts.vertices);
        edges.truncate(2 * counts.edges);
        triangles.truncate(3 * counts.triangles);
        seams.truncate(2 * counts.seams);
        Scene::new(positions, edges, triangles).sewn(seams)
    }
}

/// A scene as text. Read back it is the same scene, seams included, and what was read from a text is saved as the same bytes.
impl Scene<'_> {
    /// How many bytes the text has.
    pub fn saved_length(&self) -> Result<usize, SaveRefusal> {
        heard(ask!(self, makhnodri_saved_length_slices)).map_err(SaveRefusal::heard)
    }

    /// Writes the text in front of `text` and returns its length; the rest is unchanged, and all of it after a refusal.
    pub fn save_scene(&self, text: &mut [u8]) -> Result<usize, SaveRefusal> {
        let (t, n) = (text.as_mut_ptr(), text.len());
        heard(ask!(self, makhnodri_save_scene_slices, t, n)).map_err(SaveRefusal::heard)
    }

    /// The text, with room of its own.
    ///
    /// ```
    /// use makhnodri::Scene;
    ///
    /// let scene = Scene::new(&[0, 0, 0, 1, -2, 3, 4, 5, 6, 4, 5, 6], &[1, 0], &[]);
    /// let text = scene.saved().unwrap();
    /// assert_eq!(text, "v\t0\t0\t0\t1\t-2\t3\nv\t4\t5\t6\t4\t5\t6\ne\t1\t0\n");
    /// assert_eq!(Scene::read(text.as_bytes()), Ok(scene));
    ///
    /// // a refusal is an error, so that a program hands it on by `?`
    /// fn to_file(scene: &Scene, path: &str) -> Result<(), Box<dyn std::error::Error>> {
    ///     Ok(std::fs::write(path, scene.saved()?)?)
    /// }
    /// let far = Scene::new(&[600_000, 0, 0, 0, 0, 0], &[], &[]);
    /// assert_eq!(to_file(&far, "far.scene").unwrap_err().to_string(), "refused 2: a coordinate outside its range");
    /// ```
    pub fn saved(&self) -> Result<String, SaveRefusal> {
        let mut text = vec![0; self.saved_length()?];
        self.save_scene(&mut text)?;
        Ok(String::from_utf8(text).expect("letters, digits, minus, tab and LF"))
    }
}

/// The scene's text. It fails where saving is refused, so that `to_string` then panics; [`Scene::saved`] tells why.
impl Display for Scene<'_> {
    fn fmt(&self, f: &mut Formatter) -> fmt::Result {
        f.write_str(&self.saved().map_err(|_| fmt::Error)?)
    }
}
