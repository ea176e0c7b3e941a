//! Two Wavefront OBJ files, one for the start and one for the end.

use crate::answers::heard;
use crate::*;
use std::error::Error;
use std::fmt::{self, Display, Formatter};

/// One of the two files.
#[derive(Clone, Copy, Debug, PartialEq, Eq, Hash)]
pub enum ObjFile {
    /// The one for the start.
    Start = 1,
    /// The one for the end.
    End = 2,
}

/// Why two OBJ files gave no scene, in the order of the checks.
#[derive(Clone, Copy, Debug, PartialEq, Eq, Hash)]
#[non_exhaustive]
pub enum ImportRefusal {
    /// 12: a lent buffer is too short.
    ShortBuffer,
    /// 8: this file is too long.
    LongText {
        /// Which.
        file: ObjFile,
    },
    /// 9, 10, 11, 2, 3 or 4 in a line of this file, counted from 1; lines that are skipped count too.
    Line {
        /// Which file.
        file: ObjFile,
        /// Why.
        refusal: Refusal,
        /// Where.
        line: usize,
    },
    /// 14: the files differ in vertex count or in the faces and their order.
    FilesDiffer,
}

/// Brings two OBJ files into buffers that are at least [`POSITIONS_LENGTH`], [`EDGES_LENGTH`], [`TRIANGLES_LENGTH`], [`SEAMS_LENGTH`] and
/// [`BOXES_LENGTH`] long. The scene then stands in front of them, without seams, its coordinates in hundredths; and in front of the boxes that of
/// each vertex, then of each edge, then of each triangle, six numbers each, the three lows first. What lies behind is unchanged, and all of it
/// after a refusal.
pub fn import_scene(
    start: &[u8],
    end: &[u8],
    positions: &mut [i32],
    edges: &mut [u16],
    triangles: &mut [u16],
    seams: &mut [u16],
    boxes: &mut [i32],
) -> Result<Counts, ImportRefusal> {
    let mut counts = [0; 4];
    let (p, e, t, s, b) = (positions.len(), edges.len(), triangles.len(), seams.len(), boxes.len());
    let (ps, es, ts, ss) = (positions.as_mut_ptr(), edges.as_mut_ptr(), triangles.as_mut_ptr(), seams.as_mut_ptr());
    let (from, to, bs, count) = (start.as_ptr(), end.as_ptr(), boxes.as_mut_ptr(), counts.as_mut_ptr());
    // SAFETY: each pointer goes with the length of its slice, counts has four numbers, and what is written is borrowed by `&mut`
    let answer =
        unsafe { raw::makhnodri_import_scene_slices(from, start.len(), to, end.len(), ps, p, es, e, ts, t, ss, s, bs, b, count) };
    let [vertices, edges, triangles, seams] = counts;
    heard(answer).map(|_| Counts { vertices, edges, triangles, seams }).map_err(ImportRefusal::heard)
}

impl Scene<'static> {
    /// The scene of two OBJ files, which owns its lists; it is accepted. Its coordinates are in hundredths.
    ///
    /// ```
    /// use makhnodri::{ImportRefusal, ObjFile, Refusal, Scene};
    ///
    /// let start = b"# a triangle\nv 0 0 0\nv 1.5 0 0\nv 0 1 -0.00\nf 1 2 3\n";
    /// let end = b"v 0 0 0.05\nv 1.5 0 0.5\nv 0 1 1\nf 1 2 3\n";
    /// let scene = Scene::import(start, end).unwrap();
    /// assert_eq!(scene.saved().unwrap().lines().nth(1), Some("v\t150\t0\t0\t150\t0\t50"));
    ///
    /// let refused = Scene::import(start, b"v 0 0 0.005\n").unwrap_err();
    /// assert_eq!(refused, ImportRefusal::Line { file: ObjFile::End, refusal: Refusal::BadLine, line: 1 });
    /// println!("{refused}"); // the end file, line 1: refused 9: a line not of the form, or a last line without LF
    /// ```
    pub fn import(start: &[u8], end: &[u8]) -> Result<Scene<'static>, ImportRefusal> {
        let [mut positions, mut boxes] = [POSITIONS_LENGTH, BOXES_LENGTH].map(|length| vec![0; length]);
        let [mut edges, mut triangles, mut seams] = [EDGES_LENGTH, TRIANGLES_LENGTH, SEAMS_LENGTH].map(|length| vec![0; length]);
        let counts = import_scene(start, end, &mut positions, &mut edges, &mut triangles, &mut seams, &mut boxes)?;
        Ok(Scene::in_front(counts, positions, edges, triangles, seams))
    }
}

impl ImportRefusal {
    /// The refusal alone.
    pub fn refusal(self) -> Refusal {
        match self {
            ImportRefusal::ShortBuffer => Refusal::ShortBuffer,
            ImportRefusal::LongText { .. } => Refusal::LongText,
            ImportRefusal::Line { refusal, .. } => refusal,
            ImportRefusal::FilesDiffer => Refusal::FilesDiffer,
        }
    }

    /// The file that it is about; 12 and 14 are about neither alone.
    pub fn file(self) -> Option<ObjFile> {
        match self {
            ImportRefusal::LongText { file } | ImportRefusal::Line { file, .. } => Some(file),
            ImportRefusal::ShortBuffer | ImportRefusal::FilesDiffer => None,
        }
    }

    /// The two upper bits of what a refusal carries are the file, the others the line.
    fn heard((refusal, carried): (Refusal, usize)) -> ImportRefusal {
        let file = if carried >> 30 == ObjFile::Start as usize { ObjFile::Start } else { ObjFile::End };
        match refusal {
            Refusal::ShortBuffer => ImportRefusal::ShortBuffer,
            Refusal::FilesDiffer => ImportRefusal::FilesDiffer,
            Refusal::LongText => ImportRefusal::LongText { file },
            refusal => ImportRefusal::Line { file, refusal, line: carried & ((1 << 30) - 1) },
        }
    }
}

impl Display for ObjFile {
    fn fmt(&self, f: &mut Formatter) -> fmt::Result {
        f.write_str(match self {
            ObjFile::Start => "the start file",
            ObjFile::End => "the end file",
        })
    }
}

impl Display for ImportRefusal {
    fn fmt(&self, f: &mut Formatter) -> fmt::Result {
        match self {
            ImportRefusal::Line { file, refusal, line } => write!(f, "{file}, line {line}: {refusal}"),
            ImportRefusal::LongText { file } => write!(f, "{file}: {}", Refusal::LongText),
            other => other.refusal().fmt(f),
        }
    }
}

impl Error for ImportRefusal {}
