//! The library that the wrapper links.

use super::{answer, with_scene, Answer, Log, Told, REPORT_BYTES};
use crate::slices::{parts, Slices};
use makhnodri::raw::*;

pub struct Product;

impl Product {
    pub fn find() -> Option<Product> {
        Some(Product)
    }
}

/// Lists and words.
impl Product {
    pub fn check(&self, s: &Slices) -> Answer {
        // SAFETY: each pointer comes with the length of its own slice
        answer(unsafe { with_scene!(makhnodri_check_scene_slices, s) })
    }

    /// The box tests of its pt part go into the lent number.
    pub fn list(&self, s: &Slices, list: &mut [u32], tests: &mut [usize; 1]) -> Answer {
        let (l, n) = (list.as_mut_ptr(), list.len());
        // SAFETY: as above, there is one number, and what is written overlaps nothing else
        answer(unsafe { with_scene!(makhnodri_list_pairs_slices, s, l, n, tests.as_mut_ptr()) })
    }

    pub fn settle_scene(&self, s: &Slices, list: &mut [u32], words: &mut [u8]) -> Answer {
        let (l, w) = ((list.as_mut_ptr(), list.len()), (words.as_mut_ptr(), words.len()));
        // SAFETY: as above
        answer(unsafe { with_scene!(makhnodri_settle_scene_slices, s, l.0, l.1, w.0, w.1) })
    }

    /// The words of entries that are handed in.
    pub fn settle_list(&self, s: &Slices, list: &[u32], words: &mut [u8]) -> Answer {
        let (l, w) = ((list.as_ptr(), list.len()), (words.as_mut_ptr(), words.len()));
        // SAFETY: as above
        answer(unsafe { with_scene!(makhnodri_settle_list_slices, s, l.0, l.1, w.0, w.1) })
    }

    /// The word of an entry of the list, asked for by itself.
    pub fn settle(&self, s: &Slices, entry: u32) -> Answer {
        let (kind, first, second) = parts(entry);
        let ask = if kind == 0 { makhnodri_settle_pt_slices } else { makhnodri_settle_ee_slices };
        // SAFETY: as above
        answer(unsafe { with_scene!(ask, s, first, second) })
    }

    /// The word of a piece of an entry.
    pub fn settle_piece(&self, s: &Slices, entry: u32, piece: usize) -> Answer {
        let (kind, first, second) = parts(entry);
        let ask = if kind == 0 { makhnodri_settle_pt_piece_slices } else { makhnodri_settle_ee_piece_slices };
        // SAFETY: as above
        answer(unsafe { with_scene!(ask, s, first, second, piece) })
    }
}

/// Contacts.
impl Product {
    pub fn contact_scene(&self, s: &Slices, list: &mut [u32], words: &mut [u8], contacts: &mut [u32]) -> Answer {
        let (l, w, c) =
            ((list.as_mut_ptr(), list.len()), (words.as_mut_ptr(), words.len()), (contacts.as_mut_ptr(), contacts.len()));
        // SAFETY: as above
        answer(unsafe { with_scene!(makhnodri_contact_scene_slices, s, l.0, l.1, w.0, w.1, c.0, c.1) })
    }

    /// The word of an entry of the list, asked for by itself, and its five numbers where it is hit.
    pub fn contact(&self, s: &Slices, entry: u32, contact: &mut [u32; 5]) -> Answer {
        let (kind, first, second) = parts(entry);
        let ask = if kind == 0 { makhnodri_contact_pt_slices } else { makhnodri_contact_ee_slices };
        // SAFETY: as above, and a contact has five numbers
        answer(unsafe { with_scene!(ask, s, first, second, contact.as_mut_ptr()) })
    }
}

/// A scene that keeps its boxes.
impl Product {
    pub fn fill_boxes(&self, s: &Slices, boxes: &mut [i32]) -> Answer {
        let (b, n) = (boxes.as_mut_ptr(), boxes.len());
        // SAFETY: as above
        answer(unsafe { with_scene!(makhnodri_fill_boxes_slices, s, b, n) })
    }

    /// The positions are moved; what else the slices hold of them is not.
    pub fn move_vertex(&self, s: &mut Slices, boxes: &mut [i32], vertex: usize, to: &[i32; 6]) -> Answer {
        let Slices { positions, edges: e, triangles: t, seams: w, .. } = s;
        let (p, b) = ((positions.as_mut_ptr(), positions.len()), (boxes.as_mut_ptr(), boxes.len()));
        let [(e, en), (t, tn), (w, wn)] = [e, t, w].map(|list| (list.as_ptr(), list.len()));
        // SAFETY: as above, and there are six coordinates
        answer(unsafe { makhnodri_move_vertex_slices(p.0, p.1, e, en, t, tn, w, wn, b.0, b.1, vertex, to.as_ptr()) })
    }

    pub fn list_stored(&self, s: &Slices, boxes: &[i32], list: &mut [u32], tests: &mut [usize; 1]) -> Answer {
        let (b, l) = ((boxes.as_ptr(), boxes.len()), (list.as_mut_ptr(), list.len()));
        // SAFETY: as above, and there is one number
        answer(unsafe { with_scene!(makhnodri_list_stored_slices, s, b.0, b.1, l.0, l.1, tests.as_mut_ptr()) })
    }

    pub fn settle_stored(&self, s: &Slices, boxes: &[i32], list: &mut [u32], words: &mut [u8]) -> Answer {
        let (b, l) = ((boxes.as_ptr(), boxes.len()), (list.as_mut_ptr(), list.len()));
        // SAFETY: as above
        answer(unsafe { with_scene!(makhnodri_settle_stored_slices, s, b.0, b.1, l.0, l.1, words.as_mut_ptr(), words.len()) })
    }
}

/// A function that writes a scene into its four lists, each lent as a pointer and a length.
macro_rules! into_scene {
    ($function:ident, [$($before:expr),*], $slices:expr, [$($behind:expr),*]) => {{
        let Slices { positions: p, edges: e, triangles: t, seams: s, .. } = $slices;
        let (positions, edges, triangles, seams) = (p.as_mut_ptr(), e.as_mut_ptr(), t.as_mut_ptr(), s.as_mut_ptr());
        $function($($before,)* positions, p.len(), edges, e.len(), triangles, t.len(), seams, s.len() $(, $behind)*)
    }};
}

/// Texts. What is read stands in front of the buffers, which are of full size.
impl Product {
    pub fn read(&self, text: &[u8], s: &mut Slices, counts: &mut [usize; 4]) -> Answer {
        let (t, n) = (text.as_ptr(), text.len());
        // SAFETY: as above, and there are four counts
        answer(unsafe { into_scene!(makhnodri_read_scene_slices, [t, n], s, [counts.as_mut_ptr()]) })
    }

    /// The scene of two OBJ files, and its boxes.
    pub fn import(&self, start: &[u8], end: &[u8], s: &mut Slices, boxes: &mut [i32], counts: &mut [usize; 4]) -> Answer {
        let (from, to) = ((start.as_ptr(), start.len()), (end.as_ptr(), end.len()));
        let (b, n, counts) = (boxes.as_mut_ptr(), boxes.len(), counts.as_mut_ptr());
        // SAFETY: as above, and there are four counts
        answer(unsafe { into_scene!(makhnodri_import_scene_slices, [from.0, from.1, to.0, to.1], s, [b, n, counts]) })
    }

    pub fn save(&self, s: &Slices, text: &mut [u8]) -> Answer {
        let (t, n) = (text.as_mut_ptr(), text.len());
        // SAFETY: as above
        answer(unsafe { with_scene!(makhnodri_save_scene_slices, s, t, n) })
    }

    /// The last step, and what is told of all.
    pub fn tell_series(
        &self,
        text: &[u8],
        s: &mut Slices,
        boxes: &mut [i32],
        list: &mut [u32],
        log: &mut Log,
        told: &mut Told,
    ) -> Answer {
        let (t, b, l) = ((text.as_ptr(), text.len()), (boxes.as_mut_ptr(), boxes.len()), (list.as_mut_ptr(), list.len()));
        let (mut counts, log, told) = ([0; 4], log.as_mut_ptr(), told.as_mut_ptr());
        let counts = counts.as_mut_ptr();
        // SAFETY: as above, and counts, log and told have their lengths
        answer(unsafe { into_scene!(makhnodri_tell_series_slices, [t.0, t.1], s, [b.0, b.1, l.0, l.1, counts, log, told]) })
    }

    pub fn report(&self, text: &[u8], report: &mut [u8; REPORT_BYTES]) -> usize {
        // SAFETY: as above, and the report's array has its length
        unsafe { makhnodri_write_report(text.as_ptr(), text.len(), report.as_mut_ptr()) }
    }
}
