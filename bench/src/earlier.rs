//! An earlier library, linked from the folder that MAKHNODRI_EARLIER names, its functions under other names: `bench/against` makes it. It takes
//! scenes of four lists, as every library since 0.4.0 does.

use crate::product::{answer, with_scene, Answer};
use crate::slices::{parts, Slices};

/// Each takes a scene's four lists, and then what stands here.
macro_rules! declared {
    ($($name:ident($($more:ty),*);)*) => {
        extern "C" {
            $(fn $name(
                positions: *const i32, positions_length: usize, edges: *const u16, edges_length: usize,
                triangles: *const u16, triangles_length: usize, seams: *const u16, seams_length: usize $(, _: $more)*
            ) -> u64;)*
        }
    };
}

declared! {
    earlier_makhnodri_list_pairs_slices(*mut u32, usize, *mut usize);
    earlier_makhnodri_settle_scene_slices(*mut u32, usize, *mut u8, usize);
    earlier_makhnodri_settle_pt_slices(usize, usize);
    earlier_makhnodri_settle_ee_slices(usize, usize);
    earlier_makhnodri_settle_pt_piece_slices(usize, usize, usize);
    earlier_makhnodri_settle_ee_piece_slices(usize, usize, usize);
}

pub fn settle_scene(s: &Slices, list: &mut [u32], words: &mut [u8]) -> Answer {
    let (l, w) = ((list.as_mut_ptr(), list.len()), (words.as_mut_ptr(), words.len()));
    // SAFETY: each pointer comes with the length of its own slice, and no two overlap
    answer(unsafe { with_scene!(earlier_makhnodri_settle_scene_slices, s, l.0, l.1, w.0, w.1) })
}

pub fn list(s: &Slices, list: &mut [u32], tests: &mut [usize; 1]) -> Answer {
    let (l, n) = (list.as_mut_ptr(), list.len());
    // SAFETY: as above, and there is one number
    answer(unsafe { with_scene!(earlier_makhnodri_list_pairs_slices, s, l, n, tests.as_mut_ptr()) })
}

pub fn settle(s: &Slices, entry: u32) -> Answer {
    let (kind, first, second) = parts(entry);
    let ask = if kind == 0 { earlier_makhnodri_settle_pt_slices } else { earlier_makhnodri_settle_ee_slices };
    // SAFETY: as above
    answer(unsafe { with_scene!(ask, s, first, second) })
}

pub fn settle_piece(s: &Slices, entry: u32, piece: usize) -> Answer {
    let (kind, first, second) = parts(entry);
    let ask = if kind == 0 { earlier_makhnodri_settle_pt_piece_slices } else { earlier_makhnodri_settle_ee_piece_slices };
    // SAFETY: as above
    answer(unsafe { with_scene!(ask, s, first, second, piece) })
}
