//! There is no library.

use super::{Answer, Log, Told, REPORT_BYTES};
use crate::slices::Slices;

/// So there is none of these, and nothing is ever asked.
pub enum Product {}

macro_rules! never_asked {
    ($($name:ident($($taken:ty),*) -> $given:ty;)*) => {
        impl Product {
            pub fn find() -> Option<Product> {
                None
            }

            $(pub fn $name(&self $(, _: $taken)*) -> $given {
                match *self {}
            })*
        }
    };
}

never_asked! {
    check(&Slices) -> Answer;
    list(&Slices, &mut [u32], &mut [usize; 1]) -> Answer;
    settle_scene(&Slices, &mut [u32], &mut [u8]) -> Answer;
    settle_list(&Slices, &[u32], &mut [u8]) -> Answer;
    settle(&Slices, u32) -> Answer;
    settle_piece(&Slices, u32, usize) -> Answer;
    contact_scene(&Slices, &mut [u32], &mut [u8], &mut [u32]) -> Answer;
    contact(&Slices, u32, &mut [u32; 5]) -> Answer;
    fill_boxes(&Slices, &mut [i32]) -> Answer;
    move_vertex(&mut Slices, &mut [i32], usize, &[i32; 6]) -> Answer;
    list_stored(&Slices, &[i32], &mut [u32], &mut [usize; 1]) -> Answer;
    settle_stored(&Slices, &[i32], &mut [u32], &mut [u8]) -> Answer;
    read(&[u8], &mut Slices, &mut [usize; 4]) -> Answer;
    import(&[u8], &[u8], &mut Slices, &mut [i32], &mut [usize; 4]) -> Answer;
    save(&Slices, &mut [u8]) -> Answer;
    tell_series(&[u8], &mut Slices, &mut [i32], &mut [u32], &mut Log, &mut Told) -> Answer;
    report(&[u8], &mut [u8; REPORT_BYTES]) -> usize;
}
