//! The library, called as C calls it. bindings/rust declares its functions, and include/makhnodri.h tells what each takes and answers; here a scene is
//! handed to them as it is lent, with no copy and no check, so that what is timed is the call. Without the feature `product` there is no library, and
//! the tables leave it out.

/// The count or the word, or the refusal's number.
pub type Answer = Result<usize, u64>;

/// Every report fits.
pub const REPORT_BYTES: usize = 65_536;

/// The log of a series, two numbers an entry.
pub type Log = [u32; 128];

/// What is told of a series beside its log: held, later, listed, hits, misses, touches, aparts and first.
pub type Told = [u64; 8];

/// A hit as a byte.
pub const HIT: u8 = 0;

#[cfg(feature = "product")]
mod linked;
#[cfg(not(feature = "product"))]
mod missing;

#[cfg(feature = "product")]
pub use linked::Product;
#[cfg(not(feature = "product"))]
pub use missing::Product;

#[cfg(feature = "product")]
pub fn answer(said: u64) -> Answer {
    match said >> 32 {
        0 => Ok(said as usize),
        number => Err(number),
    }
}

/// A function of which the first eight arguments are the four lists of a scene, each a pointer and a length.
#[cfg(feature = "product")]
macro_rules! with_scene {
    ($function:expr, $slices:expr $(, $more:expr)*) => {{
        let $crate::slices::Slices { positions: p, edges: e, triangles: t, seams: s, .. } = $slices;
        $function(p.as_ptr(), p.len(), e.as_ptr(), e.len(), t.as_ptr(), t.len(), s.as_ptr(), s.len() $(, $more)*)
    }};
}
#[cfg(feature = "product")]
pub(crate) use with_scene;
