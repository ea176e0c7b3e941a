//! The refusal numbers of document 01's table and of document 02, under names.

pub const BAD_SHAPE: u64 = 1;
pub const OUT_OF_RANGE: u64 = 2;
pub const NO_SUCH_VERTEX: u64 = 3;
pub const VERTEX_TWICE: u64 = 4;
pub const NOT_THERE: u64 = 5;
pub const SHARES_A_VERTEX: u64 = 6;
pub const NO_ROOM: u64 = 7;
pub const TEXT_TOO_LONG: u64 = 8;
pub const BAD_LINE: u64 = 9;
pub const OUT_OF_ORDER: u64 = 10;
pub const ONE_TOO_MANY: u64 = 11;
pub const LENT_TOO_SHORT: u64 = 12;
/// Document 02, §2: a block with more or fewer `v` lines than vertices.
pub const WRONG_BLOCK: u64 = 13;
/// Document 02, §3: two OBJ files that differ in vertex count, or in the faces and their order.
pub const FILES_DIFFER: u64 = 14;
pub const BROKEN_SEAM: u64 = 15;
/// Document 02, §13: a contact asked for in a scene beyond the old range.
pub const BEYOND_OLD_RANGE: u64 = 16;
/// Document 02, §8: a stored box that isn't the one worked out.
pub const STALE_BOX: u64 = 17;
/// Of a mesh: a lent order that is none, or a certificate of another length.
pub const WRONG_ORDER: u64 = 18;

/// `third` is the third field of a refused report: the line, the needed count, or 0 where there is neither.
#[derive(Clone, Copy, Debug, PartialEq, Eq)]
pub struct Refusal {
    pub number: u64,
    pub third: u64,
}

impl Refusal {
    pub fn new(number: u64, third: u64) -> Refusal {
        Refusal { number, third }
    }

    /// A refusal that carries neither line nor count.
    pub fn bare(number: u64) -> Refusal {
        Refusal { number, third: 0 }
    }
}
