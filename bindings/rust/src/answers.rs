//! Answers under names. The library answers by one number: a value below 2^32, or a refusal's number times 2^32 with the line or
//! the needed count that it carries.

use std::error::Error;
use std::fmt::{self, Display, Formatter};

/// A pair is asked for by kind: a point and a triangle, or two edges. They rise as the list has them; each is displayed as a report writes it.
#[derive(Clone, Copy, Debug, PartialEq, Eq, PartialOrd, Ord, Hash)]
pub enum Kind {
    /// A point and a triangle.
    PointTriangle,
    /// Two edges.
    EdgeEdge,
}

impl Kind {
    /// As a report writes it.
    #[inline]
    pub fn letters(self) -> &'static str {
        match self {
            Kind::PointTriangle => "pt",
            Kind::EdgeEdge => "ee",
        }
    }
}

/// In three words: what is singular stays open. Each is displayed as its word.
#[derive(Clone, Copy, Debug, PartialEq, Eq, Hash)]
#[non_exhaustive]
pub enum Verdict {
    /// They meet, in a piece that is not singular.
    Hit = 0,
    /// They meet in no piece, and none is singular.
    Miss = 1,
    /// No piece is hit, and a singular one leaves it open.
    Degenerate = 2,
}

impl Verdict {
    /// As C's `makhnodri_word` has it.
    #[inline]
    pub fn word(self) -> &'static str {
        match self {
            Verdict::Hit => "hit",
            Verdict::Miss => "miss",
            Verdict::Degenerate => "degenerate",
        }
    }
}

/// In four words: a degenerate piece is decided too. It touches if weights exist, none negative; else it is apart. Each is displayed as a
/// report writes it.
#[derive(Clone, Copy, Debug, PartialEq, Eq, Hash)]
#[non_exhaustive]
pub enum Settled {
    /// They meet, in a piece that is not singular.
    Hit = 0,
    /// They meet in no piece, and none is singular.
    Miss = 1,
    /// No piece is hit, and they meet in a singular one.
    Touch = 3,
    /// A piece is singular, and they meet in none.
    Apart = 4,
}

impl Settled {
    /// The word of a byte that a call left in `words`; 2 is degenerate's, and no word of these.
    ///
    /// ```
    /// use makhnodri::Settled;
    ///
    /// assert_eq!(Settled::of_byte(3), Some(Settled::Touch));
    /// assert_eq!(Settled::of_byte(2), None);
    /// assert_eq!(Settled::Touch.to_string(), "touch");
    /// ```
    #[inline]
    pub fn of_byte(byte: u8) -> Option<Settled> {
        match byte {
            0 => Some(Settled::Hit),
            1 => Some(Settled::Miss),
            3 => Some(Settled::Touch),
            4 => Some(Settled::Apart),
            _ => None,
        }
    }

    /// As a report writes it.
    #[inline]
    pub fn word(self) -> &'static str {
        match self {
            Settled::Hit => "hit",
            Settled::Miss => "miss",
            Settled::Touch => "touch",
            Settled::Apart => "apart",
        }
    }

    /// The verdict that it decides further.
    pub fn verdict(self) -> Verdict {
        match self {
            Settled::Hit => Verdict::Hit,
            Settled::Miss => Verdict::Miss,
            Settled::Touch | Settled::Apart => Verdict::Degenerate,
        }
    }
}

/// A vertex and a triangle, or two edges, by their places: each counted from 0 in its own kind. Pairs rise as the list has them.
#[derive(Clone, Copy, Debug, PartialEq, Eq, PartialOrd, Ord, Hash)]
pub struct Pair {
    /// What its two places are.
    pub kind: Kind,
    /// The vertex, or the first edge.
    pub first: usize,
    /// The triangle, or the second edge.
    pub second: usize,
}

/// An entry of the list is one number: 2^20 for two edges or 0 for a point and a triangle, plus 2^10 times the first place, plus the
/// second. Nothing else makes one or takes one apart.
impl Pair {
    /// The pair's number.
    ///
    /// # Panics
    ///
    /// Where a place is 1,024 or more: no scene has it, and it would run into the other place.
    pub fn entry(self) -> u32 {
        assert!(self.first < 1_024 && self.second < 1_024, "a place of no scene");
        ((self.kind as u32) << 20) + ((self.first as u32) << 10) + self.second as u32
    }

    /// The pair of a number: a point and a triangle below 2^20 and two edges from there on, also of a number from 2^21 on, which no pair has.
    pub fn of_entry(entry: u32) -> Pair {
        let kind = if entry < 1 << 20 { Kind::PointTriangle } else { Kind::EdgeEdge };
        Pair { kind, first: (entry >> 10 & 1_023) as usize, second: (entry & 1_023) as usize }
    }
}

/// A list that was counted or made.
#[derive(Clone, Copy, Debug, PartialEq, Eq, Hash)]
pub struct Listed {
    /// Its pairs.
    pub count: usize,
    /// The boxes that its pt part tests in one pass: each vertex tests the joint box of every run of 16 triangles, and in a run that
    /// it meets the box of every triangle, sharing a vertex or not. Never more than vertices x (triangles + runs).
    pub box_tests: usize,
}

/// Why a call was refused, in the order of the numbers, 1 to 18. [`Refusal::StaleBox`] is given to no call of this wrapper: a
/// [`BoxedScene`](crate::BoxedScene) keeps its boxes right.
#[derive(Clone, Copy, Debug, PartialEq, Eq, Hash)]
#[non_exhaustive]
pub enum Refusal {
    /// Positions not a multiple of 6 long, edges of 2, triangles of 3, seams of 2, or a count over its size.
    Shape = 1,
    /// A coordinate outside its range.
    Coordinate,
    /// A vertex number not below the vertex count.
    UnknownVertex,
    /// A vertex twice in one edge or triangle, or two that stand for one.
    RepeatedVertex,
    /// A vertex, edge, triangle or piece asked for that isn't there.
    NotThere,
    /// The pair asked for shares a vertex.
    SharedVertex,
    /// More listed pairs than room.
    NoRoom,
    /// Text over 32,768 bytes.
    LongText,
    /// A line not of the form, or a last line without LF.
    BadLine,
    /// A record after one of a later kind.
    LateRecord,
    /// One record more than its size.
    TooMany,
    /// A lent scene buffer that is too short.
    ShortBuffer,
    /// A block of a series has more or fewer v lines than there are vertices.
    BlockLength,
    /// Two OBJ files differ in vertex count, or in the faces and their order.
    FilesDiffer,
    /// A seam that breaks the rules of seams, or whose two positions differ.
    BrokenSeam,
    /// A contact asked for in a scene with a coordinate beyond 262,143.
    BeyondOldRange,
    /// A stored box that isn't the one worked out.
    StaleBox,
    /// A lent order that is none, or not a number for each side.
    WrongOrder,
}

/// Why no list was made.
#[derive(Clone, Copy, Debug, PartialEq, Eq, Hash)]
#[non_exhaustive]
pub enum ListRefusal {
    /// 1, 2, 3, 15 or 4; for contacts 16 too.
    Scene(Refusal),
    /// 7, with the count of pairs that need room.
    NoRoom {
        /// That count.
        needed: usize,
    },
}

/// Why no scene was read from a text.
#[derive(Clone, Copy, Debug, PartialEq, Eq, Hash)]
#[non_exhaustive]
pub enum TextRefusal {
    /// 12: a lent buffer is too short.
    ShortBuffer,
    /// 8: the text is too long.
    LongText,
    /// 9, 10, 11, 2, 3, 15 or 4 in a line, counted from 1.
    Line {
        /// Why.
        refusal: Refusal,
        /// Where.
        line: usize,
    },
}

/// Why a scene was not turned round.
#[derive(Clone, Copy, Debug, PartialEq, Eq, Hash)]
#[non_exhaustive]
pub enum TurnRefusal {
    /// 1, 2, 3 or 4.
    Scene(Refusal),
    /// It has seams, and only a scene without them is played backwards.
    Seams,
}

/// Why no claim was answered.
#[derive(Clone, Copy, Debug, PartialEq, Eq, Hash)]
#[non_exhaustive]
pub enum ClaimsRefusal {
    /// 1, 2, 3, 15 or 4, of the scene.
    Scene(Refusal),
    /// 8: the text of claims is too long.
    LongText,
    /// 9, 5 or 6 in a line of claims, counted from 1.
    Line {
        /// Why.
        refusal: Refusal,
        /// Where.
        line: usize,
    },
    /// 7, with the count of claims that need room.
    NoRoom {
        /// That count.
        needed: usize,
    },
}

/// Why a scene was not written as text, in the order of the checks.
#[derive(Clone, Copy, Debug, PartialEq, Eq, Hash)]
#[non_exhaustive]
pub enum SaveRefusal {
    /// 1, 2, 3, 15 or 4, of the scene.
    Scene(Refusal),
    /// 8: the text would be too long to be read again.
    LongText,
    /// 7, with the length of the text.
    NoRoom {
        /// That length.
        needed: usize,
    },
}

const REFUSALS: [(Refusal, &str); 18] = [
    (Refusal::Shape, "positions not a multiple of 6 long, edges of 2, triangles of 3, seams of 2, or a count over its size"),
    (Refusal::Coordinate, "a coordinate outside its range"),
    (Refusal::UnknownVertex, "a vertex number not below the vertex count"),
    (Refusal::RepeatedVertex, "a vertex twice in one edge or triangle, or two that stand for one"),
    (Refusal::NotThere, "a vertex, edge, triangle or piece asked for that isn't there"),
    (Refusal::SharedVertex, "the pair asked for shares a vertex"),
    (Refusal::NoRoom, "more listed pairs than room"),
    (Refusal::LongText, "text over 32,768 bytes"),
    (Refusal::BadLine, "a line not of the form, or a last line without LF"),
    (Refusal::LateRecord, "a record after one of a later kind"),
    (Refusal::TooMany, "one record more than its size"),
    (Refusal::ShortBuffer, "a lent scene buffer that is too short"),
    (Refusal::BlockLength, "a block of a series has more or fewer v lines than there are vertices"),
    (Refusal::FilesDiffer, "two OBJ files differ in vertex count, or in the faces and their order"),
    (Refusal::BrokenSeam, "a seam that breaks the rules of seams, or whose two positions differ"),
    (Refusal::BeyondOldRange, "a contact asked for in a scene with a coordinate beyond 262,143"),
    (Refusal::StaleBox, "a stored box that isn't the one worked out"),
    (Refusal::WrongOrder, "a lent order that is none, or not a number for each side"),
];

impl Refusal {
    /// Its number in C's table.
    pub fn number(self) -> u32 {
        self as u32
    }

    /// What it says.
    pub fn words(self) -> &'static str {
        let own = REFUSALS.iter().find(|(refusal, _)| *refusal == self);
        own.expect("every refusal has its words").1
    }

    pub(crate) fn numbered(number: u64) -> Refusal {
        let own = REFUSALS.iter().find(|(refusal, _)| refusal.number() as u64 == number);
        own.expect("the library gives no other number").0
    }
}

impl ListRefusal {
    /// The refusal alone.
    pub fn refusal(self) -> Refusal {
        match self {
            ListRefusal::Scene(refusal) => refusal,
            ListRefusal::NoRoom { .. } => Refusal::NoRoom,
        }
    }
}

impl ClaimsRefusal {
    /// The refusal alone.
    pub fn refusal(self) -> Refusal {
        match self {
            ClaimsRefusal::Scene(refusal) | ClaimsRefusal::Line { refusal, .. } => refusal,
            ClaimsRefusal::LongText => Refusal::LongText,
            ClaimsRefusal::NoRoom { .. } => Refusal::NoRoom,
        }
    }

    pub(crate) fn heard((refusal, carried): (Refusal, usize)) -> ClaimsRefusal {
        match refusal {
            Refusal::LongText => ClaimsRefusal::LongText,
            Refusal::NoRoom => ClaimsRefusal::NoRoom { needed: carried },
            Refusal::BadLine | Refusal::NotThere | Refusal::SharedVertex => ClaimsRefusal::Line { refusal, line: carried },
            refusal => ClaimsRefusal::Scene(refusal),
        }
    }
}

impl SaveRefusal {
    /// The refusal alone.
    pub fn refusal(self) -> Refusal {
        match self {
            SaveRefusal::Scene(refusal) => refusal,
            SaveRefusal::LongText => Refusal::LongText,
            SaveRefusal::NoRoom { .. } => Refusal::NoRoom,
        }
    }

    pub(crate) fn heard((refusal, carried): (Refusal, usize)) -> SaveRefusal {
        match refusal {
            Refusal::LongText => SaveRefusal::LongText,
            Refusal::NoRoom => SaveRefusal::NoRoom { needed: carried },
            refusal => SaveRefusal::Scene(refusal),
        }
    }
}

impl TextRefusal {
    /// The refusal alone.
    pub fn refusal(self) -> Refusal {
        match self {
            TextRefusal::ShortBuffer => Refusal::ShortBuffer,
            TextRefusal::LongText => Refusal::LongText,
            TextRefusal::Line { refusal, .. } => refusal,
        }
    }
}

impl Display for Kind {
    fn fmt(&self, f: &mut Formatter) -> fmt::Result {
        f.pad(self.letters())
    }
}

impl Display for Verdict {
    fn fmt(&self, f: &mut Formatter) -> fmt::Result {
        f.pad(self.word())
    }
}

impl Display for Settled {
    fn fmt(&self, f: &mut Formatter) -> fmt::Result {
        f.pad(self.word())
    }
}

impl Display for Refusal {
    fn fmt(&self, f: &mut Formatter) -> fmt::Result {
        write!(f, "refused {}: {}", self.number(), self.words())
    }
}

impl Display for ListRefusal {
    fn fmt(&self, f: &mut Formatter) -> fmt::Result {
        match self {
            ListRefusal::Scene(refusal) => refusal.fmt(f),
            ListRefusal::NoRoom { needed } => write!(f, "{}, {needed} needed", Refusal::NoRoom),
        }
    }
}

impl Display for TextRefusal {
    fn fmt(&self, f: &mut Formatter) -> fmt::Result {
        match self {
            TextRefusal::Line { refusal, line } => write!(f, "line {line}: {refusal}"),
            other => other.refusal().fmt(f),
        }
    }
}

impl Display for SaveRefusal {
    fn fmt(&self, f: &mut Formatter) -> fmt::Result {
        match self {
            SaveRefusal::NoRoom { needed } => write!(f, "{}, {needed} needed", Refusal::NoRoom),
            other => other.refusal().fmt(f),
        }
    }
}

impl Display for ClaimsRefusal {
    fn fmt(&self, f: &mut Formatter) -> fmt::Result {
        match self {
            ClaimsRefusal::Line { refusal, line } => write!(f, "line {line}: {refusal}"),
            ClaimsRefusal::NoRoom { needed } => write!(f, "{}, {needed} needed", Refusal::NoRoom),
            other => other.refusal().fmt(f),
        }
    }
}

impl Display for TurnRefusal {
    fn fmt(&self, f: &mut Formatter) -> fmt::Result {
        match self {
            TurnRefusal::Scene(refusal) => refusal.fmt(f),
            TurnRefusal::Seams => f.write_str("a scene with seams is not turned round"),
        }
    }
}

impl Error for TurnRefusal {}
impl Error for ClaimsRefusal {}
impl Error for SaveRefusal {}
impl Error for Refusal {}
impl Error for ListRefusal {}
impl Error for TextRefusal {}

/// A value, or a refusal with what it carries.
pub(crate) fn heard(answer: u64) -> Result<usize, (Refusal, usize)> {
    let (number, value) = (answer >> 32, answer as u32 as usize);
    if number == 0 {
        Ok(value)
    } else {
        Err((Refusal::numbered(number), value))
    }
}

pub(crate) fn verdict(number: usize) -> Verdict {
    [Verdict::Hit, Verdict::Miss, Verdict::Degenerate][number]
}

pub(crate) fn settled(number: usize) -> Settled {
    let own = u8::try_from(number).ok().and_then(Settled::of_byte);
    own.expect("the library gives no other number")
}
