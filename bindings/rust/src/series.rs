//! Series: a scene and blocks of next end positions, and the log that keeps the first cause.

use crate::answers::heard;
use crate::*;
use std::error::Error;
use std::fmt::{self, Display, Formatter};
use std::slice;

/// A hit of a series: its step, counted from 1, and its pair.
#[derive(Clone, Copy, Debug, PartialEq, Eq, Hash)]
pub struct Hit {
    /// Counted from 1.
    pub step: usize,
    /// The pair that is hit.
    pub pair: Pair,
}

/// What is told of a series. A touch is no hit.
#[derive(Clone, Debug, PartialEq, Eq)]
pub struct Told {
    /// step and entry of each hit in the log
    rows: Vec<[u32; 2]>,
    /// Hits behind those of the log; none of them replaced an entry.
    pub later: u64,
    /// Listed pairs, over all steps.
    pub listed: u64,
    /// Hits, over all steps.
    pub hits: u64,
    /// Misses, over all steps.
    pub misses: u64,
    /// Touches, over all steps.
    pub touches: u64,
    /// Pairs that are apart, over all steps.
    pub aparts: u64,
    /// The first step with a hit, counted from 1.
    pub first: Option<u64>,
}

impl Told {
    /// The first [`LOG_LIMIT`] hits in step and list order: it begins with the first cause, whatever came later.
    pub fn log(&self) -> Log<'_> {
        Log(self.rows.iter())
    }
}

/// In words: where trouble began, the hits of the log and those behind it, and the totals.
impl Display for Told {
    fn fmt(&self, f: &mut Formatter) -> fmt::Result {
        let Told { rows, later, listed, hits, misses, touches, aparts, .. } = self;
        match self.log().next() {
            Some(Hit { step, pair: Pair { kind, first, second } }) => {
                write!(f, "first hit in step {step}, {kind} {first} {second}")?
            }
            None => f.write_str("no hit")?,
        }
        write!(f, "; {} hits in the log, {later} later; of {listed} listed pairs", rows.len())?;
        write!(f, " {hits} hit, {misses} miss, {touches} touch, {aparts} apart")
    }
}

impl<'a> IntoIterator for &'a Told {
    type Item = Hit;
    type IntoIter = Log<'a>;

    fn into_iter(self) -> Log<'a> {
        self.log()
    }
}

/// The hits of a log, in order.
#[derive(Clone, Debug)]
pub struct Log<'a>(slice::Iter<'a, [u32; 2]>);

fn hit(&[step, entry]: &[u32; 2]) -> Hit {
    Hit { step: step as usize, pair: Pair::of_entry(entry) }
}

impl Iterator for Log<'_> {
    type Item = Hit;

    fn next(&mut self) -> Option<Hit> {
        self.0.next().map(hit)
    }

    fn size_hint(&self) -> (usize, Option<usize>) {
        self.0.size_hint()
    }
}

impl DoubleEndedIterator for Log<'_> {
    fn next_back(&mut self) -> Option<Hit> {
        self.0.next_back().map(hit)
    }
}

impl ExactSizeIterator for Log<'_> {}

/// Why nothing was told of a series, in the order of the checks.
#[derive(Clone, Copy, Debug, PartialEq, Eq, Hash)]
#[non_exhaustive]
pub enum SeriesRefusal {
    /// 12: a lent buffer is too short.
    ShortBuffer,
    /// 8: the text is too long.
    LongText,
    /// 9, 10, 11, 13, 2, 3, 15 or 4 in a line, counted from 1.
    Line {
        /// Why.
        refusal: Refusal,
        /// Where.
        line: usize,
    },
    /// 7, with the count of pairs that the first step without room lists.
    NoRoom {
        /// That count.
        needed: usize,
    },
}

impl SeriesRefusal {
    /// The refusal alone.
    pub fn refusal(self) -> Refusal {
        match self {
            SeriesRefusal::ShortBuffer => Refusal::ShortBuffer,
            SeriesRefusal::LongText => Refusal::LongText,
            SeriesRefusal::Line { refusal, .. } => refusal,
            SeriesRefusal::NoRoom { .. } => Refusal::NoRoom,
        }
    }

    fn heard((refusal, carried): (Refusal, usize)) -> SeriesRefusal {
        match refusal {
            Refusal::ShortBuffer => SeriesRefusal::ShortBuffer,
            Refusal::LongText => SeriesRefusal::LongText,
            Refusal::NoRoom => SeriesRefusal::NoRoom { needed: carried },
            refusal => SeriesRefusal::Line { refusal, line: carried },
        }
    }
}

impl Display for SeriesRefusal {
    fn fmt(&self, f: &mut Formatter) -> fmt::Result {
        match self {
            SeriesRefusal::Line { refusal, line } => write!(f, "line {line}: {refusal}"),
            SeriesRefusal::NoRoom { needed } => write!(f, "{}, {needed} needed", Refusal::NoRoom),
            other => other.refusal().fmt(f),
        }
    }
}

impl Error for SeriesRefusal {}

/// Runs the series of a text in buffers that are at least [`POSITIONS_LENGTH`], [`EDGES_LENGTH`], [`TRIANGLES_LENGTH`], [`SEAMS_LENGTH`] and
/// [`BOXES_LENGTH`] long; each step's list must have room in `list`. In front of the buffers then stands the last step with its boxes and its
/// list, whose count is given beside what is told; what lies behind is unchanged, and all of it after a refusal.
pub fn tell_series(
    text: &[u8],
    positions: &mut [i32],
    edges: &mut [u16],
    triangles: &mut [u16],
    seams: &mut [u16],
    boxes: &mut [i32],
    list: &mut [u32],
) -> Result<(Counts, usize, Told), SeriesRefusal> {
    let (mut counts, mut log, mut told) = ([0; 4], [0; 2 * LOG_LIMIT], [0; 8]);
    let (p, e, t, s, b, l) = (positions.len(), edges.len(), triangles.len(), seams.len(), boxes.len(), list.len());
    let (ps, es, ts, ss) = (positions.as_mut_ptr(), edges.as_mut_ptr(), triangles.as_mut_ptr(), seams.as_mut_ptr());
    let (bs, ls, text, length) = (boxes.as_mut_ptr(), list.as_mut_ptr(), text.as_ptr(), text.len());
    let (count, rows, numbers) = (counts.as_mut_ptr(), log.as_mut_ptr(), told.as_mut_ptr());
    // SAFETY: each pointer goes with the length of its slice; counts, log and told are as long as the library takes; what is written is
    // borrowed by `&mut` or stands here
    let answer = unsafe {
        raw::makhnodri_tell_series_slices(text, length, ps, p, es, e, ts, t, ss, s, bs, b, ls, l, count, rows, numbers)
    };
    let listed = heard(answer).map_err(SeriesRefusal::heard)?;
    let [vertices, edges, triangles, seams] = counts;
    let [held, later, all, hits, misses, touches, aparts, first] = told;
    let rows = log.chunks_exact(2).take(held as usize).map(|row| [row[0], row[1]]).collect();
    let told = Told { rows, later, listed: all, hits, misses, touches, aparts, first: (first > 0).then_some(first) };
    Ok((Counts { vertices, edges, triangles, seams }, listed, told))
}

/// A series that was run, with room of its own.
///
/// ```
/// use makhnodri::{Hit, Kind, Pair, Series};
///
/// // a point falls on a triangle in step 2, rests there, and comes back in step 4
/// let corners = "v\t0\t0\t0\nv\t4\t0\t0\nv\t0\t4\t0\n";
/// let mut text = "v\t0\t0\t0\t0\t0\t0\nv\t4\t0\t0\t4\t0\t0\nv\t0\t4\t0\t0\t4\t0\nv\t1\t1\t2\t1\t1\t1\nt\t0\t1\t2\n".to_string();
/// for height in [0, 0, 1, 2] {
///     text += &format!("n\n{corners}v\t1\t1\t{height}\n");
/// }
/// let series = Series::run(text.as_bytes()).unwrap();
/// let pair = Pair { kind: Kind::PointTriangle, first: 3, second: 0 };
/// assert_eq!(series.told.log().collect::<Vec<Hit>>(), [Hit { step: 2, pair }, Hit { step: 4, pair }]);
/// assert_eq!((series.told.hits, series.told.touches, series.told.first), (2, 1, Some(2)));
/// assert_eq!(series.last.positions[18..], [1, 1, 1, 1, 1, 2]);
/// ```
#[derive(Clone, Debug, PartialEq)]
pub struct Series {
    /// The last step.
    pub last: Scene<'static>,
    /// Its listed pairs, in order.
    pub listed: Vec<Pair>,
    /// The log and the totals.
    pub told: Told,
}

impl Series {
    /// Runs the series of a text, with room for [`REPORT_ROOM`] pairs in each step, as the program has.
    pub fn run(text: &[u8]) -> Result<Series, SeriesRefusal> {
        Series::run_with_room(text, REPORT_ROOM)
    }

    /// The same with this room.
    pub fn run_with_room(text: &[u8], room: usize) -> Result<Series, SeriesRefusal> {
        let (mut positions, mut boxes) = (vec![0; POSITIONS_LENGTH], vec![0; BOXES_LENGTH]);
        let [mut edges, mut triangles, mut seams] = [EDGES_LENGTH, TRIANGLES_LENGTH, SEAMS_LENGTH].map(|length| vec![0; length]);
        let mut list = vec![0; room];
        let (counts, count, told) =
            tell_series(text, &mut positions, &mut edges, &mut triangles, &mut seams, &mut boxes, &mut list)?;
        positions.truncate(6 * counts.vertices);
        edges.truncate(2 * counts.edges);
        triangles.truncate(3 * counts.triangles);
        seams.truncate(2 * counts.seams);
        let listed = list[..count].iter().map(|&entry| Pair::of_entry(entry)).collect();
        Ok(Series { last: Scene::new(positions, edges, triangles).sewn(seams), listed, told })
    }
}
