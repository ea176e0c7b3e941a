//! Exact contact verdicts for a mesh that moves from a start to an end, over a library whose every answer is proved.
//!
//! ```
//! use makhnodri::{Contact, Kind, Refusal, Scene, Settled, Verdict};
//!
//! // a resting triangle, and a point that goes through it
//! let mut positions = vec![0, 0, 0, 0, 0, 0, 4, 0, 0, 4, 0, 0, 0, 4, 0, 0, 4, 0, 1, 1, 1, 1, 1, -1];
//! let scene = Scene::new(&positions, &[], &[0, 1, 2]);
//! assert_eq!(scene.judge_pair(Kind::PointTriangle, 3, 0), Ok(Verdict::Hit));
//! assert_eq!(scene.judge_piece(Kind::PointTriangle, 3, 0, 0), Ok(Verdict::Miss));
//! assert_eq!(scene.judge_pair(Kind::PointTriangle, 0, 0), Err(Refusal::SharedVertex));
//! for (pair, word) in scene.settled().unwrap() {
//!     println!("{pair:?}: {word:?}");
//! }
//!
//! // a partner claims that the point meets piece 1, with weights; the answer goes by the weights alone
//! assert_eq!(scene.claims_answered(b"pt\t3\t0\t1\t2\t2\t2\t0\t1\t1\n"), Ok(vec![true]));
//!
//! // when and where: at half the time, at the point that these shares of the corners 0, 1 and 2 make
//! let contact = scene.contact_pt(3, 0).unwrap();
//! let Contact::PointHit { time, low, middle, high, .. } = contact else { panic!("it is a hit") };
//! assert_eq!([time, low, middle, high], [0.5, 0.5, 0.25, 0.25]);
//!
//! // the same point at rest above the triangle, and in it: both degenerate, and yet not alike
//! positions[18..].copy_from_slice(&[1, 1, 1, 1, 1, 1]);
//! let above = Scene::new(&positions, &[], &[0, 1, 2]);
//! assert_eq!(above.judge_pair(Kind::PointTriangle, 3, 0), Ok(Verdict::Degenerate));
//! assert_eq!(above.settle_pair(Kind::PointTriangle, 3, 0), Ok(Settled::Apart));
//! positions[18..].copy_from_slice(&[1, 1, 0, 1, 1, 0]);
//! let within = Scene::new(&positions, &[], &[0, 1, 2]);
//! assert_eq!(within.judge_pair(Kind::PointTriangle, 3, 0), Ok(Verdict::Degenerate));
//! assert_eq!(within.settle_pair(Kind::PointTriangle, 3, 0), Ok(Settled::Touch));
//! ```
//!
//! The names are those of the C functions, without `makhnodri_`; and a pair may also be asked for by its [`Kind`]. What begins with
//! `judge` answers in three words, [`Verdict`]. What begins with `settle`, and the report, answers in four, [`Settled`]: what is
//! degenerate is decided too. What begins with `contact` answers in four words too, and a hit carries its time and its place,
//! [`Contact`]. Each speaks for the space-time pieces of a pair. A miss, and apart too, says nothing of straight motion; only the list
//! does: a pair that is not listed, and shares no vertex, meets neither in its pieces nor under straight motion.
//!
//! A [`BoxedScene`] keeps the boxes of its parts, for a program that drags one vertex after the other.
//!
//! A [`Scene`] has at most 512 vertices, 1,024 edges and 512 triangles; what is larger is a [`Mesh`], of any size. Its list is asked for by rows, one
//! for each vertex and each edge, a stretch at a time, by as many threads as one likes, each with a [`Scratch`] of its own; near rows,
//! [`RowPairs::Near`], have every hit and every touch. The example `mesh` of this crate judges cloth that falls, frame after frame, and freezes at the
//! first contact.
//!
//! A pair's two places are a vertex and a triangle, or two edges, each counted from 0 in its own kind: pt 3 0 is vertex 3 and
//! triangle 0.
//!
//! Nothing is kept between calls, so any number of threads may call at the same time. A call takes at most
//! [`STACK`] bytes of stack.
//!
//! # Growing
//!
//! A later library may refuse for a further cause, or know a further word. So [`Refusal`] and the refusals that carry it, [`Verdict`],
//! [`Settled`] and [`Contact`] are `#[non_exhaustive]`: a `match` outside of this crate has an arm for what it does not name. [`Kind`] is
//! not: a pair is a point and a triangle, or two edges.
//!
//! # Linking
//!
//! The library is looked for in the folder that `MAKHNODRI_LIBRARY` names, else in `target/library` of the repository. The feature `static`, which
//! is on where nothing is said, puts libmakhnodri.a into the program. With `default-features = false` the program is linked with libmakhnodri.so,
//! and finds it at run time where the system looks for libraries: installed there, by `LD_LIBRARY_PATH`, or by an rpath. A build script of a
//! package that depends on this one is told the folder by `DEP_MAKHNODRI_FOLDER`, so that it can set one.
//!
//! No licence is stated: the owner has named none.

#![warn(missing_docs)]

mod answers;
mod boxed;
mod contacts;
mod importing;
mod meshes;
mod own;
#[doc(hidden)]
pub mod raw;
mod scenes;
mod series;
mod texts;

pub use answers::{
    ClaimsRefusal, Kind, ListRefusal, Listed, Pair, Refusal, SaveRefusal, Settled, TextRefusal, TurnRefusal, Verdict,
};
pub use boxed::BoxedScene;
pub use contacts::Contact;
pub use importing::{import_scene, ImportRefusal, ObjFile};
pub use meshes::{EdgesFound, KeptRows, Mesh, MeshPair, RowPairs, RowsRefusal, Scratch, Wanted};
pub use own::OwnRefusal;
pub use scenes::{turn_scene, Scene};
pub use series::{tell_series, Hit, Log, Series, SeriesRefusal, Told};
pub use texts::{read_scene, report, write_report, Counts};

/// The version of the wrapper, and of the header and library that it belongs to.
pub const VERSION: &str = env!("CARGO_PKG_VERSION");

/// Coordinates run from minus this to this.
pub const COORDINATE_LIMIT: i32 = 524_287;
/// Vertices of a scene, at most.
pub const VERTEX_LIMIT: usize = 512;
/// Edges of a scene, at most.
pub const EDGE_LIMIT: usize = 1_024;
/// Triangles of a scene, at most.
pub const TRIANGLE_LIMIT: usize = 512;
/// Seams of a scene, at most.
pub const SEAM_LIMIT: usize = 512;
/// 2^30: vertices, edges, triangles and seams of a mesh, each at most so many.
pub const PART_LIMIT: usize = 1 << 30;
/// Bytes of a scene text, and of an OBJ file.
pub const TEXT_LIMIT: usize = 32_768;
/// Pairs that a report has room for.
pub const REPORT_ROOM: usize = 3_072;
/// Contacts are given in scenes whose coordinates are no larger in size.
pub const CONTACT_LIMIT: i32 = 262_143;
/// 2^20: so many parts of a contact's time or share are 1.
pub const CONTACT_UNIT: u32 = 1 << 20;
/// Numbers of a contact in `Scene::contact_scene`: piece, k and three shares.
pub const CONTACT_LENGTH: usize = 5;
/// A claim with a weight above this is answered no.
pub const WEIGHT_LIMIT: u64 = 1 << 40;
/// No scene lists more.
pub const PAIR_LIMIT: usize = 785_920;

/// How long the buffer of positions is that a text is read into, in numbers.
pub const POSITIONS_LENGTH: usize = 6 * VERTEX_LIMIT;
/// The same of edges.
pub const EDGES_LENGTH: usize = 2 * EDGE_LIMIT;
/// The same of triangles.
pub const TRIANGLES_LENGTH: usize = 3 * TRIANGLE_LIMIT;
/// The same of seams.
pub const SEAMS_LENGTH: usize = 2 * SEAM_LIMIT;
/// How long a buffer of boxes is, in numbers: six for each vertex, edge and triangle that a scene can have.
pub const BOXES_LENGTH: usize = 6 * (VERTEX_LIMIT + EDGE_LIMIT + TRIANGLE_LIMIT);
/// Hits that the log of a series holds.
pub const LOG_LIMIT: usize = 64;
/// How long the array is that a report is written into, in bytes; every report fits.
pub const REPORT_LENGTH: usize = 65_536;

/// Enough stack for any call, in bytes.
pub const STACK: usize = 196_608;
