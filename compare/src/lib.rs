//! Document 01, and §1 to §3, §5, §6, §8, §10 to §13 of document 02, a second time, written from their text alone, so that the proved program has
//! something to be held against. Where the proved program takes signs of 3 by 3 determinants of differences, this one sets up the six
//! equations as they are written and solves them; where those are singular, it eliminates bounds, and leaves no corner
//! out. Nothing here is meant to be fast.
//!
//! A folder stands on those above it alone, and no two files name each other (tests/floors.rs).

/// Whole numbers of any size, equations and their solutions, numbers from a seed.
pub mod numbers;

/// A scene, its pairs and their pieces, the numbers of refusals, and maps of scenes.
pub mod scene;

/// The word of a piece and of a pair: three words, and four.
pub mod verdicts;

/// Which pairs are listed, and the box tests of that.
pub mod list;

/// A scene as text, what may be wrong with a text, and texts that are.
pub mod text;

/// Ways to judge that judge nothing here: signs, a search, a cubic with a tolerance.
pub mod ways;

/// Scenes from seeds, at edges of the rules, as shown, and as kept in scenes/.
pub mod making;

/// The calls for slices, and for a scene that keeps its boxes.
pub mod calls;

/// The report, what a report program is run on, and report programs that are wrong.
pub mod report;

/// The contacts of hit pairs.
pub mod contacts;

/// Meshes of any size, by rows.
pub mod mesh;

/// Claims about pieces, yes or no.
pub mod claims;

/// Two OBJ files.
pub mod obj;

/// A series of steps.
pub mod series;

/// Every call for C, every answer and every byte that was lent.
pub mod raw;

/// A program run, held to what is wanted, and what its difference looks like.
pub mod running;

/// Why a pair has its word, and what deciding takes.
pub mod showing;
