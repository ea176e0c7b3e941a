//! A whole garment judged: two OBJ exports of any size, start and end, in; one report, in the mesh's own numbers, out.
//!
//! As data goes through it: `obj`, `plain` and `fields` read a file, `cutting` cuts its faces into triangles; `rounding` puts all times onto one grid,
//! `edges` are made of the faces, `seams` finds vertices in one place, `mesh` holds what comes of it. `judge` is asked, a stretch of rows at a time, as a
//! `cutter` cuts them: it has the library list and judge them, with an `order` along a `curve` where places are bad; `judging` asks it for pairs alone, for
//! who compares.
//! `work` does it on all cores; `whole` is the report of two times, which `report` writes down in order, `clean` what is through each other at the start;
//! `frames` has those of a drape, a step at a time on one grid, and `series` their log. For a farm `shares` has a part of the rows each, and `total` puts
//! them together, by the `digest` of what they are of.
//! Where only some are asked for, `names` has which parts are an object's or a group's and `choice` leaves the others out; `whereabouts` says where a
//! pair is, with the `boxes` of its parts, and `mark` writes a mesh that shows it.
//! `words` understands the command line, and `command` does what it says, `of_frames` where that is about one frame or many; what a report's lines cannot
//! show is said `before` it.
//!
//! What is proved is the library: the list of the mesh that it is lent, the words and the contacts. The reading, the rounding and the lines are this
//! program's own, and are compared: garment/check.

pub mod before;
pub mod boxes;
pub mod choice;
pub mod clean;
pub mod command;
pub mod curve;
pub mod cutter;
pub mod cutting;
pub mod digest;
pub mod edges;
pub mod fault;
pub mod fields;
pub mod frames;
pub mod judge;
pub mod judging;
pub mod mark;
pub mod mesh;
pub mod names;
pub mod obj;
pub mod of_frames;
pub mod order;
pub mod pairs;
pub mod plain;
pub mod progress;
pub mod report;
pub mod rounding;
pub mod scene_text;
pub mod seams;
pub mod series;
pub mod shares;
pub mod total;
pub mod whereabouts;
pub mod whole;
pub mod words;
pub mod work;
