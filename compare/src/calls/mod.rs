//! What the library's calls answer to a scene that is lent as slices, and to one that keeps its boxes.

pub mod slices;
pub mod stored;
