//! Scenes to try things on: from seeds, at an edge of the rules, as the documents show them, and those that the repository keeps.

pub mod cases;
pub mod extremes;
pub mod generate;
pub mod kept;
pub mod parts;
pub mod sewing;
pub mod spring;
pub mod still;
