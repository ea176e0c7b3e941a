//! Whole numbers of any size, the equations over them and their solutions, and numbers from a seed.

pub mod equations;
pub mod random;
pub mod whole;
