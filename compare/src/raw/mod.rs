//! The functions for C, number for number: every answer, and every byte of every buffer that a call was lent and of its margins.

pub mod asking;
pub mod bounds;
pub mod change;
pub mod damaged;
pub mod expected;
pub mod harm;
pub mod meshes;
pub mod pierced;
pub mod question;
pub mod series;
pub mod sorts;
pub mod stored;
pub mod stored_damaged;
pub mod stored_sorts;
