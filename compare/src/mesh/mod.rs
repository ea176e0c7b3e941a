//! Meshes of any size, from the words of their definitions: every call over them, its refusals in order, and what it leaves in all that is lent. Rows
//! are found by trying every pair, near ones by the definition, pierced ones by the equations. Nothing here is quick.

pub mod answering;
pub mod checks;
pub mod edges;
pub mod lent;
pub mod making;
pub mod rows;
pub mod wrong;
