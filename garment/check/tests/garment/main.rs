//! The program for garments against the library and the independent program. One test program, so that it is linked once.

mod before;
mod choice;
mod clean;
mod contacts;
mod drapes;
mod in_order;
mod kept;
mod larger;
mod mark;
mod meshes;
mod names;
mod near;
mod one_scene;
mod reading;
mod shares;
mod told_apart;
mod whereabouts;
