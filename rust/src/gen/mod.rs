//! What the trials are made of, all of it from a seed: good routines that do
//! interesting things, damaged files, version 2 files by somebody else, worst
//! cases, and the cases that the wire carries.

pub mod cases;
pub mod damaged;
pub mod every;
pub mod far;
pub mod known;
pub mod others;
pub mod random;
pub mod routines;
pub mod soup;
pub mod worst;
