//! The controller of the description, a second time: reader, coloring,
//! instrumenter and machine, and the plain rule as a machine of its own.
//!
//! Written from the description alone and from no other code, so that a slip
//! in one implementation is not repeated in the other. The modules stand in
//! the order in which they build on each other:
//!
//! - [`refusal`], [`number`]: why something is not taken; seven-bit numbers;
//! - [`instruction`], [`file`]: the table of opcodes; files of version 1 and 2;
//! - [`coloring`], [`layout`], [`instrument`]: safe stores, classes and colors;
//!   where the globals stand; version 2 of a routine;
//! - [`record`], [`heap`], [`machine`]: what a run gives; the heap in memory and
//!   table; the machine that runs any version 2 file;
//! - [`plain`]: the plain rule, a machine on version 1 code that has no table;
//! - [`lockstep`]: both machines side by side, compared after every step;
//! - [`gen`]: routines, damaged files and files by somebody else, from a seed;
//! - [`wire`], [`partner`]: cases and answers as bytes on a pipe, and what this
//!   implementation answers; the program at the other end;
//! - [`states`], [`coverage`], [`shrink`]: what a case reaches, and what the
//!   trials have reached; a case that differs, made small;
//! - [`sheet`]: docs/FORMAT.md as data, held to a program row by row.

pub mod coloring;
pub mod coverage;
pub mod file;
pub mod gen;
pub mod heap;
pub mod instruction;
pub mod instrument;
pub mod layout;
pub mod lockstep;
pub mod machine;
pub mod number;
pub mod partner;
pub mod plain;
pub mod record;
pub mod refusal;
pub mod sheet;
pub mod shrink;
pub mod states;
pub mod wire;
