//! docs/FORMAT.md as data, and what holds it to a program.
//!
//! - [`page`]: the tables of the page, and what a cell of one says;
//! - [`form`]: a reader of files made from those tables, which knows none of
//!   their numbers by itself;
//! - [`text`]: instructions in words, as bytes and back, by the same tables;
//! - [`hold`]: each row put to a program;
//! - `damaged`: that reader against the program's, on files damaged in every
//!   number.

mod damaged;
pub mod form;
pub mod hold;
pub mod page;
pub mod text;
