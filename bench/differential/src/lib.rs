//! Compares two implementations of document 01 on the same inputs: their
//! answers, every place of both lists, and the listing of rows.
//!
//! * [`sides`]: what is compared, the proved library and the plain program.
//! * [`lending`]: lists and buffers as they are lent, with guards behind.
//! * [`deciding`], [`listing`]: one comparison each.
//! * [`inputs`]: the inputs, [`tally`]: what they reached.
//! * [`check`]: all comparisons of one input and of a family that says the same.
//! * [`solver`]: the word of an SMT solver.

#![forbid(unsafe_code)]
#![warn(missing_docs)]

pub mod check;
pub mod deciding;
pub mod inputs;
pub mod lending;
pub mod listing;
pub mod sides;
pub mod solver;
pub mod tally;
