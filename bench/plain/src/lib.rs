//! The channel agreement decider of document 01 in plain safe Rust.
//!
//! This package was written from document 01 and its rulings alone. It shares
//! no code with the proved program; it is there to be compared with it, input
//! by input, and to be measured against it.
//!
//! * [`decide`], [`list_row`] and [`listing`] are the decider itself.
//! * [`record`], [`cases`] and [`gen`] make problem records for tests.
//! * [`smt`] writes a problem as SMT-LIB 2, for a third opinion.

#![forbid(unsafe_code)]
#![warn(missing_docs)]

pub mod cases;
pub mod gen;
pub mod record;
pub mod smt;

mod closing;
mod decide;
mod fraction;
mod line;
mod list;
mod problem;
mod run;
mod table;

pub use decide::{decide, limit_reached, Answer, Limit};
pub use list::{list_row, listing, LINE};
pub use problem::MOST_BYTES;
pub use run::Step;
pub use table::{COLUMNS, PLACES, ROWS};
