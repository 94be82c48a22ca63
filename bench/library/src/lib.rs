//! The proved library's C functions as Rust functions.
//!
//! `rt lib` in `crates/export` writes the archive that has them; what the numbers
//! mean is said in that crate. The archive is for x86-64 and is linked on it;
//! elsewhere a process of its own serves it.

#![warn(missing_docs)]

#[cfg(not(target_arch = "x86_64"))]
pub mod emulated;
#[cfg(target_arch = "x86_64")]
mod linked;
#[cfg(not(target_arch = "x86_64"))]
mod served;

#[cfg(target_arch = "x86_64")]
pub use linked::{decide, list_row, LIST_ROWS};
#[cfg(not(target_arch = "x86_64"))]
pub use served::{decide, list_row, LIST_ROWS};

/// A variable of the environment that keeps the C library from filling and copying by one repeated
/// instruction, which is counted once for each byte.
pub const TUNABLES: (&str, &str) = (
    "GLIBC_TUNABLES",
    "glibc.cpu.x86_rep_stosb_threshold=1000000000:glibc.cpu.x86_rep_movsb_threshold=1000000000",
);

/// An answer in numbers.
#[derive(Clone, Copy, PartialEq, Eq, Debug)]
pub struct Told {
    /// 0 entailed, 1 not-entailed, 2 contradictory, 3 refused.
    pub word: u8,
    /// The number of a refusal, otherwise 0.
    pub number: u8,
    /// The count of entailed and not-entailed, otherwise the place.
    pub figure: usize,
}

/// What listing a row answers.
#[derive(Clone, Copy, PartialEq, Eq, Debug)]
pub struct Listed {
    /// The number of a refusal, otherwise 0.
    pub number: u8,
    /// The new place reached, or on refusal the old one.
    pub place: usize,
}

/// A row that is listed together with others.
pub struct Line<'a> {
    /// The buffer.
    pub buf: &'a mut [u8],
    /// The place reached in it.
    pub at: usize,
    /// How many numerators are handed over.
    pub nums_len: usize,
    /// How many denominators are handed over.
    pub dens_len: usize,
    /// The row.
    pub t: usize,
}

/// Lists several rows of two lists, each into a buffer of its own.
pub type ListRows = fn(lines: &mut [Line], nums: &[i32], dens: &[i32]) -> Vec<Listed>;
