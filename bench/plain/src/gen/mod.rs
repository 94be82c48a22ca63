//! Generators of test inputs.
//!
//! Every generator is a function of a seed and an index, and gives the same
//! bytes for the same two numbers. [`all`] names them all.

mod bytes;
mod congruent;
mod dense;
mod limits;
mod permuted;
mod random;

pub use bytes::{case_bit, case_bits, case_prefix, case_prefixes, faulty, random_bytes};
pub use congruent::congruent;
pub use dense::{dense, dense_kept_small, dense_of_size};
pub use limits::{
    limit_build, limit_difference, limit_first_close, limit_order, limit_product, limit_quotient,
    limit_sum,
};
pub use permuted::{permuted, FAMILY};
pub use random::Random;

/// A generator: from a seed and an index to the bytes of an input.
pub type Generator = fn(seed: u64, index: u64) -> Vec<u8>;

/// The generators of numbers about the limits, by name.
pub const LIMITS: [(&str, Generator); 7] = [
    ("limit_build", limit_build),
    ("limit_first_close", limit_first_close),
    ("limit_difference", limit_difference),
    ("limit_quotient", limit_quotient),
    ("limit_product", limit_product),
    ("limit_sum", limit_sum),
    ("limit_order", limit_order),
];

/// The other generators, by name.
const OTHERS: [(&str, Generator); 8] = [
    ("case_prefix", case_prefix),
    ("case_bit", case_bit),
    ("random_bytes", random_bytes),
    ("faulty", faulty),
    ("congruent", congruent),
    ("dense", dense),
    ("dense_kept_small", dense_kept_small),
    ("permuted", permuted),
];

/// All generators, by name.
pub fn all() -> impl Iterator<Item = (&'static str, Generator)> {
    OTHERS.into_iter().chain(LIMITS)
}
