//! Measures the proved library against the plain implementation and, where
//! they are installed, against SMT solvers. Prints tables on standard output.
//! On a processor that the library is not compiled for it counts instructions
//! alone: there times say nothing.

#![forbid(unsafe_code)]
#![cfg_attr(not(target_arch = "x86_64"), allow(dead_code))]

mod child;
mod clock;
#[cfg(not(target_arch = "x86_64"))]
mod emulated;
mod families;
mod goals;
mod instructions;
mod report;
mod solvers;
mod stack;
mod timing;

#[cfg(not(target_arch = "x86_64"))]
use emulated as whole;
#[cfg(target_arch = "x86_64")]
use report as whole;
use std::env;
use std::error::Error;

fn main() -> Result<(), Box<dyn Error>> {
    let arguments: Vec<String> = env::args().skip(1).collect();
    if arguments.is_empty() {
        whole::all()
    } else {
        child::work(&arguments)
    }
}
