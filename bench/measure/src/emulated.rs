//! Where the library is served by an emulator: its instructions, and nothing else.

use crate::{child, families};
use std::error::Error;

/// Counts the instructions of every family that no clock has chosen.
pub fn all() -> Result<(), Box<dyn Error>> {
    println!("Instructions of the library, counted by the emulator\n");
    println!("{:28} {:>9}", "per problem", "library");
    for family in families::fixed() {
        let file = child::keep(family.name, &family.problems)?;
        let [none, once] = [0, 1].map(|times| library::emulated::instructions(&file, times));
        let each = (once? - none?) / family.problems.len() as u64;
        println!("{:28} {each:>9}", family.name);
    }
    Ok(())
}
