//! Reads a problem record from standard input and prints it as SMT-LIB 2.

use std::io::{self, Read, Write};

fn main() -> io::Result<()> {
    let mut bytes = Vec::new();
    io::stdin().take(plain::MOST_BYTES as u64 + 1).read_to_end(&mut bytes)?;
    io::stdout().write_all(plain::smt::script(&bytes).as_bytes())
}
