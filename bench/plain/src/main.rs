//! Reads a problem record from standard input and prints its listing.

use std::io::{self, Read, Write};

fn main() -> io::Result<()> {
    // One byte more than the longest sound record: enough to judge any length.
    let mut bytes = Vec::new();
    io::stdin().take(plain::MOST_BYTES as u64 + 1).read_to_end(&mut bytes)?;
    io::stdout().write_all(plain::listing(&bytes).as_bytes())
}
