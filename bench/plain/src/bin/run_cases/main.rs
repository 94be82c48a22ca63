//! The first part of what the program `try_problems` reads, and of what it has
//! to write: `run_cases stdin` and `run_cases stdout`.
//!
//! A line that begins with `#` is a remark, and is written as it stands. Any
//! other is a problem in hexadecimal digits, and its listing is written. A
//! problem behind `<` is decided with numerators that are a place too short,
//! one behind `>` with denominators that are.

mod arithmetic;
mod large;
mod lookups;
mod refusals;

use plain::record::Record;
use plain::{cases, decide, listing, Answer, PLACES};
use std::env;
use std::error::Error;

/// Which lists are lent.
#[derive(Clone, Copy)]
enum Lent {
    Both,
    ShortNumerators,
    ShortDenominators,
}

/// A problem and a remark on what it shows.
struct Shown {
    remark: String,
    bytes: Vec<u8>,
    lent: Lent,
}

fn main() -> Result<(), Box<dyn Error>> {
    match env::args().nth(1).as_deref() {
        Some("stdin") => all().iter().for_each(|shown| print!("{}", shown.input())),
        Some("stdout") => all().iter().for_each(|shown| print!("{}", shown.output())),
        _ => return Err("run_cases stdin|stdout".into()),
    }
    Ok(())
}

fn all() -> Vec<Shown> {
    let mut all = documents();
    all.extend(lookups::all());
    all.extend(arithmetic::all());
    all.extend(refusals::all());
    all.extend(large::all());
    all
}

/// Document 01's cases.
fn documents() -> Vec<Shown> {
    cases::all().into_iter().map(|case| bytes(&format!("case {}", case.name), case.bytes)).collect()
}

fn bytes(remark: &str, bytes: Vec<u8>) -> Shown {
    Shown { remark: remark.to_owned(), bytes, lent: Lent::Both }
}

/// A problem as `build` makes it.
fn problem(remark: &str, build: impl FnOnce(&mut Record)) -> Shown {
    let mut record = Record::new();
    build(&mut record);
    bytes(remark, record.bytes())
}

impl Shown {
    fn input(&self) -> String {
        let mark = match self.lent {
            Lent::Both => "",
            Lent::ShortNumerators => "<",
            Lent::ShortDenominators => ">",
        };
        let digits: String = self.bytes.iter().map(|byte| format!("{byte:02x}")).collect();
        format!("# {}\n{mark}{digits}\n", self.remark)
    }

    fn output(&self) -> String {
        let text = match self.lent {
            Lent::Both => listing(&self.bytes),
            Lent::ShortNumerators => self.refused(PLACES - 1, PLACES),
            Lent::ShortDenominators => self.refused(PLACES, PLACES - 1),
        };
        format!("# {}\n{text}", self.remark)
    }

    /// The first line where a list is too short.
    fn refused(&self, nums: usize, dens: usize) -> String {
        match decide(&self.bytes, &mut vec![0; nums], &mut vec![0; dens]) {
            Answer::Refused { number, place } => format!("refused {number} {place}\n"),
            decided => unreachable!("{decided:?} with a short list"),
        }
    }
}
