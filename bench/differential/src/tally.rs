//! What the inputs reached, by class.

use crate::lending::Lengths;
use crate::listing::Request;
use crate::sides::{Listed, Told, WORDS};
use plain::{limit_reached, Limit, Step, ROWS};
use std::collections::BTreeMap;
use std::fmt;

/// The classes that the inputs must reach, each at least once.
pub const REQUIRED: [&str; 27] = [
    "entailed",
    "not-entailed",
    "contradictory",
    "refused 1",
    "refused 2",
    "refused 3",
    "refused 4",
    "refused 5 at 0",
    "refused 5 later",
    "refused 6 at 0",
    "refused 6 later",
    "refused 7 in a build's product",
    "refused 7 in a build's sum",
    "refused 7 in the first closing's fold sum",
    "refused 7 in a merge's difference",
    "refused 7 in a merge's quotient",
    "refused 7 in a merge's fold product",
    "refused 7 in a merge's fold sum",
    "refused 7 in a closing's difference",
    "refused 7 in a closing's quotient",
    "refused 7 in a closing's fold product",
    "refused 7 in a closing's fold sum",
    "row listed",
    "row refused 1 by the buffer",
    "row refused 1 by a list",
    "row refused 8 by its number",
    "row refused 8 by a place",
];

/// How many of each class there were.
#[derive(Clone, Default)]
pub struct Tally {
    counts: BTreeMap<String, u64>,
}

impl Tally {
    /// Counts a decision.
    pub fn decision(&mut self, told: Told, bytes: &[u8]) {
        self.add(class(told, bytes), 1);
    }

    /// Counts the listing of a row.
    pub fn row(&mut self, listed: Listed, request: Request) {
        self.add(row_class(listed, request).to_string(), 1);
    }

    /// Counts all that another one has counted.
    pub fn merge(&mut self, other: Tally) {
        for (class, count) in other.counts {
            self.add(class, count);
        }
    }

    fn add(&mut self, class: String, count: u64) {
        *self.counts.entry(class).or_default() += count;
    }

    /// The classes that should have been reached and were not.
    pub fn missing(&self) -> Vec<&'static str> {
        REQUIRED.into_iter().filter(|&class| !self.counts.contains_key(class)).collect()
    }
}

impl fmt::Display for Tally {
    fn fmt(&self, f: &mut fmt::Formatter<'_>) -> fmt::Result {
        let counts: Vec<String> =
            self.counts.iter().map(|(class, count)| format!("{class} {count}")).collect();
        f.write_str(&counts.join(", "))
    }
}

/// The class of a decision: its word, or a refusal's number and where.
fn class(told: Told, bytes: &[u8]) -> String {
    let when = if told.figure == 0 { "at 0" } else { "later" };
    match (told.word, told.number) {
        (3, 7) => match limit_reached(bytes) {
            Some(limit) => format!("refused 7 in {}", where_limited(limit, told.figure)),
            None => "refused 7 in no step".to_string(),
        },
        (3, number @ 5..=6) => format!("refused {number} {when}"),
        (3, number) => format!("refused {number}"),
        (word, _) => WORDS[usize::from(word)].to_string(),
    }
}

/// The part of the run and the step in which a number left the limits.
fn where_limited(limit: Limit, place: usize) -> String {
    let part = match (limit.closing, place) {
        (true, 0) => "the first closing's",
        (true, _) => "a closing's",
        (false, 0) => "a build's",
        (false, _) => "a merge's",
    };
    let step = match limit.step {
        Step::BuildProduct => "product",
        Step::BuildSum => "sum",
        Step::Difference => "difference",
        Step::Quotient => "quotient",
        Step::FoldProduct => "fold product",
        Step::FoldSum => "fold sum",
    };
    format!("{part} {step}")
}

/// The class of a row's listing.
fn row_class(listed: Listed, request: Request) -> &'static str {
    match listed.number {
        0 => "row listed",
        1 if Lengths::suffice(request.lengths) => "row refused 1 by the buffer",
        1 => "row refused 1 by a list",
        8 if request.row >= ROWS => "row refused 8 by its number",
        8 => "row refused 8 by a place",
        _ => "row refused otherwise",
    }
}
