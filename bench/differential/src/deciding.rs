//! One decision of both sides over the same lists.

use crate::lending::{Lengths, Lists};
use crate::sides::{Side, Told};
use plain::{COLUMNS, PLACES};

/// The lists of one comparison, made once and used for one after the other.
#[derive(Default)]
pub struct Bench {
    /// The lists before the decision.
    pub before: Lists,
    /// What the first side leaves.
    pub first: Lists,
    /// What the second side leaves.
    pub second: Lists,
}

/// Decides with both sides, each over a copy of `bench.before` lent with some
/// lengths. Answers what both told, or in what they differ.
pub fn compare(
    sides: [Side; 2],
    bytes: &[u8],
    lengths: Lengths,
    bench: &mut Bench,
) -> Result<Told, String> {
    let first = decide(sides[0], bytes, lengths, &bench.before, &mut bench.first);
    let second = decide(sides[1], bytes, lengths, &bench.before, &mut bench.second);
    if first != second {
        return Err(format!("{lengths:?}: {first:?}, the other side {second:?}"));
    }
    if let Some(place) = difference(&bench.first, &bench.second) {
        return Err(format!("{lengths:?}: {first:?} of both, and lists that differ: {place}"));
    }
    as_laid_down(first, bytes, lengths, &bench.before, &bench.first)
        .map_err(|what| format!("{lengths:?}: {first:?}, but {what}"))?;
    Ok(first)
}

fn decide(side: Side, bytes: &[u8], lengths: Lengths, before: &Lists, after: &mut Lists) -> Told {
    after.set(before);
    let (nums, dens) = after.lent_mut(lengths);
    (side.decide)(bytes, nums, dens)
}

/// The first place in which two pairs of lists differ, in words.
fn difference(one: &Lists, other: &Lists) -> Option<String> {
    if one == other {
        return None;
    }
    let both = one.nums.iter().zip(&one.dens).zip(other.nums.iter().zip(&other.dens));
    let (place, (a, b)) = both.enumerate().find(|(_, (a, b))| a != b)?;
    let (row, column) = (place / COLUMNS, place % COLUMNS);
    Some(format!(
        "place {place} (row {row}, column {column}) is {}/{}, on the other side {}/{}",
        a.0, a.1, b.0, b.1
    ))
}

/// Holds the lists to document 01's table, which says something about them
/// for each answer.
fn as_laid_down(
    told: Told,
    bytes: &[u8],
    lengths: Lengths,
    before: &Lists,
    after: &Lists,
) -> Result<(), &'static str> {
    if (told.number == 1) == lengths.suffice() {
        return Err("the lists' lengths say otherwise of space");
    }
    if after.nums[PLACES..] != before.nums[PLACES..]
        || after.dens[PLACES..] != before.dens[PLACES..]
    {
        return Err("places beyond the rows changed");
    }
    match (told.word, told.number) {
        (0 | 1, 0) => rows_then_zeros(bytes, after),
        (2, 0) | (3, 7) => all(0, PLACES, after, 0, 0, "not every place is 0 and 0"),
        (3, 1..=6) if after == before => Ok(()),
        (3, 1..=6) => Err("a list changed"),
        _ => Err("there is no such answer"),
    }
}

/// Every denominator is at least 1, and rows n to 63 are 0/1.
fn rows_then_zeros(bytes: &[u8], after: &Lists) -> Result<(), &'static str> {
    if after.dens[..PLACES].iter().any(|&den| den < 1) {
        return Err("a denominator is below 1");
    }
    let rows = COLUMNS * usize::from(bytes[0]);
    all(rows, PLACES, after, 0, 1, "a row from n on is not 0/1")
}

fn all(
    from: usize,
    to: usize,
    lists: &Lists,
    num: i32,
    den: i32,
    otherwise: &'static str,
) -> Result<(), &'static str> {
    let holds = lists.nums[from..to].iter().all(|&x| x == num)
        && lists.dens[from..to].iter().all(|&x| x == den);
    holds.then_some(()).ok_or(otherwise)
}
