//! Damaged records, and lists that are too short.

use super::{bytes, Lent, Shown};
use plain::cases::CASE_A;
use plain::record::Record;

pub fn all() -> Vec<Shown> {
    let mut all = space();
    all.extend(lengths());
    all.extend(terms());
    all.extend(pairs());
    all
}

/// Refusal 1, which comes before all others.
fn space() -> Vec<Shown> {
    let short = |remark: &str, lent, damaged: Vec<u8>| Shown { lent, ..bytes(remark, damaged) };
    vec![
        short("1 SPACE: numerators too short", Lent::ShortNumerators, CASE_A.to_vec()),
        short("1 SPACE: denominators too short", Lent::ShortDenominators, CASE_A.to_vec()),
        short("1 SPACE comes before 2", Lent::ShortNumerators, vec![]),
        short("1 SPACE comes before 6", Lent::ShortDenominators, with(&CASE_A, 2, 4)),
    ]
}

/// Bytes with one of them changed.
fn with(whole: &[u8], place: usize, byte: u8) -> Vec<u8> {
    let mut damaged = whole.to_vec();
    damaged[place] = byte;
    damaged
}

/// As many variables and pairs of term 0 with itself, whatever the limits.
fn counted(terms: usize, pairs: usize) -> Vec<u8> {
    let mut r = Record::new();
    for _ in 0..terms {
        r.variable(0);
    }
    for _ in 0..pairs {
        r.assume(0, 0);
    }
    r.bytes()
}

/// Refusals 2, 3 and 4.
fn lengths() -> Vec<Shown> {
    let longer = [&CASE_A[..], &[0]].concat();
    vec![
        bytes("2 SHORT: no byte", vec![]),
        bytes("2 SHORT: one byte", vec![4]),
        bytes("2 SHORT: three bytes", CASE_A[..3].to_vec()),
        bytes("2 SHORT comes before 3", vec![0, 255, 9]),
        bytes("3 COUNT: no term", vec![0, 0, 0, 0]),
        bytes("3 COUNT: 65 terms", counted(65, 0)),
        bytes("3 COUNT: 65 pairs", counted(1, 65)),
        bytes("3 COUNT: 255 terms and pairs", vec![255, 255, 0, 0]),
        bytes("3 COUNT comes before 4", vec![1, 65, 0, 0]),
        bytes("4 LENGTH: a header alone", vec![1, 0, 0, 0]),
        bytes("4 LENGTH: a byte too few", CASE_A[..37].to_vec()),
        bytes("4 LENGTH: a byte too many", longer),
        bytes("4 LENGTH: a pair too few", with(&CASE_A, 1, 2)),
        bytes("4 LENGTH: 645 bytes", [counted(64, 64), vec![0]].concat()),
        bytes("4 LENGTH comes before 5 and 6", vec![1, 0, 9, 9, 0, 0, 0, 0, 0, 0, 0]),
    ]
}

/// The widths of kind, symbol, three inputs, mantissa, shift and padding.
const WIDTHS: [u32; 8] = [4, 8, 8, 8, 8, 16, 4, 8];

/// Case A's terms, of which one is replaced by a record of those fields.
fn replaced(term: usize, fields: [u64; 8]) -> Vec<u8> {
    let packed = fields.iter().zip(WIDTHS).fold(0, |bits, (field, width)| bits << width | field);
    let mut whole = CASE_A.to_vec();
    whole[4 + 8 * term..12 + 8 * term].copy_from_slice(&packed.to_be_bytes());
    whole
}

/// Refusal 5.
fn terms() -> Vec<Shown> {
    let term = |remark: &str, number, fields| {
        bytes(&format!("5 TERM: {remark}"), replaced(number, fields))
    };
    let two_faulty = with(&replaced(3, [15, 0, 0, 0, 0, 0, 0, 0]), 12, 0x90);
    vec![
        term("kind 0 at term 0", 0, [0, 0, 0, 0, 0, 0, 0, 0]),
        term("kind 9 at term 2", 2, [9, 0, 0, 0, 0, 0, 0, 0]),
        term("kind 15 at term 3", 3, [15, 0, 0, 0, 0, 0, 0, 0]),
        term("a variable with an input", 1, [1, 0, 1, 0, 0, 0, 0, 0]),
        term("a constant with a symbol", 3, [2, 1, 0, 0, 0, 1, 0, 0]),
        term("a gain with a second input", 2, [3, 0, 0, 1, 0, 1, 0, 0]),
        term("a sum with a mantissa", 2, [4, 0, 0, 1, 0, 1, 0, 0]),
        term("a difference with a shift", 2, [5, 0, 0, 1, 0, 0, 1, 0]),
        term("a lookup of one with a third input", 3, [6, 7, 0, 0, 1, 0, 0, 0]),
        term("a lookup of two with a third input", 3, [7, 7, 0, 1, 1, 0, 0, 0]),
        term("padding that is not zero", 0, [1, 0, 0, 0, 0, 0, 0, 1]),
        term("the padding's first bit", 3, [2, 0, 0, 0, 0, 3, 1, 128]),
        term("a gain of itself", 1, [3, 0, 1, 0, 0, 1, 0, 0]),
        term("a sum with a later term", 1, [4, 0, 0, 2, 0, 0, 0, 0]),
        term("a lookup of three whose last is itself", 3, [8, 7, 0, 1, 3, 0, 0, 0]),
        term("a lookup at term 0 has no input to take", 0, [6, 7, 0, 0, 0, 0, 0, 0]),
        bytes("5 TERM: the lowest of two faulty records", two_faulty),
        bytes("5 TERM comes before 6", with(&replaced(3, [0, 0, 0, 0, 0, 0, 0, 0]), 2, 200)),
    ]
}

/// Refusal 6.
fn pairs() -> Vec<Shown> {
    let mut r = Record::new();
    let (x, y) = (r.variable(0), r.variable(0));
    for _ in 0..3 {
        r.assume(x, y);
    }
    let three = r.bytes();
    let goal_and_pair = with(&with(&three, 3, 2), 20, 2);
    vec![
        bytes("6 PAIR: the goal's left side is n", with(&three, 2, 2)),
        bytes("6 PAIR: the goal's right side is 255", with(&three, 3, 255)),
        bytes("6 PAIR: the first pair's left side", with(&three, 20, 2)),
        bytes("6 PAIR: the second pair's right side", with(&three, 23, 64)),
        bytes("6 PAIR: the third pair", with(&with(&three, 24, 255), 25, 255)),
        bytes("6 PAIR: the first of two", with(&with(&three, 25, 2), 22, 9)),
        bytes("6 PAIR: the goal is tested first", goal_and_pair),
        bytes("6 PAIR comes before a contradiction", contradiction_with_bad_pair()),
    ]
}

fn contradiction_with_bad_pair() -> Vec<u8> {
    let mut r = Record::new();
    let (one, two) = (r.constant(1, 0), r.constant(2, 0));
    r.assume(one, two);
    r.assume(one, 2);
    r.bytes()
}
