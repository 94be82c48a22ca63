//! The problem record: its header, its term records and its pairs.

use crate::fraction::Fraction;
use crate::table::ROWS;

/// The length of the longest sound problem record.
pub const MOST_BYTES: usize = HEADER + 8 * ROWS + 2 * ROWS;

const HEADER: usize = 4;

/// A refusal: document 01's number and the place.
pub type Refusal = (u8, u32);

const SHORT: u8 = 2;
const COUNT: u8 = 3;
const LENGTH: u8 = 4;
const TERM: u8 = 5;
const PAIR: u8 = 6;

/// What a term record says. Inputs are below the term's own number.
#[derive(Clone, Copy, PartialEq, Eq, Debug)]
pub enum Term {
    /// An unknown of its own.
    Variable,
    /// A constant.
    Constant(Fraction),
    /// A fraction times a term.
    Gain(Fraction, u8),
    /// One term plus another.
    Sum(u8, u8),
    /// One term minus another.
    Difference(u8, u8),
    /// A function of one to three terms.
    Lookup(Lookup),
}

/// A lookup: which function, of which terms.
#[derive(Clone, Copy, PartialEq, Eq, Debug)]
pub struct Lookup {
    /// Kind 6, 7 or 8.
    pub kind: u8,
    /// The symbol; with the kind it names the function.
    pub symbol: u8,
    /// The inputs, as many as the kind has; the places after them are 0.
    inputs: [u8; 3],
}

impl Lookup {
    /// The inputs, place by place.
    pub fn inputs(&self) -> &[u8] {
        &self.inputs[..usize::from(self.kind) - 5]
    }
}

/// A sound problem, decoded.
pub struct Problem<'a> {
    terms: [Term; ROWS],
    count: usize,
    /// The assumed pairs in file order.
    pub pairs: &'a [[u8; 2]],
    /// The goal's two sides.
    pub goal: [u8; 2],
}

impl<'a> Problem<'a> {
    /// Reads a whole record, or says by number and place why it is refused.
    pub fn read(bytes: &'a [u8]) -> Result<Problem<'a>, Refusal> {
        let (&[n, m, left, right], body) = bytes.split_first_chunk().ok_or((SHORT, 0))?;
        let (count, pair_count) = (usize::from(n), usize::from(m));
        if count == 0 || count > ROWS || pair_count > ROWS {
            return Err((COUNT, 0));
        }
        if body.len() != 8 * count + 2 * pair_count {
            return Err((LENGTH, 0));
        }
        let (records, pairs) = body.split_at(8 * count);
        let terms = read_terms(records.as_chunks().0)?;
        let (goal, pairs) = ([left, right], pairs.as_chunks().0);
        check_pairs(n, goal, pairs)?;
        Ok(Problem { terms, count, pairs, goal })
    }

    /// The terms, by number.
    pub fn terms(&self) -> &[Term] {
        &self.terms[..self.count]
    }
}

fn read_terms(records: &[[u8; 8]]) -> Result<[Term; ROWS], Refusal> {
    let mut terms = [Term::Variable; ROWS];
    for (number, (record, term)) in records.iter().zip(&mut terms).enumerate() {
        *term = read_term(*record, number as u8).ok_or((TERM, number as u32))?;
    }
    Ok(terms)
}

// The fields of a term record, as places in its 64 bits.
const KIND: u64 = 0xF << 60;
const SYMBOL: u64 = 0xFF << 52;
const INPUT_1: u64 = 0xFF << 44;
const INPUT_2: u64 = 0xFF << 36;
const INPUT_3: u64 = 0xFF << 28;
const MANTISSA: u64 = 0xFFFF << 12;
const SHIFT: u64 = 0xF << 8;

/// The fields that each kind uses besides its kind; none for an unknown kind.
const USED: [Option<u64>; 16] = {
    let mut used = [None; 16];
    used[1] = Some(SYMBOL);
    used[2] = Some(MANTISSA | SHIFT);
    used[3] = Some(MANTISSA | SHIFT | INPUT_1);
    used[4] = Some(INPUT_1 | INPUT_2);
    used[5] = Some(INPUT_1 | INPUT_2);
    used[6] = Some(SYMBOL | INPUT_1);
    used[7] = Some(SYMBOL | INPUT_1 | INPUT_2);
    used[8] = Some(SYMBOL | INPUT_1 | INPUT_2 | INPUT_3);
    used
};

/// Reads the record of term `number`, or nothing if it is faulty.
fn read_term(record: [u8; 8], number: u8) -> Option<Term> {
    let bits = u64::from_be_bytes(record);
    let kind = (bits >> 60) as u8;
    let used = USED[usize::from(kind)]?;
    if bits & !(KIND | used) != 0 {
        return None;
    }
    let inputs = [(bits >> 44) as u8, (bits >> 36) as u8, (bits >> 28) as u8];
    if inputs_of(kind).any(|place| inputs[place] >= number) {
        return None;
    }
    let [first, second, _] = inputs;
    let fraction = || Fraction::scaled((bits >> 12) as i16, (bits >> 8) as u32 & 0xF);
    Some(match kind {
        1 => Term::Variable,
        2 => Term::Constant(fraction()),
        3 => Term::Gain(fraction(), first),
        4 => Term::Sum(first, second),
        5 => Term::Difference(first, second),
        _ => Term::Lookup(Lookup { kind, symbol: (bits >> 52) as u8, inputs }),
    })
}

/// The input places that a kind uses, counted from 0.
fn inputs_of(kind: u8) -> std::ops::Range<usize> {
    match kind {
        3 | 6 => 0..1,
        4 | 5 | 7 => 0..2,
        8 => 0..3,
        _ => 0..0,
    }
}

fn check_pairs(n: u8, goal: [u8; 2], pairs: &[[u8; 2]]) -> Result<(), Refusal> {
    let bad = |pair: &[u8; 2]| pair.iter().any(|&side| side >= n);
    if bad(&goal) {
        return Err((PAIR, 0));
    }
    match pairs.iter().position(bad) {
        Some(index) => Err((PAIR, index as u32 + 1)),
        None => Ok(()),
    }
}
