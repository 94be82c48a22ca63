//! Structured problems rich in congruences.

use super::random::Random;
use crate::record::Record;

/// A problem in the making and what it chooses from.
struct Maker {
    random: Random,
    record: Record,
    /// The few symbols of its lookups.
    symbols: Vec<u8>,
    /// Its lookups so far, each with its first input.
    lookups: Vec<(u8, u8)>,
    /// Its constants so far.
    constants: Vec<u8>,
    /// From how far back inputs are taken.
    reach: usize,
}

/// The kinds of term that a problem grows by.
#[derive(Clone, Copy)]
enum Growth {
    Variable,
    Constant,
    Gain,
    Sum,
    Difference,
    Lookup(usize),
    Repeat,
}

const WEIGHTS: [(usize, Growth); 9] = [
    (6, Growth::Variable),
    (5, Growth::Constant),
    (9, Growth::Gain),
    (10, Growth::Sum),
    (10, Growth::Difference),
    (32, Growth::Lookup(1)),
    (13, Growth::Lookup(2)),
    (5, Growth::Lookup(3)),
    (10, Growth::Repeat),
];

/// A problem with lookups of one to three inputs and few symbols, repeated
/// records, gains, sums, differences and constants, and assumptions that make
/// the inputs of alike lookups equal.
pub fn congruent(seed: u64, index: u64) -> Vec<u8> {
    let mut maker = Maker::new(Random::new("congruent", seed, index));
    let most = maker.random.pick(&[6, 9, 12, 16, 20, 24, 32, 48, 64]);
    while maker.record.term_count() < most {
        maker.grow();
    }
    for _ in 0..maker.random.pick(&[0, 1, 2, 3, 4, 6, 8, 12, 20]) {
        let (left, right) = maker.pair();
        maker.record.assume(left, right);
    }
    let (left, right) = maker.goal();
    maker.record.goal(left, right);
    maker.record.bytes()
}

impl Maker {
    /// A problem of a few variables.
    fn new(mut random: Random) -> Maker {
        let mut record = Record::new();
        for _ in 0..random.within(1, 4) {
            record.variable(random.pick(&[0, 0, 1, 9]));
        }
        let symbols = (0..random.within(1, 3)).map(|_| random.pick(&[0, 1, 7, 255])).collect();
        let reach = random.pick(&[3, 6, 64]);
        Maker { random, record, symbols, lookups: Vec::new(), constants: Vec::new(), reach }
    }

    /// Any term.
    fn any(&mut self) -> u8 {
        self.random.term(self.record.term_count())
    }

    /// A term to build on: a recent one, one of the first, or any.
    fn input(&mut self) -> u8 {
        let count = self.record.term_count();
        match self.random.below(4) {
            0 => self.random.term(count.min(3)),
            1 => self.any(),
            _ => (count - 1 - self.random.below(count.min(self.reach))) as u8,
        }
    }

    /// Adds a term.
    fn grow(&mut self) {
        let (one, other) = (self.input(), self.input());
        let mantissa = self.random.pick(&[-1, 1, 1, 2, -2, 3, 4, 0, 6]);
        let shift = self.random.pick(&[0, 0, 0, 1, 2]);
        match self.random.weighted(&WEIGHTS) {
            Growth::Variable => self.record.variable(0),
            Growth::Constant => self.constant(mantissa, shift),
            Growth::Gain => self.record.gain(mantissa, shift, one),
            Growth::Sum => self.record.sum(one, other),
            Growth::Difference => self.record.difference(one, other),
            Growth::Lookup(places) => self.lookup(places),
            Growth::Repeat => self.repeat(),
        };
    }

    fn constant(&mut self, mantissa: i16, shift: u8) -> u8 {
        let constant = self.record.constant(mantissa, shift);
        self.constants.push(constant);
        constant
    }

    fn lookup(&mut self, places: usize) -> u8 {
        let inputs: Vec<u8> = (0..places).map(|_| self.input()).collect();
        let symbol = self.random.pick(&self.symbols);
        let lookup = self.record.lookup(symbol, &inputs);
        self.lookups.push((lookup, inputs[0]));
        lookup
    }

    /// A term's record once more; a lookup's if there is one.
    fn repeat(&mut self) -> u8 {
        if self.lookups.is_empty() {
            let any = self.any();
            return self.record.repeat(any);
        }
        let (lookup, input) = self.random.pick(&self.lookups);
        let copy = self.record.repeat(lookup);
        self.lookups.push((copy, input));
        copy
    }

    /// Two terms to assume equal: often the inputs of two lookups, or a
    /// lookup and a term or constant, seldom any two terms.
    fn pair(&mut self) -> (u8, u8) {
        if self.lookups.is_empty() {
            return (self.any(), self.any());
        }
        let (one, input_of_one) = self.random.pick(&self.lookups);
        let (other, input_of_other) = self.random.pick(&self.lookups);
        match self.random.below(7) {
            0..=2 => (input_of_one, input_of_other),
            3 => (one, other),
            4 if !self.constants.is_empty() => (one, self.random.pick(&self.constants)),
            6 => (self.any(), self.any()),
            _ => (one, self.input()),
        }
    }

    /// The goal: mostly two lookups.
    fn goal(&mut self) -> (u8, u8) {
        if self.lookups.is_empty() || self.random.chance(30) {
            return (self.any(), self.any());
        }
        (self.random.pick(&self.lookups).0, self.random.pick(&self.lookups).0)
    }
}
