//! Problems whose numbers come close to the limits, at or just beyond them,
//! each generator in a step of the run of its own.

use super::random::Random;
use crate::record::Record;

/// The largest numerator and denominator.
const LIMIT: i64 = 2_147_483_647;

/// A problem in the making.
struct Maker {
    random: Random,
    record: Record,
    /// What the numbers are multiples of: a variable, a lookup or 1.
    unit: u8,
    /// The next symbol that no lookup has yet.
    symbol: u8,
}

/// Numbers at the limit while the rows are built.
pub fn limit_build(seed: u64, index: u64) -> Vec<u8> {
    let mut m = Maker::new("limit_build", seed, index);
    let unit = m.unit;
    match index % 4 {
        0 => {
            let (high, shift) = m.at_limit_over_power();
            let whole = m.multiple(unit, high);
            let part = m.part(unit, shift);
            m.add_or_subtract(whole, part);
        }
        1 => {
            let (one, other) = m.product_at_limit(2, 32_767);
            let first = m.multiple(unit, other);
            m.record.gain(one as i16, 0, first);
        }
        2 => {
            let shift = m.random.within(14, 15) as u8;
            let first = m.record.gain(m.random.pick(&[1, -3, 5]), shift, unit);
            let second = m.record.gain(m.random.pick(&[1, -1, 7]), 15, first);
            m.record.gain(m.random.pick(&[1, 2]), m.random.pick(&[0, 1, 2]), second);
        }
        _ => {
            let (one, other) = m.sum_at_limit();
            let (first, second) = (m.multiple(unit, one), m.multiple(unit, -other));
            m.record.difference(first, second);
        }
    }
    m.finished()
}

/// Numbers at the limit in the first closing: two records of one lookup, in
/// a sum.
pub fn limit_first_close(seed: u64, index: u64) -> Vec<u8> {
    let mut m = Maker::new("limit_first_close", seed, index);
    let inputs = [m.unit, 0, m.unit];
    let places = m.random.within(1, 3) as usize;
    let first = m.record.lookup(200, &inputs[..places]);
    let second = m.record.lookup(200, &inputs[..places]);
    let (left, right) = if m.random.chance(50) {
        let (one, other) = m.sum_at_limit();
        (m.multiple(first, one), m.multiple(second, other))
    } else {
        let (high, shift) = m.at_limit_over_power();
        (m.multiple(first, high), m.part(second, shift))
    };
    m.record.sum(left, right);
    m.finished()
}

/// Numbers at the limit in the difference of a merge.
pub fn limit_difference(seed: u64, index: u64) -> Vec<u8> {
    let mut m = Maker::new("limit_difference", seed, index);
    let unit = m.unit;
    if m.random.chance(50) {
        let (one, other) = m.sum_at_limit();
        let (left, right) = (m.multiple(unit, one), m.multiple(unit, -other));
        m.equate(left, right);
    } else {
        let (one, other) = m.product_at_limit(30_000, 60_000);
        let (left, right) = (m.divided(one), m.divided(other));
        m.equate(left, right);
    }
    m.finished()
}

/// Numbers at the limit in the quotient of a merge.
pub fn limit_quotient(seed: u64, index: u64) -> Vec<u8> {
    let mut m = Maker::new("limit_quotient", seed, index);
    let unit = m.unit;
    let y = m.record.variable(0);
    let (high, shift) = m.at_limit_over_power();
    let (of_unit, of_y) = if m.random.chance(50) {
        (m.part(unit, shift), m.multiple(y, high))
    } else {
        (m.multiple(unit, high), m.part(y, shift))
    };
    m.equate(of_unit, of_y);
    m.finished()
}

/// Numbers at the limit in the product of a fold.
pub fn limit_product(seed: u64, index: u64) -> Vec<u8> {
    let mut m = Maker::new("limit_product", seed, index);
    let unit = m.unit;
    if m.random.chance(50) {
        let (one, other) = m.product_at_limit(2, 200_000);
        let y = m.record.variable(0);
        m.multiple(y, one);
        let right = m.multiple(unit, other);
        m.equate(y, right);
    } else {
        let (high, shift) = m.at_limit_over_power();
        let y = m.record.variable(0);
        m.part(y, shift);
        let left = m.multiple(y, high);
        m.equate(left, unit);
    }
    m.finished()
}

/// Numbers at the limit in the sum of a fold.
pub fn limit_sum(seed: u64, index: u64) -> Vec<u8> {
    let mut m = Maker::new("limit_sum", seed, index);
    let unit = m.unit;
    let y = m.record.variable(0);
    if m.random.chance(50) {
        let (factor, solution) = (m.random.within(-30_000, 30_000), m.random.within(1, 60_000));
        let product = factor * solution;
        let added = m.around(LIMIT * product.signum() - product, 2);
        let (of_unit, of_y) = (m.multiple(unit, added), m.multiple(y, factor));
        m.record.sum(of_unit, of_y);
        let right = m.multiple(unit, solution);
        m.equate(y, right);
    } else {
        let (high, shift) = m.at_limit_over_power();
        let part = m.part(unit, shift);
        m.add_or_subtract(part, y);
        let left = m.multiple(y, high);
        m.equate(left, unit);
    }
    m.finished()
}

/// Several congruences that one assumption brings about at once, between rows
/// at the limit and small ones: which of them is merged first often decides
/// whether the limits are left.
pub fn limit_order(seed: u64, index: u64) -> Vec<u8> {
    let mut m = Maker::new("limit_order", seed, index);
    let inputs = [m.record.variable(0), m.record.variable(0)];
    let sides = m.small_and_large();
    let mut lookups: Vec<(u8, u8)> = (1..=m.random.within(2, 4) as u8)
        .flat_map(|symbol| inputs.map(|of| (symbol, of)))
        .collect();
    m.random.shuffle(&mut lookups);
    for (symbol, of) in lookups {
        let lookup = m.record.lookup(symbol, &[of]);
        m.record.assume(lookup, m.random.pick(&sides));
    }
    m.record.assume(inputs[0], inputs[1]);
    m.finished()
}

impl Maker {
    /// A few variables, a unit and assumptions that have nothing to do with
    /// the rest but move its place.
    fn new(name: &str, seed: u64, index: u64) -> Maker {
        let (mut random, mut record) = (Random::new(name, seed, index), Record::new());
        let first = record.variable(0);
        for _ in 0..random.below(4) {
            let other = record.variable(1);
            record.assume(first, other);
        }
        let unit = match random.below(4) {
            0 => record.constant(1, 0),
            1 => record.lookup(0, &[first]),
            _ => record.variable(2),
        };
        Maker { random, record, unit, symbol: 1 }
    }

    fn finished(&mut self) -> Vec<u8> {
        let last = self.record.term_count();
        let (left, right) = (self.random.term(last), self.random.term(last));
        self.record.goal(left, right);
        self.record.bytes()
    }

    /// At most `reach` away from `value`.
    fn around(&mut self, value: i64, reach: i64) -> i64 {
        value + self.random.within(-reach, reach)
    }

    /// Two numbers of one sign whose sum is about the limit.
    fn sum_at_limit(&mut self) -> (i64, i64) {
        let sign = self.random.pick(&[1, -1]);
        let one = self.random.within(1, LIMIT - 3);
        (sign * one, sign * self.around(LIMIT - one, 2))
    }

    /// Two numbers whose product is about the limit, the first one within
    /// two bounds.
    fn product_at_limit(&mut self, low: i64, high: i64) -> (i64, i64) {
        let one = self.random.within(low, high);
        (one, self.around(LIMIT / one, 1))
    }

    /// A number and a shift such that the number times 2^shift is about the
    /// limit.
    fn at_limit_over_power(&mut self) -> (i64, u8) {
        let shift = if self.random.chance(20) { 0 } else { self.random.within(1, 29) };
        let number = self.around(LIMIT >> shift, 3).clamp(1, LIMIT);
        (number * self.random.pick(&[1, -1]), shift as u8)
    }

    /// A number times a term.
    fn multiple(&mut self, term: u8, number: i64) -> u8 {
        if let Ok(mantissa) = i16::try_from(number) {
            return self.record.gain(mantissa, 0, term);
        }
        let (high, low) = (number / 16_384, number % 16_384);
        let high = self.multiple(term, high);
        let high = self.record.gain(16_384, 0, high);
        let low = self.record.gain(low as i16, 0, term);
        self.record.sum(high, low)
    }

    /// A term divided by 2^shift.
    fn part(&mut self, term: u8, shift: u8) -> u8 {
        if shift <= 15 {
            return self.record.gain(1, shift, term);
        }
        let first = self.record.gain(1, 15, term);
        self.record.gain(1, shift - 15, first)
    }

    /// Zero, two variables, a small multiple and multiples of about half the
    /// limit or the whole of it, up and down.
    fn small_and_large(&mut self) -> Vec<u8> {
        let (x, y) = (self.unit, self.record.variable(0));
        let zero = self.record.constant(0, 0);
        let half = self.around(LIMIT / 2, 2);
        let whole = -self.around(LIMIT - 3, 3);
        vec![
            zero,
            x,
            y,
            self.record.gain(3, 1, x),
            self.multiple(x, half),
            self.multiple(y, whole),
            self.multiple(x, -half),
        ]
    }

    fn add_or_subtract(&mut self, one: u8, other: u8) -> u8 {
        if self.random.chance(50) {
            self.record.sum(one, other)
        } else {
            self.record.difference(one, other)
        }
    }

    /// A variable that an assumption makes the unit divided by a number.
    fn divided(&mut self, number: i64) -> u8 {
        let y = self.record.variable(0);
        let left = self.multiple(y, number);
        self.record.assume(left, self.unit);
        y
    }

    /// Makes two terms equal: by an assumption, or by a congruence.
    fn equate(&mut self, left: u8, right: u8) {
        if self.random.chance(50) {
            self.record.assume(left, right);
            return;
        }
        let (one, other) = (self.record.variable(0), self.record.variable(0));
        let first = self.record.lookup(self.symbol, &[one]);
        let second = self.record.lookup(self.symbol, &[other]);
        self.symbol += 1;
        self.record.assume(first, left);
        self.record.assume(second, right);
        self.record.assume(one, other);
    }
}
