//! Problems of 64 terms and 64 assumptions with dense rows.

use super::random::Random;
use crate::record::Record;

const MOST: usize = 64;

/// How the terms of a dense problem grow.
#[derive(Clone, Copy)]
struct Growth {
    /// Percent of gains.
    gains: usize,
    /// Percent of doublings.
    doublings: usize,
    /// The largest mantissa of a gain, up or down.
    largest: i64,
    /// The largest shift of a gain.
    shift: usize,
}

/// From slow growth, where the limits are met late or never, to growth that
/// meets them while the rows are built.
const GROWTHS: [Growth; 10] = [
    Growth { gains: 10, doublings: 0, largest: 3, shift: 0 },
    Growth { gains: 30, doublings: 0, largest: 8, shift: 2 },
    Growth { gains: 10, doublings: 0, largest: 200, shift: 8 },
    Growth { gains: 60, doublings: 0, largest: 100, shift: 4 },
    Growth { gains: 50, doublings: 0, largest: 2_000, shift: 8 },
    Growth { gains: 5, doublings: 0, largest: 32_767, shift: 15 },
    Growth { gains: 20, doublings: 0, largest: 32_767, shift: 15 },
    Growth { gains: 30, doublings: 0, largest: 32_767, shift: 15 },
    Growth { gains: 0, doublings: 80, largest: 1, shift: 0 },
    Growth { gains: 0, doublings: 95, largest: 1, shift: 0 },
];

/// A dense problem whose fractions grow until, often, one leaves the limits.
/// How fast they grow, and so where, differs from problem to problem.
pub fn dense(seed: u64, index: u64) -> Vec<u8> {
    let mut random = Random::new("dense", seed, index);
    let mut record = Record::new();
    start(&mut record, &mut random);
    let growth = random.pick(&GROWTHS);
    while record.term_count() < MOST {
        grow(&mut record, &mut random, growth);
    }
    while record.pair_count() < MOST {
        record.assume(late_term(&mut random, MOST), late_term(&mut random, MOST));
    }
    record.goal(random.term(MOST), random.term(MOST));
    record.bytes()
}

/// A term, more often one of the later and denser ones.
fn late_term(random: &mut Random, count: usize) -> u8 {
    random.term(count).max(random.term(count))
}

/// The unknowns, and seldom a constant.
fn start(record: &mut Record, random: &mut Random) {
    let variables = random.within(6, 34);
    for _ in 0..variables {
        record.variable(0);
    }
    for _ in 0..random.below(6) {
        let input = random.term(record.term_count());
        record.lookup(random.pick(&[1, 2]), &[input]);
    }
    if random.chance(25) {
        record.constant(random.within(1, 9) as i16, random.below(3) as u8);
    }
}

/// A gain, double, sum or difference of earlier terms.
fn grow(record: &mut Record, random: &mut Random, growth: Growth) {
    let count = record.term_count();
    let (last, one, other) = (count as u8 - 1, late_term(random, count), late_term(random, count));
    if random.chance(growth.gains) {
        let mantissa = random.within(-growth.largest, growth.largest) as i16;
        record.gain(mantissa, random.below(growth.shift + 1) as u8, one);
    } else if random.chance(growth.doublings) {
        record.sum(last, last);
    } else {
        signed_sum(record, random, one, other);
    }
}

/// A dense problem whose fractions mostly stay within the limits: what is
/// solved are small multiples of long sums.
pub fn dense_kept_small(seed: u64, index: u64) -> Vec<u8> {
    dense_of_size(MOST, seed, index)
}

/// The same with any number of terms, from 8 on, and as many assumptions.
pub fn dense_of_size(most: usize, seed: u64, index: u64) -> Vec<u8> {
    let mut random = Random::new("dense_kept_small", seed, index);
    let mut record = Record::new();
    let mut some = |low, high| random.within(part(low, most), part(high, most));
    let free: Vec<u8> = (0..some(14, 18)).map(|_| record.variable(0)).collect();
    let bound: Vec<u8> = (0..some(10, 14)).map(|_| record.variable(0)).collect();
    let sums = running_sums(&mut record, &mut random, &free);
    let mut pairs = bind(&mut record, &mut random, &bound, &sums, most);
    pairs.extend(chain(&mut record, &mut random, &free, &sums, most));
    sum_up(&mut record, &mut random, &bound, &sums, most);
    assume_and_repeat(&mut record, &mut random, &pairs, most);
    record.goal(random.term(most), random.term(most));
    record.bytes()
}

/// As much of `number` as there are terms of 64, at least 1.
fn part(number: i64, most: usize) -> i64 {
    (number * most as i64 / MOST as i64).max(1)
}

fn signed_sum(record: &mut Record, random: &mut Random, one: u8, other: u8) -> u8 {
    if random.chance(50) {
        record.sum(one, other)
    } else {
        record.difference(one, other)
    }
}

/// The first term, then the sums of the first two, three and so on, each with
/// a random sign.
fn running_sums(record: &mut Record, random: &mut Random, terms: &[u8]) -> Vec<u8> {
    let mut sums = vec![terms[0]];
    for (last, &term) in terms[1..].iter().enumerate() {
        sums.push(signed_sum(record, random, sums[last], term));
    }
    sums
}

/// A term, or a small multiple of it.
fn small_multiple(record: &mut Record, random: &mut Random, term: u8, most: usize) -> u8 {
    if random.chance(60) || record.term_count() >= most - part(10, most) as usize {
        return term;
    }
    let (mantissa, shift) = random.pick(&[(2, 0), (3, 0), (-3, 0), (1, 1), (3, 1)]);
    record.gain(mantissa, shift, term)
}

/// Pairs that make a small multiple of each bound term a long sum.
fn bind(
    record: &mut Record,
    random: &mut Random,
    bound: &[u8],
    sums: &[u8],
    most: usize,
) -> Vec<[u8; 2]> {
    let long = &sums[sums.len().saturating_sub(4)..];
    let mut pair = |&term| [small_multiple(record, random, term, most), random.pick(long)];
    bound.iter().map(&mut pair).collect()
}

/// Pairs that make small multiples of the last terms, going down, the sums
/// of those before them.
fn chain(
    record: &mut Record,
    random: &mut Random,
    free: &[u8],
    sums: &[u8],
    most: usize,
) -> Vec<[u8; 2]> {
    let count = random.within(part(6, most), part(10, most)) as usize;
    let last = (free.len().saturating_sub(count).max(1)..free.len()).rev();
    last.map(|place| [small_multiple(record, random, free[place], most), sums[place - 1]]).collect()
}

/// Fills up with sums of bound terms.
fn sum_up(record: &mut Record, random: &mut Random, bound: &[u8], sums: &[u8], most: usize) {
    let mut last = random.pick(sums);
    while record.term_count() < most {
        let next = random.pick(bound);
        last = signed_sum(record, random, last, next);
    }
}

/// Assumes the pairs, and then some of them again.
fn assume_and_repeat(record: &mut Record, random: &mut Random, pairs: &[[u8; 2]], most: usize) {
    for &[left, right] in pairs {
        record.assume(left, right);
    }
    while record.pair_count() < most {
        let [left, right] = random.pick(pairs);
        record.assume(left, right);
    }
}
