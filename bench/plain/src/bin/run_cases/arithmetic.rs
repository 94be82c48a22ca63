//! Constants, gains, sums and differences, and the limits.

use super::{bytes, problem, Shown};
use plain::gen::{self, Generator};
use plain::record::Record;
use plain::{decide, limit_reached, Answer, PLACES};

pub fn all() -> Vec<Shown> {
    let mut all = constants();
    all.extend(gains());
    all.extend(sums());
    all.extend(beyond());
    all.extend(at_the_limits());
    all
}

fn constants() -> Vec<Shown> {
    vec![
        problem("one term", |r| {
            r.constant(-1, 0);
        }),
        problem("constants alone: 1/2 and 2/4", |r| {
            let (one, other) = (r.constant(1, 1), r.constant(2, 2));
            r.goal(one, other);
        }),
        problem("constants alone: 3/4 + 5/8 and 2 - 5/8, and the sum of both", |r| {
            let (one, other) = (r.constant(3, 2), r.constant(5, 3));
            let sum = r.sum(one, other);
            let two = r.constant(2, 0);
            let difference = r.difference(two, other);
            r.sum(sum, difference);
            r.goal(sum, difference);
        }),
        problem("constants alone: 1/2 and -1/2", |r| {
            let (one, other) = (r.constant(1, 1), r.constant(-1, 1));
            r.goal(one, other);
        }),
        problem("constants alone: -32768/2^15 is -1, 32767/2^15 is not 1", |r| {
            r.constant(-32_768, 15);
            let (near, one) = (r.constant(32_767, 15), r.constant(1, 0));
            r.goal(near, one);
        }),
        problem("constants alone, assumed equal where they are", |r| {
            let (one, other) = (r.constant(-6, 3), r.constant(-3, 2));
            r.assume(one, other);
            r.goal(other, one);
        }),
    ]
}

fn gains() -> Vec<Shown> {
    vec![
        problem("-3/4 x = 5/8 y: y is -6/5 x", |r| {
            let (x, y) = (r.variable(0), r.variable(0));
            let (of_x, of_y) = (r.gain(-3, 2, x), r.gain(5, 3, y));
            r.assume(of_x, of_y);
            r.goal(x, y);
        }),
        problem("-7/2 x + 3y = -5/4: a coefficient and a constant", |r| {
            let (x, y) = (r.variable(0), r.variable(0));
            let (of_x, of_y, right) = (r.gain(-7, 1, x), r.gain(3, 0, y), r.constant(-5, 2));
            let left = r.sum(of_x, of_y);
            r.assume(left, right);
            r.goal(y, right);
        }),
        problem("a gain of 0 is 0", |r| {
            let x = r.variable(0);
            let (nothing, zero) = (r.gain(0, 5, x), r.constant(0, 9));
            r.goal(nothing, zero);
        }),
        problem("a gain of a gain: -1/2 of -1/2 is 1/4", |r| {
            let x = r.variable(0);
            let half = r.gain(-1, 1, x);
            let (quarter, other) = (r.gain(-1, 1, half), r.gain(2, 3, x));
            r.goal(quarter, other);
        }),
        problem("a gain of a lookup: -1/8 f(x) = 3/2", |r| {
            let x = r.variable(0);
            let f = r.lookup(3, &[x]);
            let (eighth, right) = (r.gain(-1, 3, f), r.constant(3, 1));
            let twelve = r.constant(-12, 0);
            r.assume(eighth, right);
            r.goal(f, twelve);
        }),
    ]
}

fn sums() -> Vec<Shown> {
    vec![
        problem("(x + y) - y is x", |r| {
            let (x, y) = (r.variable(0), r.variable(0));
            let sum = r.sum(x, y);
            let difference = r.difference(sum, y);
            r.goal(difference, x);
        }),
        problem("x - y and y - x", |r| {
            let (x, y) = (r.variable(0), r.variable(0));
            let (one, other) = (r.difference(x, y), r.difference(y, x));
            r.goal(one, other);
        }),
        problem("x - y = y - x forces x = y", |r| {
            let (x, y) = (r.variable(0), r.variable(0));
            let (one, other) = (r.difference(x, y), r.difference(y, x));
            r.assume(one, other);
            r.goal(x, y);
        }),
        problem("x + y = 10, x - y = 4: x is 7, y is 3", |r| sum_and_difference(r, 1)),
        problem("the same assumed twice solves no more", |r| sum_and_difference(r, 2)),
        problem("three unknowns, two equations: one is left", |r| {
            let (x, y, z) = (r.variable(0), r.variable(0), r.variable(0));
            let (xy, yz, zx) = (r.sum(x, y), r.sum(y, z), r.sum(z, x));
            r.assume(xy, z);
            r.assume(yz, x);
            r.goal(zx, y);
        }),
        problem("three unknowns, three equations: all are 0", |r| {
            let (x, y, z) = (r.variable(0), r.variable(0), r.variable(0));
            let (xy, yz, zx) = (r.sum(x, y), r.sum(y, z), r.sum(z, x));
            let zero = r.constant(0, 0);
            r.assume(xy, z);
            r.assume(yz, x);
            r.assume(zx, y);
            r.goal(x, zero);
        }),
    ]
}

fn sum_and_difference(r: &mut Record, times: usize) {
    let (x, y) = (r.variable(0), r.variable(0));
    let (sum, difference) = (r.sum(x, y), r.difference(x, y));
    let (ten, four, seven) = (r.constant(10, 0), r.constant(4, 0), r.constant(7, 0));
    for _ in 0..times {
        r.assume(sum, ten);
        r.assume(difference, four);
    }
    r.goal(x, seven);
}

/// 2,147,352,578, or what that gain makes of a term.
fn near_limit(r: &mut Record, of: u8) -> u8 {
    let once = r.gain(32_767, 0, of);
    let twice = r.gain(32_767, 0, once);
    r.gain(2, 0, twice)
}

/// Numbers beyond the limits: refusal 7, and where.
fn beyond() -> Vec<Shown> {
    vec![
        problem("built too large: a difference of opposite numbers", |r| {
            let x = r.variable(0);
            let large = near_limit(r, x);
            let minus = r.gain(-1, 0, large);
            r.difference(large, minus);
        }),
        problem("two constants whose difference is too large: 7, not contradictory", |r| {
            let one = r.constant(1, 0);
            let large = near_limit(r, one);
            let minus = r.gain(-1, 0, large);
            r.assume(large, minus);
        }),
        problem("the same as the third assumption", |r| {
            let (one, x, y) = (r.constant(1, 0), r.variable(0), r.variable(0));
            let large = near_limit(r, one);
            let minus = r.gain(-1, 0, large);
            r.assume(x, y);
            r.assume(y, one);
            r.assume(large, minus);
            r.assume(x, large);
        }),
        problem("a quotient too small: 2,147,352,578 x = 1/2", |r| {
            let (x, half) = (r.variable(0), r.constant(1, 1));
            let large = near_limit(r, x);
            r.assume(large, half);
        }),
        problem("a product too large in a fold: 2,147,352,578 x where x = 2", |r| {
            let (x, two) = (r.variable(0), r.constant(2, 0));
            near_limit(r, x);
            r.assume(two, x);
        }),
        problem("a sum too large in a fold: 2,147,352,578 (x + y) where x = y", |r| {
            let (x, y) = (r.variable(0), r.variable(0));
            let (one, other) = (near_limit(r, x), near_limit(r, y));
            r.sum(one, other);
            r.assume(x, y);
        }),
        problem("two records of f(x), added too large in the first closing", |r| {
            let x = r.variable(0);
            let (one, other) = (r.lookup(1, &[x]), r.lookup(1, &[x]));
            let (one, other) = (near_limit(r, one), near_limit(r, other));
            r.sum(one, other);
        }),
        problem("the same in the closing after the second assumption", |r| {
            let (x, y, z) = (r.variable(0), r.variable(0), r.variable(0));
            let (one, other) = (r.lookup(1, &[x]), r.lookup(1, &[y]));
            let (one, other) = (near_limit(r, one), near_limit(r, other));
            r.sum(one, other);
            r.assume(x, z);
            r.assume(y, z);
        }),
    ]
}

const LIMITS: [(&str, Generator); 7] = [
    ("rows built", gen::limit_build),
    ("the first closing", gen::limit_first_close),
    ("a difference", gen::limit_difference),
    ("a quotient", gen::limit_quotient),
    ("a product", gen::limit_product),
    ("a sum", gen::limit_sum),
    ("the order of congruences", gen::limit_order),
];

/// Of each generator of numbers about the limits the first problem within
/// them and the first beyond.
fn at_the_limits() -> Vec<Shown> {
    let mut all = Vec::new();
    for (name, generator) in LIMITS {
        all.push(bytes(&format!("about the limit, within: {name}"), first(generator, is_decided)));
        all.push(bytes(&format!("about the limit, beyond: {name}"), first(generator, is_beyond)));
    }
    all
}

fn first(generator: Generator, wanted: fn(&[u8]) -> bool) -> Vec<u8> {
    let mut all = (0..).map(|index| generator(1, index));
    all.find(|bytes| wanted(bytes)).expect("a generator without end")
}

fn is_beyond(bytes: &[u8]) -> bool {
    limit_reached(bytes).is_some()
}

fn is_decided(bytes: &[u8]) -> bool {
    let (mut nums, mut dens) = ([0; PLACES], [0; PLACES]);
    let answer = decide(bytes, &mut nums, &mut dens);
    matches!(answer, Answer::Entailed { .. } | Answer::NotEntailed { .. })
}
