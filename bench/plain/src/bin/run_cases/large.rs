//! Problems of 64 terms, of 64 pairs, and of both.

use super::{bytes, problem, Shown};
use plain::gen;
use plain::record::Record;

const MOST: usize = 64;

pub fn all() -> Vec<Shown> {
    let mut all = vec![
        problem("64 terms: f to the 63rd, where f to the 5th and the 3rd are x", |r| {
            let f = r.powers(7, MOST);
            r.assume(f[5], f[0]);
            r.assume(f[3], f[0]);
            r.goal(f[63], f[1]);
        }),
        problem("64 terms: f to the 63rd, where f to the 7th is x", |r| {
            let f = r.powers(7, MOST);
            r.assume(f[7], f[0]);
            r.goal(f[63], f[0]);
        }),
        problem("64 terms: f to the 62nd, where f to the 7th is x", |r| {
            let f = r.powers(7, MOST);
            r.assume(f[7], f[0]);
            r.goal(f[62], f[0]);
        }),
        problem("64 pairs: two unknowns and their halves", |r| {
            let (x, y) = (r.variable(0), r.variable(0));
            let (one, other) = (r.gain(1, 1, x), r.gain(1, 1, y));
            for turn in 0..MOST {
                r.assume([x, one][turn % 2], [y, other][turn % 2]);
            }
            r.goal(x, y);
        }),
        problem("64 pairs: the last one contradicts", |r| {
            let (x, y) = (r.variable(0), r.variable(0));
            let (one, two) = (r.constant(1, 0), r.constant(2, 0));
            (1..MOST).for_each(|_| r.assume(x, y));
            r.assume(one, two);
        }),
        problem("64 terms, 64 pairs: a ring of unknowns", |r| {
            let x: Vec<u8> = (0..MOST).map(|_| r.variable(0)).collect();
            (0..MOST).for_each(|k| r.assume(x[k], x[(k + 1) % MOST]));
            r.goal(x[0], x[63]);
        }),
        problem("64 terms, 64 pairs: a ring of unknowns, each 1/2 above the last", stairs),
    ];
    for index in 0..3 {
        let remark = format!("64 terms, 64 pairs: dense rows, number {index}");
        all.push(bytes(&remark, gen::dense_kept_small(1, index)));
    }
    for index in 0..12 {
        all.push(bytes(&format!("congruences, number {index}"), gen::congruent(1, index)));
    }
    all
}

/// Each unknown is the one before plus 1/2, which no ring can be: the last
/// pair, from the top back to the first, contradicts.
fn stairs(r: &mut Record) {
    let half = r.constant(1, 1);
    let first = r.variable(0);
    let mut last = first;
    while r.term_count() < MOST {
        let (next, above) = (r.variable(0), r.sum(last, half));
        r.assume(next, above);
        last = next;
    }
    while r.pair_count() < MOST - 1 {
        r.assume(half, half);
    }
    r.assume(last, first);
}
