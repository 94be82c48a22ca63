//! The problems that are measured.

use crate::timing::{decide_once, shortest};
use differential::sides::OURS;
use plain::gen::{self, Generator};
use plain::record::Record;
use std::slice::from_ref;

/// Some problems of one kind.
pub struct Family {
    /// What they are.
    pub name: &'static str,
    /// Whether a solver can be asked: the problems are not refused.
    pub decided: bool,
    /// The problems.
    pub problems: Vec<Vec<u8>>,
}

/// The name of the family of typical problems.
pub const TYPICAL: &str = "typical, 20 terms";
/// The name of the family of dense problems.
pub const DENSE: &str = "dense, 64 x 64";
/// The name of the family of the slowest problem found.
pub const WORST: &str = "slowest found, 64 x 64";

/// All families.
pub fn all() -> Vec<Family> {
    let mut all = fixed();
    all.push(decided(WORST, vec![slowest()]));
    all
}

/// The families that are the same in every run.
pub fn fixed() -> Vec<Family> {
    vec![
        decided(TYPICAL, chosen(gen::congruent, 100, |bytes| bytes[0] == 20)),
        decided("congruent, 64 terms", chosen(gen::congruent, 100, |bytes| bytes[0] == 64)),
        decided("congruence chain, 64 terms", (1..=8).map(|less| chain(64, less)).collect()),
        decided(DENSE, dense(64)),
        Family { name: "damaged", decided: false, problems: damaged(200) },
    ]
}

fn decided(name: &'static str, problems: Vec<Vec<u8>>) -> Family {
    Family { name, decided: true, problems }
}

/// The first problems of a generator that are decided and as wanted.
fn chosen(make: Generator, count: usize, wanted: fn(&[u8]) -> bool) -> Vec<Vec<u8>> {
    let all = (0..).map(|index| make(1, index));
    all.filter(|bytes| wanted(bytes) && decide_once(OURS, bytes).word <= 1).take(count).collect()
}

/// Records that are refused for what they say, not for a number's size.
fn damaged(count: usize) -> Vec<Vec<u8>> {
    let refused = |bytes: &Vec<u8>| (2..=6).contains(&decide_once(OURS, bytes).number);
    (0..).map(|index| gen::faulty(1, index)).filter(refused).take(count).collect()
}

/// x, f(x), f(f(x)) and so on, n terms; the last two powers but `less` are x,
/// so that all terms are.
pub fn chain(n: usize, less: usize) -> Vec<u8> {
    let mut record = Record::new();
    let terms = record.powers(1, n);
    let last = (n - less).max(2);
    record.assume(terms[last], terms[0]);
    record.assume(terms[last - 1], terms[0]);
    record.goal(terms[n - 1], terms[0]);
    record.bytes()
}

/// The first dense problems with n terms and n assumptions that are decided.
pub fn dense(n: usize) -> Vec<Vec<u8>> {
    let all = (0..).map(|index| gen::dense_of_size(n, 1, index));
    all.filter(|bytes| decide_once(OURS, bytes).word <= 1).take(20).collect()
}

/// n terms, most of them lookups of terms that have equal rows, and n
/// assumptions that say nothing new: what closing compares is all equal.
pub fn equal_lookups(n: usize, copies: usize) -> Vec<u8> {
    let mut record = Record::new();
    let x = record.variable(0);
    let equal: Vec<u8> = (0..copies).map(|_| record.gain(1, 0, x)).collect();
    for turn in 0..n - 1 - copies {
        let input = |step: usize| equal[turn * step % copies];
        record.lookup(1, &[input(1), input(3), input(5)]);
    }
    for _ in 0..n {
        record.assume(x, equal[0]);
    }
    record.goal(n as u8 - 1, n as u8 - 2);
    record.bytes()
}

/// As [`equal_lookups`], with assumptions that each solve a variable.
fn equal_lookups_and_variables(n: usize, variables: usize, copies: usize) -> Vec<u8> {
    let mut record = Record::new();
    let terms: Vec<u8> = (0..variables).map(|_| record.variable(0)).collect();
    let equal: Vec<u8> = (0..copies).map(|_| record.gain(1, 0, terms[0])).collect();
    for turn in 0..n - variables - copies {
        let input = |step: usize| equal[turn * step % copies];
        record.lookup(1, &[input(1), input(3), input(5)]);
    }
    for pair in terms.windows(2) {
        record.assume(pair[0], pair[1]);
    }
    record.goal(n as u8 - 1, n as u8 - 2);
    record.bytes()
}

/// Lookups of multiples of term 0, which differ in the first column alone.
fn unequal_lookups(n: usize) -> Vec<u8> {
    let mut record = Record::new();
    let x = record.variable(0);
    for factor in 1..n / 2 {
        let multiple = record.gain(factor as i16, 0, x);
        record.lookup(1, &[multiple]);
    }
    while record.pair_count() < n {
        record.assume(x, x);
    }
    record.bytes()
}

/// What might be slow: what is built to be, and the problems of generators.
fn candidates() -> Vec<Vec<u8>> {
    let mut all = vec![unequal_lookups(64)];
    all.extend((1..=8).map(|less| chain(64, less)));
    all.extend((3..12).map(|copies| equal_lookups(64, copies)));
    for variables in [8, 16, 24, 32] {
        all.extend((3..8).map(|copies| equal_lookups_and_variables(64, variables, copies)));
    }
    for make in [gen::dense_kept_small, gen::dense, gen::congruent] {
        all.extend((0..400).map(|index| make(7, index)));
    }
    all
}

/// The candidate that takes the library longest.
fn slowest() -> Vec<u8> {
    let time = |problem: &Vec<u8>| shortest(OURS, from_ref(problem), 3);
    candidates().into_iter().max_by_key(time).expect("there are candidates")
}
