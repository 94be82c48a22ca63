//! Times of decisions.

use crate::clock;
use differential::sides::{Side, Told};
use plain::PLACES;
use std::hint::black_box;
use std::time::{Duration, Instant};

/// How many rounds a median is taken over.
const ROUNDS: usize = 7;
/// How long a round lasts at least: long enough for a clock that is brought
/// up to date every few milliseconds.
const ROUND: Duration = Duration::from_millis(60);

/// How many times the problems are decided at most before the clock is
/// looked at again.
const MOST_AT_ONCE: usize = 1 << 10;

/// Decides a problem once.
pub fn decide_once(side: Side, problem: &[u8]) -> Told {
    let (mut nums, mut dens) = ([0; PLACES], [0; PLACES]);
    (side.decide)(problem, &mut nums, &mut dens)
}

/// Decides each problem a number of times.
pub fn decide_all(side: Side, problems: &[Vec<u8>], times: usize) {
    let (mut nums, mut dens) = ([0; PLACES], [0; PLACES]);
    for _ in 0..times {
        for problem in problems {
            black_box((side.decide)(black_box(problem), &mut nums, &mut dens));
        }
    }
}

/// The median times per problem of two sides, whose rounds take turns.
pub fn medians(sides: [Side; 2], problems: &[Vec<u8>]) -> [Duration; 2] {
    let mut times = [Vec::new(), Vec::new()];
    for _ in 0..ROUNDS {
        for (side, times) in sides.into_iter().zip(&mut times) {
            times.push(round(side, problems));
        }
    }
    times.map(|mut times| {
        times.sort();
        times[ROUNDS / 2]
    })
}

/// The time per problem of one round. The clock is looked at seldom, since
/// that takes time of its own.
fn round(side: Side, problems: &[Vec<u8>]) -> Duration {
    let (start, mut calls, mut times) = (clock::of_thread(), 0, 1);
    loop {
        decide_all(side, problems, times);
        calls += times * problems.len();
        let time = clock::of_thread() - start;
        if time >= ROUND {
            return time / calls as u32;
        }
        times = calls.div_ceil(problems.len()).min(MOST_AT_ONCE);
    }
}

/// The shortest of a few times for all problems.
pub fn shortest(side: Side, problems: &[Vec<u8>], rounds: usize) -> Duration {
    let time = |_| {
        let start = Instant::now();
        decide_all(side, problems, 1);
        start.elapsed()
    };
    (0..rounds).map(time).min().unwrap_or_default()
}
