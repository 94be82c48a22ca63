//! Measures [`plain::decide`]: microseconds per call, the best of several
//! rounds over a set of problems.

use plain::{cases, decide, gen, Answer, PLACES};
use std::hint::black_box;
use std::slice::from_ref;
use std::time::{Duration, Instant};

/// Rounds over each set; the fastest one counts, since others were disturbed.
const ROUNDS: usize = 2_000;
/// How long a round lasts at least: short, to fit between disturbances.
const ROUND: Duration = Duration::from_micros(300);

fn main() {
    report("cases A to O", &cases::all().into_iter().map(|case| case.bytes).collect::<Vec<_>>());
    report("20 terms, congruent", &chosen(gen::congruent, 100, |bytes| bytes[0] == 20));
    report("64 terms, congruent", &chosen(gen::congruent, 100, |bytes| bytes[0] == 64));
    report("64 x 64, dense", &chosen(gen::dense, 20, |_| true));
    let kept_small = chosen(gen::dense_kept_small, 20, |_| true);
    report("64 x 64, dense, kept small", &kept_small);
    let slowest = slowest_of(&kept_small);
    report("64 x 64, dense, kept small, the slowest", from_ref(slowest));
}

/// The first problems of a generator that are decided and as wanted.
fn chosen(generator: gen::Generator, count: usize, wanted: fn(&[u8]) -> bool) -> Vec<Vec<u8>> {
    let all = (0..).map(|index| generator(1, index));
    all.filter(|bytes| wanted(bytes) && is_decided(bytes)).take(count).collect()
}

fn is_decided(bytes: &[u8]) -> bool {
    let (mut nums, mut dens) = ([0; PLACES], [0; PLACES]);
    let answer = decide(bytes, &mut nums, &mut dens);
    matches!(answer, Answer::Entailed { .. } | Answer::NotEntailed { .. })
}

fn slowest_of(problems: &[Vec<u8>]) -> &Vec<u8> {
    let slowest = problems.iter().max_by_key(|&problem| fastest(from_ref(problem), 100));
    slowest.expect("at least one problem")
}

fn report(name: &str, problems: &[Vec<u8>]) {
    let time = fastest(problems, ROUNDS).as_secs_f64() * 1e6;
    println!("{name:40} {time:8.2} microseconds per call ({} problems)", problems.len());
}

/// The shortest time per call over some rounds.
fn fastest(problems: &[Vec<u8>], rounds: usize) -> Duration {
    (0..rounds).map(|_| round(problems)).min().unwrap_or_default()
}

/// The time per call of one round.
fn round(problems: &[Vec<u8>]) -> Duration {
    let (mut nums, mut dens) = ([0; PLACES], [0; PLACES]);
    let (start, mut calls) = (Instant::now(), 0);
    loop {
        for problem in problems {
            black_box(decide(black_box(problem), &mut nums, &mut dens));
            calls += 1;
        }
        let time = start.elapsed();
        if time >= ROUND {
            return time / calls;
        }
    }
}
