//! Puts the proved library's word for each of some problems before SMT solvers.
//!
//! `smt_check [SEED [TIMES]]`. Of each kind of problem some are taken that the
//! library does not refuse. Not-entailed must be satisfiable with the goal
//! denied, entailed unsatisfiable then but not before, contradictory
//! unsatisfiable from the start. Problems that a solver does not know are
//! counted. Exit status 1 if a solver says otherwise, or if it is installed
//! and answers fewer than 1,000 problems.

#![forbid(unsafe_code)]

use differential::sides::{OURS, WORDS};
use differential::solver::{Solver, SOLVERS};
use plain::gen::{self, Generator};
use plain::{cases, smt, PLACES};
use std::collections::BTreeMap;
use std::env;
use std::error::Error;
use std::io;
use std::process::ExitCode;
use std::sync::atomic::{AtomicUsize, Ordering};
use std::thread;

/// How many problems are taken of each kind, beside document 01's cases and
/// those about the limits.
const KINDS: [(&str, Generator, usize); 5] = [
    ("congruent", gen::congruent, 400),
    ("permuted", gen::permuted, 120),
    ("faulty", gen::faulty, 60),
    ("dense", gen::dense, 100),
    ("dense_kept_small", gen::dense_kept_small, 60),
];

/// How many problems are taken of each kind about the limits.
const ABOUT_A_LIMIT: usize = 60;

/// How many problems are put before one process of a solver.
const TOGETHER: usize = 20;

/// How many problems an installed solver has to answer.
const ANSWERED: usize = 1_000;

/// A problem that is not refused, and its word's number.
struct Problem {
    name: String,
    script: String,
    word: u8,
}

/// What a solver said of the problems.
#[derive(Default)]
struct Opinion {
    agreed: BTreeMap<&'static str, usize>,
    unknown: usize,
    disagreed: Vec<String>,
}

fn main() -> Result<ExitCode, Box<dyn Error>> {
    let numbers = env::args().skip(1).map(|text| text.parse()).collect::<Result<Vec<u64>, _>>()?;
    let seed = numbers.first().copied().unwrap_or(1);
    let times = numbers.get(1).copied().unwrap_or(1);
    let problems = problems(seed, times as usize);
    let mut failed = false;
    for solver in &SOLVERS {
        if !solver.is_installed() {
            println!("{}: not installed, passed over", solver.name);
            continue;
        }
        let opinion = opinion(solver, &problems)?;
        report(solver, &problems, &opinion, seed);
        failed |= !opinion.disagreed.is_empty();
        if problems.len() - opinion.unknown < ANSWERED {
            println!("{}: fewer than {ANSWERED} problems answered", solver.name);
            failed = true;
        }
    }
    Ok(ExitCode::from(u8::from(failed)))
}

fn report(solver: &Solver, problems: &[Problem], opinion: &Opinion, seed: u64) {
    for line in &opinion.disagreed {
        println!("DISAGREES: {line}");
    }
    let (asked, unknown, disagreed) = (problems.len(), opinion.unknown, opinion.disagreed.len());
    let agreed = &opinion.agreed;
    println!(
        "{}: seed {seed}, {asked} problems, {disagreed} disagree, {unknown} unknown; agreed: {agreed:?}",
        solver.name
    );
}

/// The problems: document 01's cases, and the first of each kind that are not
/// refused.
fn problems(seed: u64, times: usize) -> Vec<Problem> {
    let cases = cases::all().into_iter();
    let mut problems: Vec<Problem> =
        cases.filter_map(|case| problem(case.name.to_string(), &case.bytes)).collect();
    let limits = gen::LIMITS.map(|(kind, make)| (kind, make, ABOUT_A_LIMIT));
    for (kind, make, count) in KINDS.into_iter().chain(limits) {
        let all = (0..).filter_map(|index| problem(format!("{kind} {index}"), &make(seed, index)));
        problems.extend(all.take(count * times));
    }
    problems
}

/// A problem with the library's word, if that is not a refusal.
fn problem(name: String, bytes: &[u8]) -> Option<Problem> {
    let (mut nums, mut dens) = ([0; PLACES], [0; PLACES]);
    let word = (OURS.decide)(bytes, &mut nums, &mut dens).word;
    (word != 3).then(|| Problem { name, script: smt::script(bytes), word })
}

/// What a solver says of all problems, asked on all processors.
fn opinion(solver: &Solver, problems: &[Problem]) -> io::Result<Opinion> {
    let next = AtomicUsize::new(0);
    let threads = thread::available_parallelism().map_or(1, |count| count.get());
    thread::scope(|scope| {
        let ask = || ask(solver, problems, &next);
        let workers: Vec<_> = (0..threads).map(|_| scope.spawn(ask)).collect();
        let mut all = Opinion::default();
        for worker in workers {
            all.merge(worker.join().expect("a thread that ends")?);
        }
        Ok(all)
    })
}

/// Takes some problems at a time.
fn ask(solver: &Solver, problems: &[Problem], next: &AtomicUsize) -> io::Result<Opinion> {
    let mut opinion = Opinion::default();
    while let Some(some) = problems.chunks(TOGETHER).nth(next.fetch_add(1, Ordering::Relaxed)) {
        let scripts: Vec<&str> = some.iter().map(|problem| problem.script.as_str()).collect();
        for (problem, word) in some.iter().zip(solver.words(&scripts)?) {
            opinion.note(solver, problem, word);
        }
    }
    Ok(opinion)
}

impl Opinion {
    fn note(&mut self, solver: &Solver, problem: &Problem, said: Option<u8>) {
        let word = WORDS[usize::from(problem.word)];
        match said {
            None => self.unknown += 1,
            Some(same) if same == problem.word => *self.agreed.entry(word).or_default() += 1,
            Some(other) => {
                let other = WORDS[usize::from(other)];
                let line = format!("{}: {word}, {} says {other}", problem.name, solver.name);
                self.disagreed.push(line);
            }
        }
    }

    fn merge(&mut self, other: Opinion) {
        for (word, count) in other.agreed {
            *self.agreed.entry(word).or_default() += count;
        }
        self.unknown += other.unknown;
        self.disagreed.extend(other.disagreed);
    }
}
