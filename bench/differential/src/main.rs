//! Compares the proved library with the plain implementation.
//!
//! `differential [SEED [TIMES]]`; the seed is otherwise that of
//! `HAMZULAPH_SEED`, or 1. TIMES multiplies the number of random inputs. An
//! input on which the two differ is written to `target/differential`. Exit
//! status 1 for a difference, or if a class of outcomes was not reached.

#![forbid(unsafe_code)]

use differential::check::{Checker, Fault};
use differential::inputs::{families, Family, BLOCK};
use differential::lending::Noise;
use differential::sides::{OURS, PLAIN};
use differential::tally::Tally;
use std::env;
use std::error::Error;
use std::fs;
use std::path::PathBuf;
use std::process::ExitCode;
use std::sync::atomic::{AtomicUsize, Ordering};
use std::thread;

/// How many arbitrary pairs of lists are listed.
const LISTS: u64 = 1_000;

/// A piece of work for a thread.
enum Job {
    Block(Family, u64),
    Lists(u64),
}

fn main() -> Result<ExitCode, Box<dyn Error>> {
    let (seed, times) = request()?;
    let jobs = jobs(times);
    let inputs: u64 = families(times).iter().map(|family| family.count).sum();
    let (tally, faults) = run(&jobs, seed);
    for fault in &faults {
        let file = keep(fault, seed)?;
        println!("DIFFERENCE in {} (seed {seed}): {}", fault.name, fault.what);
        println!("the input is in {}", file.display());
    }
    // A difference ends the run early, and then much is missing.
    let missing = if faults.is_empty() { tally.missing() } else { Vec::new() };
    for class in &missing {
        println!("NOT REACHED: {class}");
    }
    println!("seed {seed}, {inputs} inputs, {} differences: {tally}", faults.len());
    Ok(ExitCode::from(u8::from(!faults.is_empty() || !missing.is_empty())))
}

/// The seed and how many times the random inputs are wanted.
fn request() -> Result<(u64, u64), Box<dyn Error>> {
    let mut arguments = env::args().skip(1);
    let seed = arguments.next().or(env::var("HAMZULAPH_SEED").ok());
    let seed = seed.map_or(Ok(1), |text| text.parse())?;
    let times = arguments.next().map_or(Ok(1), |text| text.parse())?;
    Ok((seed, times))
}

fn jobs(times: u64) -> Vec<Job> {
    let mut jobs: Vec<Job> = (0..LISTS * times).map(Job::Lists).collect();
    for family in families(times) {
        let starts = (0..family.count).step_by(BLOCK as usize);
        jobs.extend(starts.map(|start| Job::Block(family, start)));
    }
    jobs
}

/// Does all jobs, on all processors, until one of them finds a difference.
fn run(jobs: &[Job], seed: u64) -> (Tally, Vec<Fault>) {
    let (noise, next) = (Noise::new(seed), AtomicUsize::new(0));
    let threads = thread::available_parallelism().map_or(1, |count| count.get());
    let work = || work(jobs, &next, Checker::new([OURS, PLAIN], seed, &noise));
    thread::scope(|scope| {
        let workers: Vec<_> = (0..threads).map(|_| scope.spawn(work)).collect();
        let mut all = (Tally::default(), Vec::new());
        for worker in workers {
            let (tally, fault) = worker.join().expect("a thread that ends");
            all.0.merge(tally);
            all.1.extend(fault);
        }
        all
    })
}

/// Takes one job after the other, until there is none or a difference.
fn work(jobs: &[Job], next: &AtomicUsize, mut checker: Checker) -> (Tally, Option<Fault>) {
    while let Some(job) = jobs.get(next.fetch_add(1, Ordering::Relaxed)) {
        let done = match job {
            Job::Block(family, start) => checker.block(family, *start),
            Job::Lists(index) => checker.arbitrary_lists(*index),
        };
        if let Err(fault) = done {
            next.store(jobs.len(), Ordering::Relaxed);
            return (checker.tally, Some(fault));
        }
    }
    (checker.tally, None)
}

/// Writes the input of a fault to a file beside the program.
fn keep(fault: &Fault, seed: u64) -> Result<PathBuf, Box<dyn Error>> {
    let program = env::current_exe()?;
    let target = program.ancestors().nth(2).ok_or("the program stands in no folder")?;
    let folder = target.join("differential");
    fs::create_dir_all(&folder)?;
    let file = folder.join(format!("{}-seed-{seed}.bin", fault.name));
    fs::write(&file, &fault.bytes)?;
    Ok(file)
}
