//! The tables.

use crate::families::{self, Family, DENSE, TYPICAL, WORST};
use crate::goals::{Bound, Goal};
use crate::timing::{medians, shortest};
use crate::{child, clock, instructions, solvers, stack};
use differential::sides::{OURS, PLAIN};
use differential::solver::{Solver, SOLVERS};
use std::error::Error;
use std::fs;
use std::slice::from_ref;
use std::thread;
use std::time::Duration;

/// What was measured of a family.
struct Measured {
    family: Family,
    /// The library's median time per problem, then the plain one's.
    times: [Duration; 2],
    /// The same in instructions, where they can be counted.
    instructions: Option<[u64; 2]>,
}

/// The sizes at which it is measured how cost grows.
const SIZES: [usize; 5] = [8, 16, 32, 48, 64];

/// Measures everything and prints it.
pub fn all() -> Result<(), Box<dyn Error>> {
    println!("{}\n", machine());
    let measured = families()?;
    let mut goals =
        vec![instruction_goal(&measured), typical_goal(&measured), dense_goal(&measured)];
    growth();
    goals.push(stack_use(&measured)?);
    for solver in SOLVERS {
        goals.extend(against(&solver, &measured)?);
    }
    println!("Goals\n");
    goals.iter().for_each(Goal::print);
    Ok(())
}

/// How busy the machine is, and which clock is used.
fn machine() -> String {
    let processors = thread::available_parallelism().map_or(1, |count| count.get());
    let load = fs::read_to_string("/proc/loadavg").unwrap_or_default();
    let load = load.split_whitespace().next().unwrap_or("unknown");
    let clock = if clock::is_processor_time() { "processor time" } else { "time of day" };
    format!("{processors} processors, load {load} at the start; times are {clock}")
}

/// One time over another.
fn ratio([one, other]: [Duration; 2]) -> f64 {
    one.as_secs_f64() / other.as_secs_f64()
}

/// A time in microseconds.
fn micro(time: Duration) -> f64 {
    time.as_secs_f64() * 1e6
}

/// A time in milliseconds.
fn milli(time: Duration) -> f64 {
    time.as_secs_f64() * 1e3
}

fn families() -> Result<Vec<Measured>, Box<dyn Error>> {
    let counted = instructions::can_be_counted();
    println!("Library over plain Rust: ratios, then median microseconds, then instructions\n");
    if !counted {
        println!("valgrind is not installed: instructions are not counted");
    }
    println!(
        "{:28} {:>8} {:>8} {:>10} {:>8} {:>11} {:>9}",
        "per problem", "time", "instr.", "library", "plain", "library", "plain"
    );
    let mut all = Vec::new();
    for family in families::all() {
        let measured = measure(family, counted)?;
        print_family(&measured);
        all.push(measured);
    }
    println!();
    Ok(all)
}

fn measure(family: Family, counted: bool) -> Result<Measured, Box<dyn Error>> {
    let file = child::keep(family.name, &family.problems)?;
    let times = medians([OURS, PLAIN], &family.problems);
    let count = family.problems.len();
    let instructions = if counted { instructions::per_problem(&file, count) } else { None };
    Ok(Measured { family, times, instructions })
}

fn print_family(measured: &Measured) {
    let [ours, plain] = measured.times;
    let (name, time) = (measured.family.name, ratio(measured.times));
    let (instr, of_ours, of_plain) = match measured.instructions {
        Some([a, b]) => (format!("{:.2}", a as f64 / b as f64), a.to_string(), b.to_string()),
        None => ("-".to_string(), "-".to_string(), "-".to_string()),
    };
    println!(
        "{name:28} {time:>8.2} {instr:>8} {:>10.2} {:>8.2} {of_ours:>11} {of_plain:>9}",
        micro(ours),
        micro(plain)
    );
}

fn instruction_goal(measured: &[Measured]) -> Goal {
    let mut goal = Goal::new("instructions over plain's", Bound::Most(1.1), "");
    for one in measured {
        if let Some([ours, plain]) = one.instructions {
            goal.note(ours as f64 / plain as f64, one.family.name);
        }
    }
    goal
}

fn typical_goal(measured: &[Measured]) -> Goal {
    let mut goal = Goal::new("a typical problem", Bound::Most(30.0), " us");
    for one in measured.iter().filter(|one| one.family.name == TYPICAL) {
        goal.note(micro(one.times[0]), one.family.name);
    }
    goal
}

fn dense_goal(measured: &[Measured]) -> Goal {
    let mut goal = Goal::new("any problem of 64 terms and 64 assumptions", Bound::Most(5.0), " ms");
    for one in measured.iter().filter(|one| [DENSE, WORST].contains(&one.family.name)) {
        let time = |problem: &&Vec<u8>| shortest(OURS, from_ref(*problem), 3);
        if let Some(slowest) = one.family.problems.iter().max_by_key(time) {
            let [time, _] = medians([OURS, PLAIN], from_ref(slowest));
            goal.note(milli(time), one.family.name);
        }
    }
    goal
}

/// How cost grows with the number of terms.
fn growth() {
    println!("Growth with the number of terms: ratio, then library and plain in microseconds\n");
    println!("{:>6} {:>28} {:>28} {:>28}", "terms", "congruence chain", "dense", "equal lookups");
    for size in SIZES {
        let families = [
            vec![families::chain(size, 1)],
            families::dense(size),
            vec![families::equal_lookups(size, 4)],
        ];
        let cells = families.map(|problems| {
            let times @ [ours, plain] = medians([OURS, PLAIN], &problems);
            format!("{:>8.2} {:>10.2} {:>8.2}", ratio(times), micro(ours), micro(plain))
        });
        println!("{size:>6} {}", cells.join(" "));
    }
    println!();
}

fn stack_use(measured: &[Measured]) -> Result<Goal, Box<dyn Error>> {
    let problems: Vec<Vec<u8>> =
        measured.iter().flat_map(|one| one.family.problems.clone()).collect();
    let file = child::keep("stack", &problems)?;
    let (ours, plain) = (stack::taken("ours", &file)?, stack::taken("plain", &file)?);
    let (count, closely) = (problems.len(), stack::CLOSELY);
    println!("Stack of a decision, the most over {count} problems, to {closely} bytes:");
    println!("library {ours} bytes, plain {plain} bytes\n");
    let mut goal = Goal::new("stack of a decision", Bound::Most(200_000.0), " bytes");
    goal.note(ours as f64, "all problems above");
    Ok(goal)
}

/// A solver's times over the library's, in both ways of asking it.
fn against(solver: &Solver, measured: &[Measured]) -> Result<[Goal; 2], Box<dyn Error>> {
    let name = solver.name;
    let goal = |how| Goal::new(format!("{name}, {how}, over the library"), Bound::Least(100.0), "");
    let mut goals = [goal("a process for each problem"), goal("one process")];
    if !solver.is_installed() {
        println!("{name} is not installed, and not measured\n");
        return Ok(goals);
    }
    println!(
        "{name} over the library: ratios, then milliseconds, with a process for each problem,"
    );
    println!("and with one process for all of them, by push and pop\n");
    let columns = format!("{:>9} {:>9} {:>9} {:>9} {:>8}", "each", "one", "each", "one", "agreed");
    println!("{:28} {columns}", "per problem");
    for one in measured.iter().filter(|one| one.family.decided) {
        let times = solvers::times(solver, &one.family.problems)?;
        let ratios = [times.each, times.together].map(|time| ratio([time, one.times[0]]));
        for (goal, ratio) in goals.iter_mut().zip(ratios) {
            goal.note(ratio, one.family.name);
        }
        print_solver(one.family.name, ratios, &times);
    }
    println!();
    Ok(goals)
}

fn print_solver(name: &str, [each, together]: [f64; 2], times: &solvers::Times) {
    println!(
        "{name:28} {each:>9.0} {together:>9.0} {:>9.3} {:>9.3} {:>8}",
        milli(times.each),
        milli(times.together),
        format!("{}/{}", times.agreed, solvers::PROBLEMS)
    );
}
