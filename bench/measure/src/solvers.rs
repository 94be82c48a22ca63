//! Times of SMT solvers on the same problems.

use crate::clock;
use crate::timing::decide_once;
use differential::sides::OURS;
use differential::solver::{together, Solver};
use plain::smt;
use std::io;
use std::time::Duration;

/// How many problems of a family are put before a solver; a family with fewer
/// is repeated.
pub const PROBLEMS: usize = 40;

/// The times per problem of a solver.
pub struct Times {
    /// With a process for each problem.
    pub each: Duration,
    /// With one process for all of them, each in a scope of its own.
    pub together: Duration,
    /// On how many of them the solver's word is the library's.
    pub agreed: usize,
}

/// The times of a solver on the first problems of a family.
pub fn times(solver: &Solver, problems: &[Vec<u8>]) -> io::Result<Times> {
    let problems = problems.iter().cycle().take(PROBLEMS);
    let words = problems.clone().map(|problem| Some(decide_once(OURS, problem).word));
    let scripts: Vec<String> = problems.map(|problem| smt::script(problem)).collect();
    let start = clock::of_children();
    let said: Vec<Option<u8>> =
        scripts.iter().map(|script| solver.word(script)).collect::<io::Result<_>>()?;
    let each = (clock::of_children() - start) / PROBLEMS as u32;
    let agreed = said.into_iter().zip(words).filter(|(said, word)| said == word).count();
    let script = together(&scripts);
    let start = clock::of_children();
    solver.output(&script)?;
    let together = (clock::of_children() - start) / PROBLEMS as u32;
    Ok(Times { each, together, agreed })
}
