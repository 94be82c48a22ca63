//! Deciding a problem record.

use crate::problem::Problem;
use crate::run::{Run, Step, Stop};
use crate::table::{grid_mut, Table, COLUMNS, ROWS};

/// What comes back for a problem.
#[derive(Clone, Copy, PartialEq, Eq, Debug)]
pub enum Answer {
    /// The assumptions force the goal.
    Entailed {
        /// The unknowns solved.
        solved: u32,
    },
    /// They do not force it.
    NotEntailed {
        /// The unknowns solved.
        solved: u32,
    },
    /// They cannot all hold.
    Contradictory {
        /// The assumption that showed it, from 1.
        place: u32,
    },
    /// No decision.
    Refused {
        /// Document 01's number, 1 to 7.
        number: u8,
        /// Document 01's place.
        place: u32,
    },
}

const SPACE: u8 = 1;
const RANGE: u8 = 7;

/// Decides a problem. Both lists are left as document 01 says; they need
/// 4,160 places each.
pub fn decide(bytes: &[u8], nums: &mut [i32], dens: &mut [i32]) -> Answer {
    decide_or_stop(bytes, nums, dens).unwrap_or_else(|(stop, place)| match stop {
        Stop::Contradictory => Answer::Contradictory { place },
        Stop::Limit(_) | Stop::LimitInClosing(_) => Answer::Refused { number: RANGE, place },
    })
}

/// Where the run of a problem leaves the limits.
#[derive(Clone, Copy, PartialEq, Eq, Debug)]
pub struct Limit {
    /// The step that made the number.
    pub step: Step,
    /// Whether the step was one of closing.
    pub closing: bool,
}

/// Where the run of a problem leaves the limits, if it does.
pub fn limit_reached(bytes: &[u8]) -> Option<Limit> {
    let (mut nums, mut dens) = ([0; ROWS * COLUMNS], [0; ROWS * COLUMNS]);
    match decide_or_stop(bytes, &mut nums, &mut dens) {
        Err((Stop::Limit(step), _)) => Some(Limit { step, closing: false }),
        Err((Stop::LimitInClosing(step), _)) => Some(Limit { step, closing: true }),
        _ => None,
    }
}

fn decide_or_stop(bytes: &[u8], nums: &mut [i32], dens: &mut [i32]) -> Result<Answer, (Stop, u32)> {
    let (Some(nums), Some(dens)) = (grid_mut(nums), grid_mut(dens)) else {
        return Ok(Answer::Refused { number: SPACE, place: 0 });
    };
    let problem = match Problem::read(bytes) {
        Ok(problem) => problem,
        Err((number, place)) => return Ok(Answer::Refused { number, place }),
    };
    let mut table = Table::new(nums, dens);
    match Run::complete(&problem, &mut table) {
        Ok(solved) => Ok(word(&problem, &table, solved)),
        Err(stop) => {
            table.wipe();
            Err(stop)
        }
    }
}

/// Entailed if the goal's rows are equal.
fn word(problem: &Problem, table: &Table, solved: u32) -> Answer {
    let [left, right] = problem.goal;
    if table.are_equal(left.into(), right.into()) {
        Answer::Entailed { solved }
    } else {
        Answer::NotEntailed { solved }
    }
}
