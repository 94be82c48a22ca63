//! The run: build the rows, close, then merge each assumption and close again.

use crate::closing::Closing;
use crate::fraction::Fraction;
use crate::line::Line;
use crate::problem::{Problem, Term};
use crate::table::{FoldFault, Table, CONSTANT};

/// The step of the run in which a number left the limits. No answer shows
/// it; it is there to see what a test input reaches.
#[derive(Clone, Copy, PartialEq, Eq, Debug)]
pub enum Step {
    /// A gain's product while the rows were built.
    BuildProduct,
    /// A sum or difference while the rows were built.
    BuildSum,
    /// The difference of a merge's two rows.
    Difference,
    /// The quotient by the coefficient that is solved for.
    Quotient,
    /// The product of a fold.
    FoldProduct,
    /// The sum of a fold.
    FoldSum,
}

/// Why a run ends without a table.
#[derive(Clone, Copy, PartialEq, Eq, Debug)]
pub enum Stop {
    /// A merge's difference is a constant that is not zero.
    Contradictory,
    /// A number left the limits while the rows were built or an assumption merged.
    Limit(Step),
    /// A number left the limits in closing.
    LimitInClosing(Step),
}

impl Stop {
    /// The same, found in closing.
    fn in_closing(self) -> Stop {
        match self {
            Stop::Limit(step) => Stop::LimitInClosing(step),
            other => other,
        }
    }
}

/// A run under way.
pub struct Run<'p, 't, 'l> {
    problem: &'p Problem<'p>,
    table: &'t mut Table<'l>,
    closing: Closing,
    /// The difference, then the solution, of the merge under way.
    line: Line,
    solved: u32,
}

impl<'p, 't, 'l> Run<'p, 't, 'l> {
    /// Goes through the whole run on a table of zeros. Answers the number of
    /// unknowns solved, or why and at which assumption (from 1) it stopped.
    pub fn complete(problem: &'p Problem, table: &'t mut Table<'l>) -> Result<u32, (Stop, u32)> {
        let closing = Closing::new(problem);
        let mut run = Run { problem, table, closing, line: Line::new(), solved: 0 };
        run.start().map_err(|stop| (stop, 0))?;
        for (place, &[left, right]) in (1..).zip(problem.pairs) {
            run.assume(left.into(), right.into()).map_err(|stop| (stop, place))?;
        }
        Ok(run.solved)
    }

    /// Builds the rows and closes.
    fn start(&mut self) -> Result<(), Stop> {
        for (row, term) in self.problem.terms().iter().enumerate() {
            self.build(row, *term).map_err(Stop::Limit)?;
        }
        self.close()
    }

    /// Builds the row of a term from the rows before it.
    fn build(&mut self, row: usize, term: Term) -> Result<(), Step> {
        let table = &mut *self.table;
        match term {
            Term::Variable | Term::Lookup(_) => table.set(row, row, Fraction::ONE),
            Term::Constant(value) => table.set(row, CONSTANT, value),
            Term::Gain(factor, of) => {
                table.set_multiple(row, factor, of.into()).ok_or(Step::BuildProduct)?;
            }
            Term::Sum(one, other) => {
                table.set_sum(row, one.into(), other.into()).ok_or(Step::BuildSum)?;
            }
            Term::Difference(one, other) => {
                table.set_difference(row, one.into(), other.into()).ok_or(Step::BuildSum)?;
            }
        }
        Ok(())
    }

    /// Merges the sides of an assumption and closes.
    fn assume(&mut self, left: usize, right: usize) -> Result<(), Stop> {
        self.merge(left, right)?;
        self.close()
    }

    /// Merges congruent lookups until there are none.
    fn close(&mut self) -> Result<(), Stop> {
        while let Some((first, second)) = self.closing.next_pair(self.problem, self.table) {
            self.merge(first, second).map_err(Stop::in_closing)?;
        }
        Ok(())
    }

    /// Makes two rows equal by solving for the highest term of their
    /// difference and folding the solution into every row.
    fn merge(&mut self, one: usize, other: usize) -> Result<(), Stop> {
        let difference = self.table.difference(one, other, &mut self.line);
        difference.ok_or(Stop::Limit(Step::Difference))?;
        let Some(highest) = self.line.take_highest_term() else {
            let is_zero = self.line.cells().is_empty();
            return if is_zero { Ok(()) } else { Err(Stop::Contradictory) };
        };
        let solution = self.line.divide_and_negate(highest.value);
        solution.ok_or(Stop::Limit(Step::Quotient))?;
        let changed = self.fold(highest.column.into()).map_err(Stop::Limit)?;
        self.closing.rows_changed(changed);
        self.solved += 1;
        Ok(())
    }

    /// Folds the solution for `unknown` into every row that has it, and
    /// answers those rows. A row has no term above its own number.
    fn fold(&mut self, unknown: usize) -> Result<u64, Step> {
        let mut changed = 0;
        for row in unknown..self.problem.terms().len() {
            if let Some(factor) = self.table.coefficient(row, unknown) {
                self.table.fold(row, unknown, factor, &self.line).map_err(step_of)?;
                changed |= 1 << row;
            }
        }
        Ok(changed)
    }
}

fn step_of(fault: FoldFault) -> Step {
    match fault {
        FoldFault::Product => Step::FoldProduct,
        FoldFault::Sum => Step::FoldSum,
    }
}
