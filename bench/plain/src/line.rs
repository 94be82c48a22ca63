//! One row by itself, on the stack: its nonzero columns only.

use crate::fraction::Fraction;
use crate::table::{COLUMNS, CONSTANT};

/// A nonzero column of a row.
#[derive(Clone, Copy)]
pub struct Cell {
    pub column: u8,
    pub value: Fraction,
}

/// The nonzero columns of a row, columns rising. It is made once and used
/// for one merge after the other.
pub struct Line {
    cells: [Cell; COLUMNS],
    length: usize,
}

impl Line {
    /// The row of zeros.
    pub fn new() -> Line {
        Line { cells: [Cell { column: 0, value: Fraction::ZERO }; COLUMNS], length: 0 }
    }

    /// Makes every column zero.
    #[inline]
    pub fn clear(&mut self) {
        self.length = 0;
    }

    /// Adds a column above all columns so far, if its value is not zero.
    #[inline]
    pub fn push(&mut self, column: usize, value: Fraction) {
        if !value.is_zero() {
            self.cells[self.length] = Cell { column: column as u8, value };
            self.length += 1;
        }
    }

    /// The nonzero columns.
    #[inline]
    pub fn cells(&self) -> &[Cell] {
        &self.cells[..self.length]
    }

    /// Takes out the highest term with a nonzero coefficient, if there is one.
    pub fn take_highest_term(&mut self) -> Option<Cell> {
        let is_term = |cell: &Cell| usize::from(cell.column) < CONSTANT;
        let place = self.cells().iter().rposition(is_term)?;
        let highest = self.cells[place];
        self.cells.copy_within(place + 1..self.length, place);
        self.length -= 1;
        Some(highest)
    }

    /// Divides every column by a coefficient and negates it; nothing if one
    /// is outside the limits.
    ///
    /// A reciprocal is always within the limits, so that dividing is
    /// multiplying by it.
    pub fn divide_and_negate(&mut self, coefficient: Fraction) -> Option<()> {
        let factor = coefficient.reciprocal().negated();
        for cell in &mut self.cells[..self.length] {
            cell.value = cell.value.times(factor)?;
        }
        Some(())
    }
}
