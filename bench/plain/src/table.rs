//! The table of rows, kept in the two lists that the caller lends.

use crate::fraction::Fraction;
use crate::line::Line;

/// The number of rows.
pub const ROWS: usize = 64;
/// The number of columns: one for each term, then the constant.
pub const COLUMNS: usize = 65;
/// The places of each lent list that the table takes up.
pub const PLACES: usize = ROWS * COLUMNS;
/// The column of the constant.
pub const CONSTANT: usize = 64;

/// A list as 64 rows of 65 columns.
pub type Grid = [[i32; COLUMNS]; ROWS];

/// The front of a list as a grid; nothing if the list is too short.
pub fn grid(list: &[i32]) -> Option<&Grid> {
    list.as_chunks().0.first_chunk()
}

/// As [`grid`], to be written.
pub fn grid_mut(list: &mut [i32]) -> Option<&mut Grid> {
    list.as_chunks_mut().0.first_chunk_mut()
}

/// The numbers of the bits set in `bits`, rising.
#[inline]
pub fn members(mut bits: u64) -> impl Iterator<Item = usize> {
    std::iter::from_fn(move || {
        let lowest = bits.trailing_zeros() as usize;
        bits &= bits.wrapping_sub(1);
        (lowest < 64).then_some(lowest)
    })
}

/// The set of one term; the empty set for the constant's column.
#[inline]
fn set_of(column: usize) -> u64 {
    1u64.checked_shl(column as u32).unwrap_or(0)
}

/// The columns of a set of terms, then the constant's.
#[inline]
fn columns(terms: u64) -> impl Iterator<Item = usize> {
    members(terms).chain(std::iter::once(CONSTANT))
}

/// Which operation of a fold left the limits.
pub enum FoldFault {
    Product,
    Sum,
}

/// The rows of all terms. For each row it knows the terms whose coefficient
/// is not zero, so that nothing is done for the others.
pub struct Table<'a> {
    nums: &'a mut Grid,
    dens: &'a mut Grid,
    terms: [u64; ROWS],
}

impl<'a> Table<'a> {
    /// A table of zeros.
    pub fn new(nums: &'a mut Grid, dens: &'a mut Grid) -> Table<'a> {
        nums.as_flattened_mut().fill(0);
        dens.as_flattened_mut().fill(1);
        Table { nums, dens, terms: [0; ROWS] }
    }

    /// Leaves 0 in every place of both lists.
    pub fn wipe(self) {
        self.nums.as_flattened_mut().fill(0);
        self.dens.as_flattened_mut().fill(0);
    }

    #[inline]
    fn get(&self, row: usize, column: usize) -> Fraction {
        Fraction { num: self.nums[row][column], den: self.dens[row][column] }
    }

    /// The coefficient of `term` in `row`, if it is not zero.
    #[inline]
    pub fn coefficient(&self, row: usize, term: usize) -> Option<Fraction> {
        (self.terms[row] >> term & 1 == 1).then(|| self.get(row, term))
    }

    /// Whether two rows are equal in every column.
    #[inline]
    pub fn are_equal(&self, one: usize, other: usize) -> bool {
        one == other
            || self.terms[one] == self.terms[other]
                && self.nums[one] == self.nums[other]
                && self.dens[one] == self.dens[other]
    }

    /// Sets a place that is zero.
    #[inline]
    pub fn set(&mut self, row: usize, column: usize, value: Fraction) {
        if !value.is_zero() {
            self.nums[row][column] = value.num;
            self.dens[row][column] = value.den;
            self.terms[row] |= set_of(column);
        }
    }

    /// Sets a row of zeros to a multiple of another row; nothing if a column
    /// is outside the limits.
    pub fn set_multiple(&mut self, row: usize, factor: Fraction, of: usize) -> Option<()> {
        for column in columns(self.terms[of]) {
            self.set(row, column, factor.times(self.get(of, column))?);
        }
        Some(())
    }

    /// Sets a row of zeros to the sum of two rows; nothing if a column is
    /// outside the limits.
    pub fn set_sum(&mut self, row: usize, one: usize, other: usize) -> Option<()> {
        for column in columns(self.terms[one] | self.terms[other]) {
            self.set(row, column, self.get(one, column).plus(self.get(other, column))?);
        }
        Some(())
    }

    /// Sets a row of zeros to the difference of two rows; nothing if a column
    /// is outside the limits.
    pub fn set_difference(&mut self, row: usize, one: usize, other: usize) -> Option<()> {
        for column in columns(self.terms[one] | self.terms[other]) {
            self.set(row, column, self.get(one, column).minus(self.get(other, column))?);
        }
        Some(())
    }

    /// Makes a line the difference of two rows; nothing if a column is
    /// outside the limits.
    pub fn difference(&self, one: usize, other: usize, line: &mut Line) -> Option<()> {
        line.clear();
        for column in columns(self.terms[one] | self.terms[other]) {
            line.push(column, self.get(one, column).minus(self.get(other, column))?);
        }
        Some(())
    }

    /// Puts `solution` in place of `term` in a row where the term has the
    /// coefficient `factor`: one product and one sum for each column.
    pub fn fold(
        &mut self,
        row: usize,
        term: usize,
        factor: Fraction,
        solution: &Line,
    ) -> Result<(), FoldFault> {
        let (nums, dens) = (&mut self.nums[row], &mut self.dens[row]);
        let mut terms = self.terms[row] & !set_of(term);
        (nums[term], dens[term]) = (0, 1);
        for cell in solution.cells() {
            let column = usize::from(cell.column);
            let product = factor.times(cell.value).ok_or(FoldFault::Product)?;
            let old = Fraction { num: nums[column], den: dens[column] };
            let sum = old.plus(product).ok_or(FoldFault::Sum)?;
            (nums[column], dens[column]) = (sum.num, sum.den);
            let bit = set_of(column);
            terms = if sum.is_zero() { terms & !bit } else { terms | bit };
        }
        self.terms[row] = terms;
        Ok(())
    }
}
