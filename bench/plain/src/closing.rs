//! Which lookups have still to be compared.
//!
//! Document 01 looks at all pairs of lookups again after each merge. Here
//! less is compared, and the pair that is found is the same:
//!
//! * A pair is looked at again only if a row of its inputs has changed since.
//! * A lookup found congruent to an earlier one is left out from then on.
//!   Folding keeps equal rows equal, so its inputs and its own row stay those
//!   of the earlier one, and any pair with it has a twin with the earlier one,
//!   which comes first in the document's order.

use crate::problem::{Lookup, Problem, Term};
use crate::table::{members, Table, ROWS};

/// Lookups of one, two and three inputs.
const KINDS: usize = 3;
/// The symbols that a lookup can have.
const SYMBOLS: usize = 256;

/// The pairs of lookups that may turn out congruent. Sets of lookups are bits.
pub struct Closing {
    /// Of each lookup: the earlier lookups of the same function.
    alike: [u64; ROWS],
    /// Of each term: the lookups that it is an input of.
    users: [u64; ROWS],
    /// Of each lookup: the earlier ones it has to be compared with.
    pending: [u64; ROWS],
    /// The lookups that have any to be compared with.
    waiting: u64,
    /// The lookups not yet found congruent to an earlier one.
    open: u64,
}

impl Closing {
    /// All pairs of lookups of the same function.
    pub fn new(problem: &Problem) -> Closing {
        let mut closing =
            Closing { alike: [0; ROWS], users: [0; ROWS], pending: [0; ROWS], waiting: 0, open: 0 };
        let mut latest = [[None; SYMBOLS]; KINDS];
        for (number, term) in (0..).zip(problem.terms()) {
            if let Term::Lookup(lookup) = term {
                let place = &mut latest[lookup.inputs().len() - 1][usize::from(lookup.symbol)];
                closing.add(number, lookup, place.replace(number));
            }
        }
        closing.pending = closing.alike;
        closing.waiting = closing.open;
        closing
    }

    /// Adds a lookup, given the latest one before it of the same function.
    fn add(&mut self, number: u8, lookup: &Lookup, latest: Option<u8>) {
        if let Some(latest) = latest {
            self.alike[usize::from(number)] = self.alike[usize::from(latest)] | 1 << latest;
        }
        self.open |= 1 << number;
        for &input in lookup.inputs() {
            self.users[usize::from(input)] |= 1 << number;
        }
    }

    /// The pair to merge next: equal inputs and unequal rows, with the
    /// smallest second lookup and for it the smallest first one.
    pub fn next_pair(&mut self, problem: &Problem, table: &Table) -> Option<(usize, usize)> {
        for second in members(self.waiting & self.open) {
            if let Some(first) = self.congruent_before(second, problem, table) {
                self.open &= !(1 << second);
                if !table.are_equal(first, second) {
                    return Some((first, second));
                }
            }
        }
        None
    }

    /// The smallest open lookup before `second` that is alike and has equal
    /// inputs. After this, `second` has none to be compared with.
    fn congruent_before(
        &mut self,
        second: usize,
        problem: &Problem,
        table: &Table,
    ) -> Option<usize> {
        let candidates = self.pending[second] & self.open;
        self.pending[second] = 0;
        self.waiting &= !(1 << second);
        let terms = problem.terms();
        members(candidates).find(|&first| inputs_equal(&terms[first], &terms[second], table))
    }

    /// Makes every pair pending that has an input among the changed rows.
    pub fn rows_changed(&mut self, rows: u64) {
        let touched = members(rows).fold(0, |set, row| set | self.users[row]) & self.open;
        if touched == 0 {
            return;
        }
        for lookup in members(self.open) {
            let others = if touched >> lookup & 1 == 1 { self.open } else { touched };
            let again = self.alike[lookup] & others;
            self.pending[lookup] |= again;
            self.waiting |= u64::from(again != 0) << lookup;
        }
    }
}

/// Whether two lookups of the same function have equal inputs, place by place.
fn inputs_equal(first: &Term, second: &Term, table: &Table) -> bool {
    let (Term::Lookup(first), Term::Lookup(second)) = (first, second) else {
        return false;
    };
    first
        .inputs()
        .iter()
        .zip(second.inputs())
        .all(|(&one, &other)| table.are_equal(usize::from(one), usize::from(other)))
}
