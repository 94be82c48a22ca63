//! All comparisons of an input, of a block of inputs and of arbitrary lists.

use crate::deciding::{self, Bench};
use crate::inputs::{Family, BLOCK};
use crate::lending::{Lists, Noise, ENOUGH, SHORT};
use crate::listing::{self, fill_with_fractions, spoil, Asked, Pages, Request};
use crate::sides::{Side, Told};
use crate::tally::Tally;
use plain::gen::Random;
use plain::{PLACES, ROWS};

/// An input on which something differs.
pub struct Fault {
    /// The input's family and index.
    pub name: String,
    /// The input: a byte string, or both lists as they are in memory.
    pub bytes: Vec<u8>,
    /// What differs.
    pub what: String,
}

/// Compares two sides, one input after the other.
pub struct Checker<'n> {
    sides: [Side; 2],
    seed: u64,
    noise: &'n Noise,
    bench: Bench,
    pages: Pages,
    /// What was reached so far.
    pub tally: Tally,
}

impl<'n> Checker<'n> {
    /// A checker of two sides.
    pub fn new(sides: [Side; 2], seed: u64, noise: &'n Noise) -> Checker<'n> {
        let (bench, pages, tally) = Default::default();
        Checker { sides, seed, noise, bench, pages, tally }
    }

    /// Compares the inputs of a block: from `start` on, as many as a block has
    /// or the family has left.
    pub fn block(&mut self, family: &Family, start: u64) -> Result<(), Fault> {
        let mut first_decided = None;
        for index in start..family.count.min(start + BLOCK) {
            let bytes = (family.make)(self.seed, index);
            let compared = self
                .input(&bytes, index)
                .and_then(|told| self.same(told, &mut first_decided, family.same));
            if let Err(what) = compared {
                return Err(Fault { name: format!("{}-{index}", family.name), bytes, what });
            }
        }
        Ok(())
    }

    /// Compares everything of one input: a decision over lists that are too
    /// short, one over lists that are long enough, and rows of what it leaves.
    pub fn input(&mut self, bytes: &[u8], index: u64) -> Result<Told, String> {
        let mut random = Random::new("input", self.seed, index);
        self.noise.fill(&mut self.bench.before, random.bits());
        for lengths in [random.pick(&SHORT), random.pick(&ENOUGH)] {
            let told = deciding::compare(self.sides, bytes, lengths, &mut self.bench)?;
            self.tally.decision(told, bytes);
            if lengths.suffice() {
                self.rows(told, bytes, &mut random)?;
                return Ok(told);
            }
        }
        Err("no lengths were enough".to_string())
    }

    /// Compares the listing of what a decision left: the rows of a table's
    /// terms and the one behind them, some rows of other lists, a spoiled row,
    /// and a row that there is not.
    fn rows(&mut self, told: Told, bytes: &[u8], random: &mut Random) -> Result<(), String> {
        let behind = if told.word <= 1 { usize::from(bytes[0]) + 1 } else { 2 };
        let rows = 0..behind.min(ROWS);
        let mut asked: Vec<Asked> =
            rows.map(|row| self.asked(Request::of_row(row, random), random)).collect();
        asked.push(self.asked(Request::of_none(random), random));
        self.list(&asked)?;
        let row = random.below(ROWS);
        spoil(&mut self.bench.first, row, random);
        let spoiled = self.list(&[self.asked(Request::of_row(row, random), random)]);
        // The second side's lists were the same and were not spoiled.
        self.bench.first.set(&self.bench.second);
        spoiled
    }

    /// A request, with noise for its buffer.
    fn asked(&self, request: Request, random: &mut Random) -> Asked<'n> {
        (request, self.noise.buffer(request.length, random.bits()))
    }

    /// Compares the listing of rows of the first side's lists.
    fn list(&mut self, asked: &[Asked]) -> Result<(), String> {
        let listed = listing::compare(self.sides, &self.bench.first, asked, &mut self.pages)?;
        for (&(request, _), listed) in asked.iter().zip(listed) {
            self.tally.row(listed, request);
        }
        Ok(())
    }

    /// Compares the listing of lists that no decision left.
    pub fn arbitrary_lists(&mut self, index: u64) -> Result<(), Fault> {
        let mut random = Random::new("lists", self.seed, index);
        fill_with_fractions(&mut self.bench.first, &mut random);
        for row in 0..ROWS {
            if random.chance(20) {
                spoil(&mut self.bench.first, row, &mut random);
            }
            let requests = [Request::of_row(row, &mut random), Request::of_none(&mut random)];
            let asked = requests.map(|request| self.asked(request, &mut random));
            if let Err(what) = self.list(&asked) {
                let bytes = self.bench.first.bytes();
                return Err(Fault { name: format!("lists-{index}"), bytes, what });
            }
        }
        Ok(())
    }

    /// Holds an answer and the lists to those of the first input of the block
    /// that was not refused, where all of them say the same.
    fn same(
        &self,
        told: Told,
        first: &mut Option<(Told, Lists)>,
        expected: bool,
    ) -> Result<(), String> {
        if !expected || told.word == 3 {
            return Ok(());
        }
        let (told, lists) = (without_place(told), &self.bench.first);
        let Some((other, others)) = first else {
            *first = Some((told, lists.clone()));
            return Ok(());
        };
        let same = told == *other
            && lists.nums[..PLACES] == others.nums[..PLACES]
            && lists.dens[..PLACES] == others.dens[..PLACES];
        same.then_some(()).ok_or(format!("{told:?}, and {other:?} of the same in another order"))
    }
}

/// An answer as far as it is the same for the same problem: the place of a
/// contradiction names an assumption by its position.
fn without_place(told: Told) -> Told {
    match told.word {
        2 => Told { figure: 0, ..told },
        _ => told,
    }
}
