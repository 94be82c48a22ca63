//! The goals, and whether they are met.

/// A goal that every family has to meet: the measured number that is furthest
/// from it decides.
pub struct Goal {
    what: String,
    unit: &'static str,
    bound: Bound,
    decisive: Option<(f64, String)>,
}

/// What a number is held to.
#[derive(Clone, Copy)]
pub enum Bound {
    /// It may be at most this.
    Most(f64),
    /// It has to be at least this.
    Least(f64),
}

impl Goal {
    /// A goal for which nothing is measured yet.
    pub fn new(what: impl Into<String>, bound: Bound, unit: &'static str) -> Goal {
        Goal { what: what.into(), unit, bound, decisive: None }
    }

    /// Notes what was measured, and of what.
    pub fn note(&mut self, number: f64, of: impl Into<String>) {
        let further = |other: f64| match self.bound {
            Bound::Most(_) => number > other,
            Bound::Least(_) => number < other,
        };
        if self.decisive.as_ref().is_none_or(|(other, _)| further(*other)) {
            self.decisive = Some((number, of.into()));
        }
    }

    /// Prints the goal, and what was measured if anything was.
    pub fn print(&self) {
        let (what, unit) = (&self.what, self.unit);
        let Some((number, of)) = &self.decisive else {
            return println!("{:10} {what}", "unmeasured");
        };
        let (met, bound) = match self.bound {
            Bound::Most(most) => (*number <= most, format!("at most {most}")),
            Bound::Least(least) => (*number >= least, format!("at least {least}")),
        };
        let met = if met { "met" } else { "NOT MET" };
        println!("{met:10} {what}: {bound}{unit}; it is {number:.2}{unit} ({of})");
    }
}
