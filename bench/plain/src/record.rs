//! Writing problem records, for tests and measurements.

/// A problem record in the making. Each term is answered with its number.
#[derive(Clone, Default)]
pub struct Record {
    terms: Vec<[u8; 8]>,
    pairs: Vec<[u8; 2]>,
    goal: [u8; 2],
}

/// The fields of a term record; those left out are zero.
#[derive(Clone, Copy, Default)]
struct Fields {
    kind: u8,
    symbol: u8,
    inputs: [u8; 3],
    mantissa: i16,
    shift: u8,
}

impl Fields {
    fn packed(self) -> [u8; 8] {
        let [first, second, third] = self.inputs.map(u64::from);
        let bits = u64::from(self.kind) << 60
            | u64::from(self.symbol) << 52
            | first << 44
            | second << 36
            | third << 28
            | u64::from(self.mantissa as u16) << 12
            | u64::from(self.shift) << 8;
        bits.to_be_bytes()
    }
}

impl Record {
    /// A record without terms; its goal is 0 and 0.
    pub fn new() -> Record {
        Record::default()
    }

    fn add(&mut self, fields: Fields) -> u8 {
        self.terms.push(fields.packed());
        (self.terms.len() - 1) as u8
    }

    /// A variable.
    pub fn variable(&mut self, symbol: u8) -> u8 {
        self.add(Fields { kind: 1, symbol, ..Fields::default() })
    }

    /// The constant mantissa / 2^shift.
    pub fn constant(&mut self, mantissa: i16, shift: u8) -> u8 {
        self.add(Fields { kind: 2, mantissa, shift, ..Fields::default() })
    }

    /// mantissa / 2^shift times a term.
    pub fn gain(&mut self, mantissa: i16, shift: u8, of: u8) -> u8 {
        self.add(Fields { kind: 3, mantissa, shift, inputs: [of, 0, 0], ..Fields::default() })
    }

    /// One term plus another.
    pub fn sum(&mut self, one: u8, other: u8) -> u8 {
        self.add(Fields { kind: 4, inputs: [one, other, 0], ..Fields::default() })
    }

    /// One term minus another.
    pub fn difference(&mut self, one: u8, other: u8) -> u8 {
        self.add(Fields { kind: 5, inputs: [one, other, 0], ..Fields::default() })
    }

    /// A lookup of one, two or three terms.
    pub fn lookup(&mut self, symbol: u8, of: &[u8]) -> u8 {
        let mut inputs = [0; 3];
        inputs[..of.len()].copy_from_slice(of);
        self.add(Fields { kind: 5 + of.len() as u8, symbol, inputs, ..Fields::default() })
    }

    /// A variable x, then f(x), f(f(x)) and so on: so many terms.
    pub fn powers(&mut self, symbol: u8, count: usize) -> Vec<u8> {
        let mut terms = vec![self.variable(0)];
        while terms.len() < count {
            terms.push(self.lookup(symbol, &[terms[terms.len() - 1]]));
        }
        terms
    }

    /// The record of a term once more, as a term of its own.
    pub fn repeat(&mut self, term: u8) -> u8 {
        self.terms.push(self.terms[usize::from(term)]);
        (self.terms.len() - 1) as u8
    }

    /// Assumes that two terms are equal.
    pub fn assume(&mut self, left: u8, right: u8) {
        self.pairs.push([left, right]);
    }

    /// Sets the goal.
    pub fn goal(&mut self, left: u8, right: u8) {
        self.goal = [left, right];
    }

    /// The number of terms so far.
    pub fn term_count(&self) -> usize {
        self.terms.len()
    }

    /// The number of assumptions so far.
    pub fn pair_count(&self) -> usize {
        self.pairs.len()
    }

    /// The record's bytes.
    pub fn bytes(&self) -> Vec<u8> {
        let [left, right] = self.goal;
        let mut bytes = vec![self.terms.len() as u8, self.pairs.len() as u8, left, right];
        bytes.extend_from_slice(self.terms.as_flattened());
        bytes.extend_from_slice(self.pairs.as_flattened());
        bytes
    }
}
