//! Document 01's run once more, as literally as it can be written: every
//! column of every row, every pair at every closing, wide numbers, Euclid's
//! rule. Slow, and only there to test the fast one.

use plain::{Answer, COLUMNS, PLACES, ROWS};

/// A numerator and a denominator.
type Fraction = (i128, i128);
type Row = Vec<Fraction>;

/// Why a run ends.
enum Stop {
    Contradictory,
    Range,
}

/// A term record's fields.
#[derive(Clone, Copy, Default)]
struct Fields {
    kind: u64,
    symbol: u64,
    inputs: [usize; 3],
    mantissa: i128,
    shift: u32,
    padding: u64,
}

const LIMIT: i128 = 2_147_483_647;

fn euclid(a: i128, b: i128) -> i128 {
    if b == 0 {
        a
    } else {
        euclid(b, a % b)
    }
}

/// A number in lowest terms, tested.
fn tested(num: i128, den: i128) -> Result<Fraction, Stop> {
    let divisor = euclid(num.abs(), den.abs()) * den.signum();
    let (num, den) = (num / divisor, den / divisor);
    if num.abs() > LIMIT || den > LIMIT {
        return Err(Stop::Range);
    }
    Ok((num, den))
}

fn product((a, b): Fraction, (c, d): Fraction) -> Result<Fraction, Stop> {
    tested(a * c, b * d)
}

fn quotient((a, b): Fraction, (c, d): Fraction) -> Result<Fraction, Stop> {
    tested(a * d, b * c)
}

fn sum((a, b): Fraction, (c, d): Fraction) -> Result<Fraction, Stop> {
    tested(a * d + c * b, b * d)
}

fn difference((a, b): Fraction, (c, d): Fraction) -> Result<Fraction, Stop> {
    tested(a * d - c * b, b * d)
}

/// Takes fields off a list of bytes, most significant bit first.
struct Cursor<'a> {
    bytes: &'a [u8],
    bit: usize,
}

impl Cursor<'_> {
    fn field(&mut self, width: usize) -> u64 {
        let mut value = 0;
        for _ in 0..width {
            let bit = self.bytes[self.bit / 8] >> (7 - self.bit % 8) & 1;
            value = value << 1 | u64::from(bit);
            self.bit += 1;
        }
        value
    }
}

fn fields(cursor: &mut Cursor) -> Fields {
    let kind = cursor.field(4);
    let symbol = cursor.field(8);
    let inputs = [0; 3].map(|_: usize| cursor.field(8) as usize);
    let mantissa = i128::from(cursor.field(16));
    let mantissa = if mantissa >= 32_768 { mantissa - 65_536 } else { mantissa };
    let shift = cursor.field(4) as u32;
    Fields { kind, symbol, inputs, mantissa, shift, padding: cursor.field(8) }
}

fn is_faulty(f: &Fields, number: usize) -> bool {
    let (symbol, inputs, amount) = match f.kind {
        1 => (true, 0, false),
        2 => (false, 0, true),
        3 => (false, 1, true),
        4 | 5 => (false, 2, false),
        6 => (true, 1, false),
        7 => (true, 2, false),
        8 => (true, 3, false),
        _ => return true,
    };
    !symbol && f.symbol != 0
        || !amount && (f.mantissa != 0 || f.shift != 0)
        || f.padding != 0
        || f.inputs[..inputs].iter().any(|&input| input >= number)
        || f.inputs[inputs..].iter().any(|&input| input != 0)
}

/// A row from what each of its columns is, columns rising.
fn by_column(column: impl Fn(usize) -> Result<Fraction, Stop>) -> Result<Row, Stop> {
    (0..COLUMNS).map(column).collect()
}

struct Run {
    terms: Vec<Fields>,
    /// The order in which closing looks at pairs of lookups.
    pairs: Vec<(usize, usize)>,
    rows: Vec<Row>,
    solved: u32,
}

impl Run {
    fn build(&mut self) -> Result<(), Stop> {
        for (number, f) in self.terms.clone().iter().enumerate() {
            let amount = tested(f.mantissa, 1 << f.shift)?;
            let row = match f.kind {
                2 => by_column(|c| Ok(if c == 64 { amount } else { (0, 1) })),
                3 => by_column(|c| product(amount, self.input(f, 0)[c])),
                4 => by_column(|c| sum(self.input(f, 0)[c], self.input(f, 1)[c])),
                5 => by_column(|c| difference(self.input(f, 0)[c], self.input(f, 1)[c])),
                _ => by_column(|c| Ok(if c == number { (1, 1) } else { (0, 1) })),
            };
            self.rows.push(row?);
        }
        Ok(())
    }

    fn input(&self, term: &Fields, place: usize) -> &Row {
        &self.rows[term.inputs[place]]
    }

    fn merge(&mut self, left: usize, right: usize) -> Result<(), Stop> {
        let mut row = by_column(|c| difference(self.rows[left][c], self.rows[right][c]))?;
        let Some(unknown) = (0..64).rev().find(|&c| row[c].0 != 0) else {
            return if row[64].0 == 0 { Ok(()) } else { Err(Stop::Contradictory) };
        };
        for c in (0..COLUMNS).filter(|&c| c != unknown) {
            let (num, den) = quotient(row[c], row[unknown])?;
            row[c] = (-num, den);
        }
        for target in &mut self.rows {
            let k = target[unknown];
            if k.0 == 0 {
                continue;
            }
            target[unknown] = (0, 1);
            for c in (0..COLUMNS).filter(|&c| c != unknown) {
                target[c] = sum(target[c], product(k, row[c])?)?;
            }
        }
        self.solved += 1;
        Ok(())
    }

    fn is_congruent(&self, i: usize, j: usize) -> bool {
        let (one, other) = (&self.terms[i], &self.terms[j]);
        one.kind >= 6
            && one.kind == other.kind
            && one.symbol == other.symbol
            && (0..one.kind as usize - 5)
                .all(|place| self.rows[one.inputs[place]] == self.rows[other.inputs[place]])
    }

    fn close(&mut self) -> Result<(), Stop> {
        while let Some(&(i, j)) = self
            .pairs
            .iter()
            .find(|&&(i, j)| self.is_congruent(i, j) && self.rows[i] != self.rows[j])
        {
            self.merge(i, j)?;
        }
        Ok(())
    }
}

/// The record's fields and pairs (the goal first), or number and place.
type Parts = (Vec<Fields>, Vec<[usize; 2]>);

fn read(bytes: &[u8]) -> Result<Parts, (u8, u32)> {
    if bytes.len() < 4 {
        return Err((2, 0));
    }
    let mut cursor = Cursor { bytes, bit: 0 };
    let (n, m) = (cursor.field(8) as usize, cursor.field(8) as usize);
    if !(1..=64).contains(&n) || m > 64 {
        return Err((3, 0));
    }
    if bytes.len() != 4 + 8 * n + 2 * m {
        return Err((4, 0));
    }
    let goal = [cursor.field(8) as usize, cursor.field(8) as usize];
    let terms: Vec<_> = (0..n).map(|_| fields(&mut cursor)).collect();
    if let Some(term) = (0..n).find(|&term| is_faulty(&terms[term], term)) {
        return Err((5, term as u32));
    }
    let mut pairs = vec![goal];
    pairs.extend((0..m).map(|_| [cursor.field(8) as usize, cursor.field(8) as usize]));
    if let Some(pair) = pairs.iter().position(|pair| pair.iter().any(|&side| side >= n)) {
        return Err((6, pair as u32));
    }
    Ok((terms, pairs))
}

/// Decides as document 01 says: the smallest second lookup first.
pub fn decide(bytes: &[u8], nums: &mut [i32], dens: &mut [i32]) -> Answer {
    decide_in_order(bytes, nums, dens, false)
}

/// Decides with the largest second lookup first, which is wrong.
pub fn decide_backwards(bytes: &[u8], nums: &mut [i32], dens: &mut [i32]) -> Answer {
    decide_in_order(bytes, nums, dens, true)
}

fn decide_in_order(bytes: &[u8], nums: &mut [i32], dens: &mut [i32], backwards: bool) -> Answer {
    if nums.len() < PLACES || dens.len() < PLACES {
        return Answer::Refused { number: 1, place: 0 };
    }
    let (terms, pairs) = match read(bytes) {
        Ok(parts) => parts,
        Err((number, place)) => return Answer::Refused { number, place },
    };
    let mut order: Vec<_> = (0..terms.len()).flat_map(|j| (0..j).map(move |i| (i, j))).collect();
    if backwards {
        order.reverse();
    }
    let mut run = Run { terms, pairs: order, rows: Vec::new(), solved: 0 };
    let mut end = run.build().and_then(|()| run.close());
    let mut place = 0;
    while end.is_ok() && place + 1 < pairs.len() {
        place += 1;
        let [left, right] = pairs[place];
        end = run.merge(left, right).and_then(|()| run.close());
    }
    nums[..PLACES].fill(0);
    dens[..PLACES].fill(if end.is_ok() { 1 } else { 0 });
    let place = place as u32;
    match end {
        Err(Stop::Contradictory) => Answer::Contradictory { place },
        Err(Stop::Range) => Answer::Refused { number: 7, place },
        Ok(()) => {
            write_rows(&run.rows, nums, dens);
            let [left, right] = pairs[0];
            match run.rows[left] == run.rows[right] {
                true => Answer::Entailed { solved: run.solved },
                false => Answer::NotEntailed { solved: run.solved },
            }
        }
    }
}

fn write_rows(rows: &[Row], nums: &mut [i32], dens: &mut [i32]) {
    assert!(rows.len() <= ROWS);
    for (place, &(num, den)) in rows.iter().flatten().enumerate() {
        (nums[place], dens[place]) = (num as i32, den as i32);
    }
}
