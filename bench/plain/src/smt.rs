//! A problem as SMT-LIB 2 (QF_UFLRA), for a solver's opinion.
//!
//! Two questions are asked: whether the assumptions alone can hold (`unsat`
//! means contradictory), then whether they can hold with the goal denied
//! (`unsat` means entailed).
//!
//! Whether the record is sound is asked of the decider's reader. The fields
//! are taken from the record once more, so that a fault in decoding them
//! would show.

use crate::problem::Problem;
use std::collections::BTreeSet;

/// The fields of a term record as they stand there.
struct Fields {
    kind: u64,
    symbol: u64,
    inputs: [u64; 3],
    mantissa: i16,
    shift: u64,
}

impl Fields {
    fn of(record: &[u8; 8]) -> Fields {
        let bits = u64::from_be_bytes(*record);
        let byte = |place: u32| bits >> place & 0xFF;
        Fields {
            kind: bits >> 60,
            symbol: byte(52),
            inputs: [byte(44), byte(36), byte(28)],
            mantissa: (bits >> 12) as i16,
            shift: bits >> 8 & 0xF,
        }
    }

    /// The inputs of a lookup; none for other kinds.
    fn lookup_inputs(&self) -> &[u64] {
        &self.inputs[..self.kind.saturating_sub(5) as usize]
    }
}

/// The problem as SMT-LIB 2; for a refused record a comment that says so.
pub fn script(bytes: &[u8]) -> String {
    match Problem::read(bytes) {
        Ok(problem) => questions(bytes, &problem),
        Err((number, place)) => format!("; refused {number} {place}\n"),
    }
}

fn questions(bytes: &[u8], problem: &Problem) -> String {
    let records = bytes[4..].as_chunks().0;
    let terms: Vec<Fields> = records[..problem.terms().len()].iter().map(Fields::of).collect();
    let mut text = String::from("(set-logic QF_UFLRA)\n");
    text.push_str(&functions(&terms));
    for (number, term) in terms.iter().enumerate() {
        text.push_str(&definition(number, term));
    }
    for pair in problem.pairs {
        text.push_str(&format!("(assert {})\n", equality(pair)));
    }
    text.push_str("(check-sat)\n(push 1)\n");
    text.push_str(&format!("(assert (not {}))\n", equality(&problem.goal)));
    text.push_str("(check-sat)\n(pop 1)\n");
    text
}

/// A declaration for each function, in order of kind and symbol.
fn functions(terms: &[Fields]) -> String {
    let lookups = terms.iter().filter(|term| term.kind >= 6);
    let functions: BTreeSet<_> = lookups.map(|lookup| (lookup.kind, lookup.symbol)).collect();
    let declared = functions.into_iter().map(|(kind, symbol)| {
        let inputs = vec!["Real"; kind as usize - 5].join(" ");
        format!("(declare-fun f{kind}_{symbol} ({inputs}) Real)\n")
    });
    declared.collect()
}

/// A term's declaration, and what it is unless it is a variable. (A definition
/// by `define-fun` would be written out by some solvers, to any size.)
fn definition(number: usize, term: &Fields) -> String {
    let [first, second, _] = term.inputs;
    let declaration = format!("(declare-const t{number} Real)\n");
    let meaning = match term.kind {
        1 => return declaration,
        2 => rational(term),
        3 => format!("(* {} t{first})", rational(term)),
        4 => format!("(+ t{first} t{second})"),
        5 => format!("(- t{first} t{second})"),
        _ => application(term),
    };
    format!("{declaration}(assert (= t{number} {meaning}))\n")
}

fn application(term: &Fields) -> String {
    let inputs: Vec<String> =
        term.lookup_inputs().iter().map(|input| format!("t{input}")).collect();
    format!("(f{}_{} {})", term.kind, term.symbol, inputs.join(" "))
}

/// mantissa / 2^shift.
fn rational(term: &Fields) -> String {
    let size = format!("(/ {}.0 {}.0)", term.mantissa.unsigned_abs(), 1u32 << term.shift);
    if term.mantissa < 0 {
        format!("(- {size})")
    } else {
        size
    }
}

fn equality([left, right]: &[u8; 2]) -> String {
    format!("(= t{left} t{right})")
}

#[cfg(test)]
mod tests {
    use super::script;
    use crate::cases::CASE_A;

    #[test]
    fn case_a() {
        let want = "(set-logic QF_UFLRA)\n\
                    (declare-fun f6_7 (Real) Real)\n\
                    (declare-const t0 Real)\n\
                    (declare-const t1 Real)\n\
                    (assert (= t1 (* (- (/ 1.0 8.0)) t0)))\n\
                    (declare-const t2 Real)\n\
                    (assert (= t2 (f6_7 t1)))\n\
                    (declare-const t3 Real)\n\
                    (assert (= t3 (/ 3.0 2.0)))\n\
                    (assert (= t2 t3))\n\
                    (check-sat)\n\
                    (push 1)\n\
                    (assert (not (= t1 t2)))\n\
                    (check-sat)\n\
                    (pop 1)\n";
        assert_eq!(script(&CASE_A), want);
    }

    #[test]
    fn refused_records_are_a_comment() {
        assert_eq!(script(&CASE_A[..9]), "; refused 4 0\n");
        assert_eq!(script(&[]), "; refused 2 0\n");
    }
}
