//! Document 01's cases A to O, built from their descriptions.

use crate::record::Record;

/// A case: its name, its record and the first line of its listing.
pub struct Case {
    /// The document's letter, with a number where a letter has several.
    pub name: &'static str,
    /// The problem record.
    pub bytes: Vec<u8>,
    /// Word, place and count, or refusal, number and place.
    pub first_line: &'static str,
}

/// Every case, in the document's order.
pub fn all() -> Vec<Case> {
    let case = |name, record: Record, first_line| Case { name, bytes: record.bytes(), first_line };
    vec![
        Case { name: "A", bytes: CASE_A.to_vec(), first_line: "not-entailed 0 1" },
        case("B", powers_b(), "entailed 0 3"),
        case("C", powers_c(), "entailed 0 5"),
        case("D", shifts_d(), "contradictory 3 0"),
        case("E", shifts_e(), "contradictory 3 0"),
        case("F", doubles_f(), "contradictory 4 0"),
        case("G", negations_g(), "entailed 0 4"),
        case("H", powers_h(), "not-entailed 0 6"),
        case("I", twice_i(), "entailed 0 1"),
        case("J1", eighths_j(true), "entailed 0 0"),
        case("J2", eighths_j(false), "not-entailed 0 0"),
        case("K", minus_one_k(), "entailed 0 0"),
        case("L", two_variables_l(), "not-entailed 0 0"),
        case("M1", largest_m(1), "entailed 0 0"),
        case("M2", largest_m(2), "refused 7 0"),
        case("N1", smallest_n(false), "entailed 0 0"),
        case("N2", smallest_n(true), "refused 7 0"),
        case("O1", counts_o(64, 64), "entailed 0 0"),
        case("O2", counts_o(65, 64), "refused 3 0"),
        case("O3", counts_o(64, 65), "refused 3 0"),
    ]
}

/// Case A as the document prints it.
pub const CASE_A: [u8; 38] = [
    0x04, 0x01, 0x01, 0x02, //
    0x10, 0x00, 0x00, 0x00, 0x00, 0x00, 0x00, 0x00, //
    0x30, 0x00, 0x00, 0x00, 0x0F, 0xFF, 0xF3, 0x00, //
    0x60, 0x70, 0x10, 0x00, 0x00, 0x00, 0x00, 0x00, //
    0x20, 0x00, 0x00, 0x00, 0x00, 0x00, 0x31, 0x00, //
    0x02, 0x03,
];

/// The listing of case A as the document prints it.
pub const LISTING_A: &str = "not-entailed 0 1\n\
                             0: +1*t0\n\
                             1: -1/8*t0\n\
                             2: +3/2\n\
                             3: +3/2\n";

const F: u8 = 1;

fn powers_b() -> Record {
    let mut r = Record::new();
    let f = r.powers(F, 6);
    r.assume(f[3], f[1]);
    r.goal(f[5], f[1]);
    r
}

fn powers_c() -> Record {
    let mut r = Record::new();
    let f = r.powers(F, 6);
    r.assume(f[5], f[0]);
    r.assume(f[3], f[0]);
    r.goal(f[1], f[0]);
    r
}

/// f(x-1)-1=x+1, f(y)+1=y-1, y+1=x.
fn shifts_d() -> Record {
    let mut r = Record::new();
    let (x, y, one) = (r.variable(0), r.variable(1), r.constant(1, 0));
    let x_less = r.difference(x, one);
    let f_x = r.lookup(F, &[x_less]);
    let (left, right) = (r.difference(f_x, one), r.sum(x, one));
    r.assume(left, right);
    let f_y = r.lookup(F, &[y]);
    let (left, right) = (r.sum(f_y, one), r.difference(y, one));
    r.assume(left, right);
    let y_more = r.sum(y, one);
    r.assume(y_more, x);
    r
}

/// f(v)=v, f(u)=u-1, u=v.
fn shifts_e() -> Record {
    let mut r = Record::new();
    let (u, v, one) = (r.variable(0), r.variable(1), r.constant(1, 0));
    let (f_v, f_u, u_less) = (r.lookup(F, &[v]), r.lookup(F, &[u]), r.difference(u, one));
    r.assume(f_v, v);
    r.assume(f_u, u_less);
    r.assume(u, v);
    r
}

/// f(x)=4, f(2y-x)=3, x=f(2x-y), 4x=2x+2y.
fn doubles_f() -> Record {
    let mut r = Record::new();
    let (x, y) = (r.variable(0), r.variable(1));
    let (three, four) = (r.constant(3, 0), r.constant(4, 0));
    let (x2, x4, y2) = (r.gain(2, 0, x), r.gain(4, 0, x), r.gain(2, 0, y));
    let f_x = r.lookup(F, &[x]);
    r.assume(f_x, four);
    let y2_less_x = r.difference(y2, x);
    let f_second = r.lookup(F, &[y2_less_x]);
    r.assume(f_second, three);
    let x2_less_y = r.difference(x2, y);
    let f_third = r.lookup(F, &[x2_less_y]);
    r.assume(x, f_third);
    let both = r.sum(x2, y2);
    r.assume(x4, both);
    r
}

/// z=f(x-y), x=z+y, goal -y = -(x-f(f(z))).
fn negations_g() -> Record {
    let mut r = Record::new();
    let (x, y, z) = (r.variable(0), r.variable(1), r.variable(2));
    let x_less_y = r.difference(x, y);
    let f_difference = r.lookup(F, &[x_less_y]);
    r.assume(z, f_difference);
    let z_plus_y = r.sum(z, y);
    r.assume(x, z_plus_y);
    let f_z = r.lookup(F, &[z]);
    let f_f_z = r.lookup(F, &[f_z]);
    let bracket = r.difference(x, f_f_z);
    let (left, right) = (r.gain(-1, 0, y), r.gain(-1, 0, bracket));
    r.goal(left, right);
    r
}

/// x=y, f³(x)=f(x), goal f⁴(y)=f(x).
fn powers_h() -> Record {
    let mut r = Record::new();
    let x = r.powers(F, 4);
    let y = r.powers(F, 5);
    r.assume(x[0], y[0]);
    r.assume(x[3], x[1]);
    r.goal(y[4], x[1]);
    r
}

/// Two records of f(x).
fn twice_i() -> Record {
    let mut r = Record::new();
    let x = r.variable(0);
    let (one, other) = (r.lookup(F, &[x]), r.lookup(F, &[x]));
    r.goal(one, other);
    r
}

/// Minus an eighth of t: equal to t minus 9/8 t, or to an eighth of t.
fn eighths_j(minus: bool) -> Record {
    let mut r = Record::new();
    let t = r.variable(0);
    let eighth = r.gain(-1, 3, t);
    let other = if minus {
        let nine = r.gain(9, 3, t);
        r.difference(t, nine)
    } else {
        r.gain(1, 3, t)
    };
    r.goal(eighth, other);
    r
}

/// The gain -32768 / 2^15 of t, plus t, is 0.
fn minus_one_k() -> Record {
    let mut r = Record::new();
    let t = r.variable(0);
    let gain = r.gain(-32768, 15, t);
    let (sum, zero) = (r.sum(gain, t), r.constant(0, 0));
    r.goal(sum, zero);
    r
}

fn two_variables_l() -> Record {
    let mut r = Record::new();
    let (one, other) = (r.variable(9), r.variable(9));
    r.goal(one, other);
    r
}

/// 32,767 times 32,767, doubled, plus 4 times 32,767, plus a last bit.
fn largest_m(last: i16) -> Record {
    let mut r = Record::new();
    let base = r.constant(32_767, 0);
    let square = r.gain(32_767, 0, base);
    let doubled = r.gain(2, 0, square);
    let (four_times, last) = (r.gain(4, 0, base), r.constant(last, 0));
    let added = r.sum(four_times, last);
    r.sum(doubled, added);
    r
}

/// 2^-15 of 2^-15 of a variable, and half of that.
fn smallest_n(halved: bool) -> Record {
    let mut r = Record::new();
    let x = r.variable(0);
    let once = r.gain(1, 15, x);
    let twice = r.gain(1, 15, once);
    if halved {
        r.gain(1, 1, twice);
    }
    r
}

/// As many variables and as many pairs of term 0 with itself.
fn counts_o(terms: usize, pairs: usize) -> Record {
    let mut r = Record::new();
    for _ in 0..terms {
        r.variable(0);
    }
    for _ in 0..pairs {
        r.assume(0, 0);
    }
    r
}
