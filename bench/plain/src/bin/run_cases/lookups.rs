//! Lookups of one to three inputs, repeated records, and closing.

use super::{problem, Shown};
use plain::record::Record;

const F: u8 = 7;
const G: u8 = 8;

pub fn all() -> Vec<Shown> {
    let mut all = inputs();
    all.extend(functions());
    all.extend(repeated());
    all.extend(chains());
    all.extend(contradictions());
    all
}

/// Two lookups of as many inputs, the first few of them assumed equal.
fn alike(places: usize, equal: usize) -> Shown {
    let remark = format!("two lookups of kind {}, inputs assumed equal: {equal}", 5 + places);
    problem(&remark, |r| {
        let ones: Vec<u8> = (0..places).map(|_| r.variable(0)).collect();
        let others: Vec<u8> = (0..places).map(|_| r.variable(0)).collect();
        let (one, other) = (r.lookup(F, &ones), r.lookup(F, &others));
        for place in 0..equal {
            r.assume(ones[place], others[place]);
        }
        r.goal(one, other);
    })
}

/// Equal and unequal inputs, for each number of inputs.
fn inputs() -> Vec<Shown> {
    let mut all = Vec::new();
    for places in 1..=3 {
        for equal in 0..=places {
            all.push(alike(places, equal));
        }
    }
    all.push(problem("f(x, y) and f(y, x): the inputs count by place", |r| exchanged(r, false)));
    all.push(problem("f(x, y) and f(y, x) where x = y", |r| exchanged(r, true)));
    all.push(problem("inputs are compared by row: f(x + y) and f(y + x)", |r| {
        let (x, y) = (r.variable(0), r.variable(0));
        let (one, other) = (r.sum(x, y), r.sum(y, x));
        same_lookup(r, one, other);
    }));
    all.push(problem("inputs that are equal constants: f(3/2) and f(6/4)", |r| {
        let (one, other) = (r.constant(3, 1), r.constant(6, 2));
        same_lookup(r, one, other);
    }));
    all.push(problem("f(1) and f(2): other constants, other inputs", |r| {
        let (one, other) = (r.constant(1, 0), r.constant(2, 0));
        same_lookup(r, one, other);
    }));
    all
}

/// The goal that f is the same of two terms.
fn same_lookup(r: &mut Record, one: u8, other: u8) {
    let (one, other) = (r.lookup(F, &[one]), r.lookup(F, &[other]));
    r.goal(one, other);
}

fn exchanged(r: &mut Record, equal: bool) {
    let (x, y) = (r.variable(0), r.variable(0));
    let (one, other) = (r.lookup(F, &[x, y]), r.lookup(F, &[y, x]));
    if equal {
        r.assume(x, y);
    }
    r.goal(one, other);
}

/// Which lookups are of one function: kind and symbol decide.
fn functions() -> Vec<Shown> {
    vec![
        problem("one symbol, one and two inputs: two functions", |r| {
            let x = r.variable(0);
            let (one, other) = (r.lookup(F, &[x]), r.lookup(F, &[x, x]));
            r.goal(one, other);
        }),
        problem("one symbol, two and three inputs: two functions", |r| {
            let x = r.variable(0);
            let (one, other) = (r.lookup(F, &[x, x]), r.lookup(F, &[x, x, x]));
            r.goal(one, other);
        }),
        problem("two symbols of one input: two functions", |r| {
            let x = r.variable(0);
            let (one, other) = (r.lookup(F, &[x]), r.lookup(G, &[x]));
            r.goal(one, other);
        }),
        problem("symbols 0 and 255 are symbols like any other", |r| {
            let x = r.variable(0);
            let (low, high) = (r.lookup(0, &[x]), r.lookup(255, &[x]));
            let again = r.lookup(0, &[x]);
            r.lookup(255, &[x]);
            r.assume(low, high);
            r.goal(again, high);
        }),
    ]
}

/// Records of one lookup more than once.
fn repeated() -> Vec<Shown> {
    vec![
        problem("five records of f(x) are one value", |r| {
            let x = r.variable(0);
            let lookups: Vec<u8> = (0..5).map(|_| r.lookup(F, &[x])).collect();
            r.goal(lookups[0], lookups[4]);
        }),
        problem("f of two records of f(x), without an assumption", |r| {
            let x = r.variable(0);
            let (one, other) = (r.lookup(F, &[x]), r.lookup(F, &[x]));
            same_lookup(r, one, other);
        }),
        problem("two records of f(x), each with a gain, that add up", |r| {
            let x = r.variable(0);
            let (one, other) = (r.lookup(F, &[x]), r.lookup(F, &[x]));
            let (half, part) = (r.gain(1, 1, one), r.gain(-3, 1, other));
            let (sum, minus) = (r.sum(half, part), r.gain(-1, 0, one));
            r.goal(sum, minus);
        }),
    ]
}

fn chains() -> Vec<Shown> {
    vec![
        problem("x = y closes six times: f to the sixth of both", |r| {
            let (x, y) = (r.powers(F, 7), r.powers(F, 7));
            r.assume(x[0], y[0]);
            r.goal(x[6], y[6]);
        }),
        problem("six and four times f are x, so two times f is", |r| {
            let f = r.powers(F, 7);
            r.assume(f[6], f[0]);
            r.assume(f[4], f[0]);
            r.goal(f[2], f[0]);
        }),
        problem("six and four times f are x: once f is not forced", |r| {
            let f = r.powers(F, 7);
            r.assume(f[6], f[0]);
            r.assume(f[4], f[0]);
            r.goal(f[1], f[0]);
        }),
        problem("f(x) = x + 1 and f(x + 1) = x: f(f(x)) = x", |r| {
            let (x, one) = (r.variable(0), r.constant(1, 0));
            let next = r.sum(x, one);
            let (f_x, f_next) = (r.lookup(F, &[x]), r.lookup(F, &[next]));
            let twice = r.lookup(F, &[f_x]);
            r.assume(f_x, next);
            r.assume(f_next, x);
            r.goal(twice, x);
        }),
        problem("from 2x = y + y follows g(x, f(y)) = g(y, f(x))", |r| {
            let (x, y) = (r.variable(0), r.variable(0));
            let (doubled, sum) = (r.gain(2, 0, x), r.sum(y, y));
            let (f_x, f_y) = (r.lookup(F, &[x]), r.lookup(F, &[y]));
            let (one, other) = (r.lookup(G, &[x, f_y]), r.lookup(G, &[y, f_x]));
            r.assume(doubled, sum);
            r.goal(one, other);
        }),
    ]
}

/// Lookups of x and of y, each of the one before, that are 1 and 2 where x = y.
fn opposed(remark: &str, symbols: &[u8]) -> Shown {
    problem(remark, |r| {
        let (x, y) = (r.variable(0), r.variable(0));
        let (mut of_x, mut of_y) = (x, y);
        for &symbol in symbols {
            (of_x, of_y) = (r.lookup(symbol, &[of_x]), r.lookup(symbol, &[of_y]));
        }
        let (one, two) = (r.constant(1, 0), r.constant(2, 0));
        r.assume(of_x, one);
        r.assume(of_y, two);
        r.assume(x, y);
    })
}

fn contradictions() -> Vec<Shown> {
    vec![
        problem("1 = 2", |r| {
            let (one, two) = (r.constant(1, 0), r.constant(2, 0));
            r.assume(one, two);
        }),
        problem("x = x + 1", |r| {
            let (x, one) = (r.variable(0), r.constant(1, 0));
            let next = r.sum(x, one);
            r.assume(x, next);
        }),
        opposed("x = 1, y = 2, x = y: in the merge of the third", &[]),
        opposed("f(x) = 1, f(y) = 2, x = y: in the closing after the third", &[F]),
        opposed("g(f(x)) = 1, g(f(y)) = 2, x = y: two steps into the closing", &[F, G]),
        problem("a contradiction ends the run: what follows it is not read", |r| {
            let (x, one, two) = (r.variable(0), r.constant(1, 0), r.constant(2, 0));
            r.assume(x, one);
            r.assume(x, two);
            r.assume(x, x);
        }),
    ]
}
