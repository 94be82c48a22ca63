//! The second part of what the program `try_problems` reads, and of what it has
//! to write: `families stdin` and `families stdout`.
//!
//! A line that begins with `#` is a remark, and is written as it stands. A
//! plain line is a problem in hexadecimal digits: its listing is written. A
//! line that begins with `~` is a problem to be compared with the plain one
//! before it: `same`, or where the two differ.

use plain::gen::{self, Generator, Random};
use plain::record::Record;
use plain::{decide, listing, Answer, PLACES};
use std::env;
use std::error::Error;

/// The most pairs that a problem has.
const MOST: usize = 64;

/// A problem, and others to be compared with it.
struct Family {
    name: String,
    base: Vec<u8>,
    members: Vec<Member>,
}

/// A problem with a remark on how it was made from the first of its family.
struct Member {
    remark: &'static str,
    bytes: Vec<u8>,
}

fn main() -> Result<(), Box<dyn Error>> {
    match env::args().nth(1).as_deref() {
        Some("stdin") => all().iter().for_each(|family| print!("{}", family.input())),
        Some("stdout") => all().iter().for_each(|family| print!("{}", family.output())),
        _ => return Err("families stdin|stdout".into()),
    }
    Ok(())
}

/// Cases of document 01, generated problems, and what the comparison finds
/// where there is something to find.
fn all() -> Vec<Family> {
    let mut all: Vec<Family> = CASES.iter().map(|&(name, base)| family(name, base)).collect();
    for (name, generator, wanted) in GENERATED {
        all.push(first_stable(name, generator, wanted));
    }
    all.push(no_family());
    all
}

const CASES: [(&str, &[u8]); 6] = [
    ("case B", include_bytes!("../../../../../problems/b.bin")),
    ("case C", include_bytes!("../../../../../problems/c.bin")),
    ("case D", include_bytes!("../../../../../problems/d.bin")),
    ("case F", include_bytes!("../../../../../problems/f.bin")),
    ("case G", include_bytes!("../../../../../problems/g.bin")),
    ("case H", include_bytes!("../../../../../problems/h.bin")),
];

type Wanted = fn(bytes: &[u8], answer: Answer) -> bool;

const GENERATED: [(&str, Generator, Wanted); 11] = [
    ("9 terms, entailed", gen::congruent, |b, a| b[0] == 9 && b[1] > 1 && entailed(a)),
    ("16 terms, not entailed", gen::congruent, |b, a| b[0] == 16 && b[1] > 3 && open(a)),
    ("20 terms, entailed", gen::congruent, |b, a| b[0] == 20 && b[1] > 5 && entailed(a)),
    ("24 terms, contradictory", gen::congruent, |b, a| b[0] == 24 && b[1] > 5 && contradictory(a)),
    ("32 terms, not entailed", gen::congruent, |b, a| b[0] == 32 && b[1] > 7 && open(a)),
    ("48 terms, entailed", gen::congruent, |b, a| b[0] == 48 && b[1] > 11 && entailed(a)),
    ("64 terms, 20 pairs, entailed", gen::congruent, |b, a| {
        b[0] == 64 && b[1] == 20 && entailed(a)
    }),
    ("64 terms, 20 pairs, not entailed", gen::congruent, |b, a| {
        b[0] == 64 && b[1] == 20 && open(a)
    }),
    ("64 terms, contradictory", gen::congruent, |b, a| b[0] == 64 && b[1] > 7 && contradictory(a)),
    ("64 terms, 64 pairs, entailed", gen::dense_kept_small, |_, a| entailed(a)),
    ("64 terms, 64 pairs, not entailed", gen::dense_kept_small, |_, a| open(a)),
];

fn entailed(answer: Answer) -> bool {
    matches!(answer, Answer::Entailed { .. })
}

fn open(answer: Answer) -> bool {
    matches!(answer, Answer::NotEntailed { .. })
}

fn contradictory(answer: Answer) -> bool {
    matches!(answer, Answer::Contradictory { .. })
}

/// The first problem as wanted of whose family none leaves the limits.
fn first_stable(name: &str, generator: Generator, wanted: Wanted) -> Family {
    let bases = (0..).map(|index| generator(2, index));
    let wanted = bases.filter(|base| wanted(base, Outcome::of(base).answer));
    let mut families = wanted.map(|base| family(name, &base));
    families.find(Family::is_stable).expect("a generator without end")
}

/// A problem's front, up to its pairs, and its pairs.
fn parts(base: &[u8]) -> (&[u8], Vec<[u8; 2]>) {
    let (front, pairs) = base.split_at(4 + 8 * usize::from(base[0]));
    (front, pairs.as_chunks::<2>().0.to_vec())
}

/// The problem of a family with the pairs that are given.
fn assembled(front: &[u8], pairs: &[[u8; 2]]) -> Vec<u8> {
    let mut bytes = [front, pairs.as_flattened()].concat();
    bytes[1] = pairs.len() as u8;
    bytes
}

/// A problem and six that say the same.
fn family(name: &str, base: &[u8]) -> Family {
    let mut random = Random::new(name, 1, 0);
    let (front, pairs) = parts(base);
    let member = |remark, pairs: Vec<[u8; 2]>| Member { remark, bytes: assembled(front, &pairs) };
    let members = vec![
        member("the pairs in reverse", pairs.iter().rev().copied().collect()),
        member("the sides of every pair exchanged", pairs.iter().map(|&[l, r]| [r, l]).collect()),
        member("the pairs in another order", shuffled(&pairs, &mut random)),
        member("another order, some sides exchanged", mixed(&pairs, &mut random)),
        member("each pair once, then repeats up to 64", repeated(&pairs, &mut random)),
        member("64 pairs in another order, some sides exchanged", scattered(&pairs, &mut random)),
    ];
    Family { name: name.to_owned(), base: base.to_vec(), members }
}

/// No family: problems that differ from the first, each in one thing, and
/// one that is refused.
fn no_family() -> Family {
    let member = |remark, bytes| Member { remark, bytes };
    let members = vec![
        member("no pair: another word", known(1, 1, &[])),
        member("a pair more: another count", known(1, 1, &[[0, 2], [1, 3]])),
        member("3/2 for 1/2: another numerator", known(3, 1, &[[0, 2]])),
        member("1/4 for 1/2: another denominator", known(1, 2, &[[0, 2]])),
        member("no such term: refused", known(1, 1, &[[0, 4]])),
        member("once more", known(1, 1, &[[0, 2]])),
    ];
    Family { name: "no family".to_owned(), base: known(1, 1, &[[0, 2]]), members }
}

/// Two unknowns, a constant and 3, with some pairs; the goal is that the
/// first unknown is the constant.
fn known(mantissa: i16, shift: u8, pairs: &[[u8; 2]]) -> Vec<u8> {
    let mut record = Record::new();
    let (x, _) = (record.variable(0), record.variable(0));
    let constant = record.constant(mantissa, shift);
    record.constant(3, 0);
    for &[left, right] in pairs {
        record.assume(left, right);
    }
    record.goal(x, constant);
    record.bytes()
}

fn shuffled(pairs: &[[u8; 2]], random: &mut Random) -> Vec<[u8; 2]> {
    let mut pairs = pairs.to_vec();
    random.shuffle(&mut pairs);
    pairs
}

/// Another order, and half of the sides exchanged.
fn mixed(pairs: &[[u8; 2]], random: &mut Random) -> Vec<[u8; 2]> {
    let mut pairs = shuffled(pairs, random);
    for pair in &mut pairs {
        if random.chance(50) {
            pair.swap(0, 1);
        }
    }
    pairs
}

/// Each pair once, then any of them until there are 64.
fn repeated(pairs: &[[u8; 2]], random: &mut Random) -> Vec<[u8; 2]> {
    let mut distinct = pairs.to_vec();
    distinct.sort();
    distinct.dedup();
    let mut all = shuffled(&distinct, random);
    while all.len() < MOST {
        all.push(random.pick(&distinct));
    }
    all
}

fn scattered(pairs: &[[u8; 2]], random: &mut Random) -> Vec<[u8; 2]> {
    let all = repeated(pairs, random);
    mixed(&all, random)
}

/// What deciding a problem leaves.
struct Outcome {
    answer: Answer,
    nums: [i32; PLACES],
    dens: [i32; PLACES],
}

impl Outcome {
    fn of(bytes: &[u8]) -> Outcome {
        let (mut nums, mut dens) = ([0; PLACES], [0; PLACES]);
        let answer = decide(bytes, &mut nums, &mut dens);
        Outcome { answer, nums, dens }
    }

    /// Word and count; the place of contradictory does not count.
    fn said(&self) -> (u8, u32) {
        match self.answer {
            Answer::Entailed { solved } => (0, solved),
            Answer::NotEntailed { solved } => (1, solved),
            Answer::Contradictory { .. } => (2, 0),
            Answer::Refused { .. } => (3, 0),
        }
    }

    /// What the program has to say of a problem beside the first one.
    fn compared(&self, base: &Outcome) -> String {
        if let Answer::Refused { number, place } = self.answer {
            return format!("refused {number} {place}\n");
        }
        if self.said().0 != base.said().0 {
            return "differs: the word\n".to_owned();
        }
        if self.said().1 != base.said().1 {
            return "differs: the count\n".to_owned();
        }
        let place = |one: &[i32], other: &[i32]| one.iter().zip(other).position(|(a, b)| a != b);
        match (place(&self.nums, &base.nums), place(&self.dens, &base.dens)) {
            (Some(place), _) => format!("differs: the numerator at {place}\n"),
            (_, Some(place)) => format!("differs: the denominator at {place}\n"),
            _ => "same\n".to_owned(),
        }
    }
}

fn digits(bytes: &[u8]) -> String {
    bytes.iter().map(|byte| format!("{byte:02x}")).collect()
}

impl Family {
    /// None of its problems is refused.
    fn is_stable(&self) -> bool {
        let decided = |bytes: &[u8]| Outcome::of(bytes).said().0 != 3;
        decided(&self.base) && self.members.iter().all(|member| decided(&member.bytes))
    }

    fn input(&self) -> String {
        let mut text = format!("# {}\n{}\n", self.name, digits(&self.base));
        for member in &self.members {
            text.push_str(&format!("# {}\n~{}\n", member.remark, digits(&member.bytes)));
        }
        text
    }

    fn output(&self) -> String {
        let base = Outcome::of(&self.base);
        let mut text = format!("# {}\n{}", self.name, listing(&self.base));
        for member in &self.members {
            let compared = Outcome::of(&member.bytes).compared(&base);
            text.push_str(&format!("# {}\n{compared}", member.remark));
        }
        text
    }
}
