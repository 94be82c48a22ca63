//! The fast run against the literal one on every generator, and what the
//! generators are meant to reach.

mod literal;

use plain::gen::{self, Generator};
use plain::{decide, limit_reached, Answer, Step, PLACES};

/// The answer and both lists, from lists of rubbish and three places more.
type Outcome = (Answer, Vec<i32>, Vec<i32>);

fn outcome(bytes: &[u8], with: fn(&[u8], &mut [i32], &mut [i32]) -> Answer) -> Outcome {
    let (mut nums, mut dens) = (vec![-77; PLACES + 3], vec![i32::MIN; PLACES + 3]);
    let answer = with(bytes, &mut nums, &mut dens);
    (answer, nums, dens)
}

fn compare(name: &str, generator: Generator, count: u64) {
    for index in 0..count {
        let bytes = generator(1, index);
        let (fast, slow) = (outcome(&bytes, decide), outcome(&bytes, literal::decide));
        assert!(fast == slow, "{name} 1 {index}: {:?}, literally {:?}", fast.0, slow.0);
    }
}

#[test]
fn every_prefix_of_the_cases() {
    compare("case_prefix", gen::case_prefix, gen::case_prefixes());
}

#[test]
fn every_bit_of_the_cases() {
    compare("case_bit", gen::case_bit, gen::case_bits());
}

#[test]
fn random_inputs_of_every_generator() {
    for (name, generator) in gen::all() {
        compare(name, generator, if name.starts_with("dense") { 100 } else { 2_000 });
    }
}

#[test]
fn generators_give_the_same_again() {
    for (_, generator) in gen::all() {
        for index in 0..50 {
            assert_eq!(generator(5, index), generator(5, index));
        }
        assert!((0..50).any(|index| generator(5, index) != generator(5, index + 1)));
    }
}

/// How many of a generator's problems leave the limits in a step.
fn reaching(generator: Generator, step: Step) -> usize {
    let reached = (0..1_000).filter_map(|index| limit_reached(&generator(2, index)));
    reached.filter(|limit| limit.step == step).count()
}

#[test]
fn limits_are_reached_in_the_step_meant() {
    let meant: [(&str, Generator, Step); 7] = [
        ("limit_build, product", gen::limit_build, Step::BuildProduct),
        ("limit_build, sum", gen::limit_build, Step::BuildSum),
        ("limit_first_close", gen::limit_first_close, Step::FoldSum),
        ("limit_difference", gen::limit_difference, Step::Difference),
        ("limit_quotient", gen::limit_quotient, Step::Quotient),
        ("limit_product", gen::limit_product, Step::FoldProduct),
        ("limit_sum", gen::limit_sum, Step::FoldSum),
    ];
    for (name, generator, step) in meant {
        let beyond = reaching(generator, step);
        let within =
            (0..1_000).filter(|&index| limit_reached(&generator(2, index)).is_none()).count();
        println!("{name}: {beyond} beyond the limits in {step:?}, {within} within");
        assert!(beyond >= 100 && within >= 100, "{name}: {beyond} beyond, {within} within");
    }
}

#[test]
fn the_order_of_closing_matters() {
    let differs = |&index: &u64| {
        let bytes = gen::limit_order(2, index);
        outcome(&bytes, decide) != outcome(&bytes, literal::decide_backwards)
    };
    let count = (0..1_000).filter(differs).count();
    println!("limit_order: {count} of 1000 hang on the order");
    assert!(count >= 50);
}

#[test]
fn dense_problems_reach_every_step() {
    use Step::*;
    for step in [BuildProduct, BuildSum, Difference, Quotient, FoldProduct, FoldSum] {
        let count = reaching(gen::dense, step);
        println!("dense: {count} of 1000 in {step:?}");
        assert!(count > 0, "dense never leaves the limits in {step:?}");
    }
}

#[test]
fn congruent_problems_have_every_word() {
    let mut words = [0; 4];
    for index in 0..2_000 {
        words[match outcome(&gen::congruent(3, index), decide).0 {
            Answer::Entailed { .. } => 0,
            Answer::NotEntailed { .. } => 1,
            Answer::Contradictory { .. } => 2,
            Answer::Refused { number, .. } => {
                assert_eq!(number, 7);
                3
            }
        }] += 1;
    }
    println!("entailed, not entailed, contradictory, refused: {words:?}");
    assert!(words[..3].iter().all(|&count| count > 200), "{words:?}");
}

#[test]
fn kept_small_problems_are_mostly_decided() {
    let decided =
        (0..1_000).filter(|&index| limit_reached(&gen::dense_kept_small(2, index)).is_none());
    let count = decided.count();
    println!("dense_kept_small: {count} of 1000 decided");
    assert!(count > 500);
}

/// An outcome as far as it must be the same for the same problem: not the
/// place of a contradiction.
fn sameness((answer, nums, dens): Outcome) -> Outcome {
    match answer {
        Answer::Contradictory { .. } => (Answer::Contradictory { place: 0 }, nums, dens),
        other => (other, nums, dens),
    }
}

#[test]
fn families_say_the_same() {
    for family in 0..1_000 {
        let members = family * gen::FAMILY..(family + 1) * gen::FAMILY;
        let outcomes: Vec<_> =
            members.map(|index| sameness(outcome(&gen::permuted(4, index), decide))).collect();
        let refused = |outcome: &Outcome| matches!(outcome.0, Answer::Refused { .. });
        let mut decided = outcomes.iter().filter(|outcome| !refused(outcome));
        if let Some(first) = decided.next() {
            assert!(decided.all(|other| other == first), "family {family}");
        }
    }
}
