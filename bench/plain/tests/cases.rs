//! The cases of document 01.

use plain::{cases, decide, listing, Answer, PLACES};

fn case(name: &str) -> Vec<u8> {
    cases::all().into_iter().find(|case| case.name == name).expect("a case of that name").bytes
}

#[test]
fn first_lines() {
    for case in cases::all() {
        let text = listing(&case.bytes);
        assert_eq!(text.lines().next(), Some(case.first_line), "case {}", case.name);
    }
}

#[test]
fn case_a_is_listed_as_printed() {
    assert_eq!(listing(&cases::CASE_A), cases::LISTING_A);
}

#[test]
fn case_a_is_what_its_description_gives() {
    let mut record = plain::record::Record::new();
    let t0 = record.variable(0);
    let t1 = record.gain(-1, 3, t0);
    let t2 = record.lookup(7, &[t1]);
    let t3 = record.constant(3, 1);
    record.assume(t2, t3);
    record.goal(t1, t2);
    assert_eq!(record.bytes(), cases::CASE_A);
}

/// B and C fold the powers of a lookup, N1 reaches a small fraction.
#[test]
fn whole_listings() {
    let wanted = [
        ("B", "entailed 0 3\n0: +1*t0\n1: +1*t1\n2: +1*t2\n3: +1*t1\n4: +1*t2\n5: +1*t1\n"),
        ("C", "entailed 0 5\n0: +1*t0\n1: +1*t0\n2: +1*t0\n3: +1*t0\n4: +1*t0\n5: +1*t0\n"),
        ("N1", "entailed 0 0\n0: +1*t0\n1: +1/32768*t0\n2: +1/1073741824*t0\n"),
    ];
    for (name, want) in wanted {
        assert_eq!(listing(&case(name)), want, "case {name}");
    }
}

#[test]
fn case_m_reaches_the_largest_number() {
    assert!(listing(&case("M1")).ends_with("\n6: +2147483647\n"));
}

#[test]
fn every_list_length_is_served() {
    for extra in [0, 1, 65, 1000] {
        let mut nums = vec![-5; PLACES + extra];
        let mut dens = vec![-7; PLACES + extra + 3];
        let answer = decide(&case("B"), &mut nums, &mut dens);
        assert_eq!(answer, Answer::Entailed { solved: 3 });
        assert!(nums[PLACES..].iter().all(|&num| num == -5));
        assert!(dens[PLACES..].iter().all(|&den| den == -7));
        assert!(nums[6 * 65..PLACES].iter().all(|&num| num == 0));
        assert!(dens[6 * 65..PLACES].iter().all(|&den| den == 1));
    }
}

#[test]
fn contradiction_and_range_leave_zeros() {
    for name in ["D", "E", "F", "M2", "N2"] {
        let (mut nums, mut dens) = (vec![9; PLACES + 2], vec![9; PLACES + 1]);
        decide(&case(name), &mut nums, &mut dens);
        assert!(nums[..PLACES].iter().chain(&dens[..PLACES]).all(|&number| number == 0));
        assert!(nums[PLACES..].iter().chain(&dens[PLACES..]).all(|&number| number == 9));
    }
}
