//! The refusals of document 01, their order and their places.

use plain::record::Record;
use plain::{cases, decide, list_row, Answer, LINE, PLACES};

/// The answer for lists that are long enough, which a refusal 2 to 6 leaves.
fn refusal(bytes: &[u8]) -> (u8, u32) {
    let (mut nums, mut dens) = (vec![4; PLACES], vec![5; PLACES]);
    let Answer::Refused { number, place } = decide(bytes, &mut nums, &mut dens) else {
        panic!("not refused");
    };
    assert!(number == 7 || nums.iter().all(|&num| num == 4) && dens.iter().all(|&den| den == 5));
    (number, place)
}

/// x, f(x), 1/2, 3/4 of x, x plus 1/2, x minus 1/2, g(x, 1/2), h(x, x, 1/2).
fn all_kinds() -> Record {
    let mut r = Record::new();
    let x = r.variable(3);
    r.lookup(1, &[x]);
    let half = r.constant(1, 1);
    r.gain(3, 2, x);
    r.sum(x, half);
    r.difference(x, half);
    r.lookup(1, &[x, half]);
    r.lookup(1, &[x, x, half]);
    r.assume(x, half);
    r
}

/// The record of all kinds with some bits of term `term` set to others.
fn with_field(term: usize, place: u32, width: u32, value: u64) -> Vec<u8> {
    let mut bytes = all_kinds().bytes();
    let record = &mut bytes[4 + 8 * term..][..8];
    let mut bits = u64::from_be_bytes(record.try_into().unwrap());
    bits &= !(((1 << width) - 1) << place);
    bits |= value << place;
    record.copy_from_slice(&bits.to_be_bytes());
    bytes
}

#[test]
fn space_comes_first() {
    let sound = all_kinds().bytes();
    for bytes in [&sound[..], &[], &[0, 99, 0, 0]] {
        for (long, short) in [(PLACES - 1, PLACES), (PLACES, PLACES - 1), (0, 0), (0, PLACES)] {
            let (mut nums, mut dens) = (vec![4; long], vec![5; short]);
            let answer = decide(bytes, &mut nums, &mut dens);
            assert_eq!(answer, Answer::Refused { number: 1, place: 0 });
            assert!(nums.iter().all(|&num| num == 4) && dens.iter().all(|&den| den == 5));
        }
    }
}

#[test]
fn short_count_and_length() {
    for length in 0..4 {
        assert_eq!(refusal(&[65; 4][..length]), (2, 0));
    }
    for (n, m) in [(0, 0), (65, 0), (255, 0), (1, 65), (1, 255), (0, 65)] {
        assert_eq!(refusal(&[n, m, 9, 9]), (3, 0));
        assert_eq!(refusal(&[&[n, m, 9, 9][..], &[0; 641]].concat()), (3, 0));
    }
    let sound = all_kinds().bytes();
    for length in 4..sound.len() {
        assert_eq!(refusal(&sound[..length]), (4, 0));
    }
    assert_eq!(refusal(&[&sound[..], &[0]].concat()), (4, 0));
}

#[test]
fn kinds_that_are_none() {
    for kind in [0, 9, 10, 11, 12, 13, 14, 15] {
        for term in 0..8 {
            assert_eq!(refusal(&with_field(term, 60, 4, kind)), (5, term as u32));
        }
    }
}

#[test]
fn unused_fields_must_be_zero() {
    // Each kind with the fields it does not use, as places and widths.
    let (symbol, first, second, third) = ((52, 8), (44, 8), (36, 8), (28, 8));
    let (mantissa, shift, padding) = ((12, 16), (8, 4), (0, 8));
    let unused: [(usize, &[(u32, u32)]); 8] = [
        (0, &[first, second, third, mantissa, shift, padding]),
        (1, &[second, third, mantissa, shift, padding]),
        (2, &[symbol, first, second, third, padding]),
        (3, &[symbol, second, third, padding]),
        (4, &[symbol, third, mantissa, shift, padding]),
        (5, &[symbol, third, mantissa, shift, padding]),
        (6, &[third, mantissa, shift, padding]),
        (7, &[mantissa, shift, padding]),
    ];
    for (term, fields) in unused {
        for &(place, width) in fields {
            for bit in 0..width {
                assert_eq!(refusal(&with_field(term, place, width, 1 << bit)), (5, term as u32));
            }
        }
    }
}

#[test]
fn inputs_must_be_below() {
    for (term, places) in [(1, 1), (3, 1), (4, 2), (5, 2), (6, 2), (7, 3)] {
        for place in &[44, 36, 28][..places] {
            for input in [term as u64, term as u64 + 1, 255] {
                assert_eq!(refusal(&with_field(term, *place, 8, input)), (5, term as u32));
            }
        }
    }
}

#[test]
fn the_lowest_faulty_term_is_named_before_any_pair() {
    let mut bytes = all_kinds().bytes();
    bytes[2] = 200;
    bytes[4 + 8 * 6 + 7] = 1;
    bytes[4 + 8 * 3 + 7] = 1;
    assert_eq!(refusal(&bytes), (5, 3));
}

#[test]
fn pairs_must_name_terms() {
    let mut r = all_kinds();
    r.assume(0, 7);
    r.assume(7, 0);
    let sound = r.bytes();
    let with = |place: usize, side: u8| {
        let mut bytes = sound.clone();
        bytes[place] = side;
        bytes
    };
    let pairs = 4 + 8 * 8;
    assert_eq!(refusal(&with(2, 8)), (6, 0));
    assert_eq!(refusal(&with(3, 255)), (6, 0));
    for pair in 0..3 {
        for side in 0..2 {
            assert_eq!(refusal(&with(pairs + 2 * pair + side, 8)), (6, pair as u32 + 1));
        }
    }
    let mut both = with(2, 8);
    both[pairs] = 9;
    assert_eq!(refusal(&both), (6, 0));
}

#[test]
fn range_is_told_with_the_assumption() {
    // y = 2x makes 2^30 y out of range; z = z before it moves the place.
    let mut r = Record::new();
    let (x, y) = (r.variable(0), r.variable(0));
    let part = r.gain(32_767, 0, y);
    r.gain(32_767, 0, part);
    let twice = r.gain(3, 0, x);
    r.assume(x, x);
    r.assume(y, twice);
    assert_eq!(refusal(&r.bytes()), (7, 2));
}

#[test]
fn a_constant_difference_out_of_range_is_no_contradiction() {
    let mut r = Record::new();
    let base = r.constant(32_767, 0);
    let square = r.gain(32_767, 0, base);
    let (left, right) = (r.gain(2, 0, square), r.gain(-2, 0, square));
    r.assume(left, right);
    assert_eq!(refusal(&r.bytes()), (7, 1));
}

#[test]
fn rows_are_listed_only_with_room() {
    let (mut nums, mut dens) = (vec![0; PLACES], vec![0; PLACES]);
    decide(&cases::CASE_A, &mut nums, &mut dens);
    for (length, at, fits) in [
        (LINE, 0, true),
        (LINE - 1, 0, false),
        (LINE + 9, 9, true),
        (LINE + 9, 10, false),
        (3, 4, false),
    ] {
        let mut buffer = vec![7; length];
        let answer = list_row(&nums, &dens, 1, &mut buffer, at);
        assert_eq!(answer, if fits { Ok(at + 11) } else { Err((1, at)) });
        let end = answer.unwrap_or(at);
        assert_eq!(
            &buffer[at.min(length)..end.min(length)],
            if fits { &b"1: -1/8*t0\n"[..] } else { b"" }
        );
        assert!(buffer[end.min(length)..].iter().all(|&byte| byte == 7));
    }
    let mut buffer = vec![7; LINE];
    assert_eq!(list_row(&nums[1..], &dens, 99, &mut buffer, 0), Err((1, 0)));
    assert_eq!(list_row(&nums, &dens[1..], 0, &mut buffer, 0), Err((1, 0)));
    assert_eq!(list_row(&nums, &dens, 0, &mut buffer, usize::MAX), Err((1, usize::MAX)));
    assert!(buffer.iter().all(|&byte| byte == 7));
}

#[test]
fn only_rows_of_fractions_are_listed() {
    let mut buffer = vec![7; LINE + 5];
    let (mut nums, mut dens) = (vec![0; PLACES], vec![0; PLACES]);
    assert_eq!(list_row(&nums, &dens, 0, &mut buffer, 5), Err((8, 5)));
    decide(&cases::CASE_A, &mut nums, &mut dens);
    assert_eq!(list_row(&nums, &dens, 64, &mut buffer, 5), Err((8, 5)));
    assert_eq!(list_row(&nums, &dens, usize::MAX, &mut buffer, 5), Err((8, 5)));
    for (num, den) in [(0, 2), (0, 0), (2, 4), (1, 0), (1, -1), (i32::MIN, 1), (3, -3)] {
        for column in [0, 1, 63, 64] {
            let (mut nums, mut dens) = (nums.clone(), dens.clone());
            (nums[65 * 7 + column], dens[65 * 7 + column]) = (num, den);
            assert_eq!(list_row(&nums, &dens, 7, &mut buffer, 5), Err((8, 5)));
        }
    }
    assert!(buffer.iter().all(|&byte| byte == 7));
    assert_eq!(list_row(&nums, &dens, 63, &mut buffer, 5), Ok(11));
    assert_eq!(&buffer[..12], b"\x07\x07\x07\x07\x0763: 0\n\x07");
}

#[test]
fn the_longest_line_fits() {
    let (nums, dens) = (vec![-2_147_483_647; PLACES], vec![2_147_483_646; PLACES]);
    let mut buffer = vec![7; LINE];
    assert_eq!(list_row(&nums, &dens, 63, &mut buffer, 0), Ok(1_745));
    assert!(buffer[1_745..].iter().all(|&byte| byte == 7));
}
