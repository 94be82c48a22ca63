//! Inputs that are cut, changed or random: mostly refused ones.

use super::congruent::congruent;
use super::random::Random;
use crate::cases;

/// How many different inputs [`case_prefix`] has.
pub fn case_prefixes() -> u64 {
    cases::all().iter().map(|case| case.bytes.len() as u64 + 1).sum()
}

/// Every prefix of every case of document 01, whole cases too, by index.
pub fn case_prefix(_seed: u64, index: u64) -> Vec<u8> {
    let mut left = index % case_prefixes();
    for case in cases::all() {
        let here = case.bytes.len() as u64 + 1;
        if left < here {
            return case.bytes[..left as usize].to_vec();
        }
        left -= here;
    }
    unreachable!("an index below the number of prefixes")
}

/// How many different inputs [`case_bit`] has.
pub fn case_bits() -> u64 {
    cases::all().iter().map(|case| case.bytes.len() as u64 * 8).sum()
}

/// Every case of document 01 with every single bit changed, by index.
pub fn case_bit(_seed: u64, index: u64) -> Vec<u8> {
    let mut left = index % case_bits();
    for case in cases::all() {
        let here = case.bytes.len() as u64 * 8;
        if left < here {
            let mut bytes = case.bytes;
            bytes[left as usize / 8] ^= 0x80 >> (left % 8);
            return bytes;
        }
        left -= here;
    }
    unreachable!("an index below the number of bits")
}

/// 0 to 700 random bytes; half of them with a header that fits the length.
pub fn random_bytes(seed: u64, index: u64) -> Vec<u8> {
    let mut random = Random::new("random_bytes", seed, index);
    let length = random.below(701);
    let mut bytes: Vec<u8> = (0..length).map(|_| random.bits() as u8).collect();
    if length >= 4 && random.chance(50) {
        fit_header(&mut bytes, &mut random);
    }
    bytes
}

/// Chooses counts for the header such that the length is right, if there are
/// any, and otherwise almost right.
fn fit_header(bytes: &mut [u8], random: &mut Random) {
    let body = bytes.len() - 4;
    let most_terms = (body / 8).clamp(1, 64);
    let least_terms = (body.saturating_sub(128) / 8).clamp(1, most_terms);
    let terms = random.within(least_terms as i64, most_terms as i64) as usize;
    let pairs = (body.saturating_sub(8 * terms) / 2).min(65);
    bytes[..2].copy_from_slice(&[terms as u8, pairs as u8]);
    bytes[2] = random.term(terms + 1);
    bytes[3] = random.term(terms + 1);
}

/// A sound problem with one to three faults: a changed bit, field, side,
/// count or length. At least the header is left.
pub fn faulty(seed: u64, index: u64) -> Vec<u8> {
    let mut random = Random::new("faulty", seed, index);
    let mut bytes = congruent(seed, random.bits());
    for _ in 0..random.within(1, 3) {
        spoil(&mut bytes, &mut random);
    }
    bytes
}

fn spoil(bytes: &mut Vec<u8>, random: &mut Random) {
    let (place, terms) = (random.below(bytes.len()), usize::from(bytes[0]));
    match random.below(14) {
        0 => bytes.truncate(place.max(4)),
        1 => bytes.push(random.bits() as u8),
        2 => bytes[place % 2] = random.within(0, 66) as u8,
        3..=5 => spoil_pair(bytes, random, terms),
        6..=9 => spoil_inputs(bytes, random, terms),
        10 => bytes[place] = random.bits() as u8,
        _ => bytes[place] ^= 1 << random.below(8),
    }
}

/// Gives the goal or a pair a side about the number of terms.
fn spoil_pair(bytes: &mut [u8], random: &mut Random, terms: usize) {
    let side = (terms as i64 + random.within(-1, 1)) as u8;
    let pairs = bytes.len().saturating_sub(4 + 8 * terms);
    let place = match random.below(pairs + 2) {
        goal @ 0..2 => 2 + goal,
        pair => 4 + 8 * terms + pair - 2,
    };
    bytes[place] = side;
}

/// Gives a term record an input near its own number.
fn spoil_inputs(bytes: &mut [u8], random: &mut Random, terms: usize) {
    let term = random.below(terms.max(1));
    let start = 4 + 8 * term;
    let Some(record) = bytes.get_mut(start..).and_then(|rest| rest.first_chunk_mut()) else {
        return;
    };
    let input = (term as i64 + random.within(-1, 1)) as u64 & 0xFF;
    let place = random.pick(&[44, 36, 28]);
    let bits = u64::from_be_bytes(*record) & !(0xFF << place) | input << place;
    *record = bits.to_be_bytes();
}
