//! The inputs are what they are said to be.

use differential::inputs::{families, files, Family};
use differential::tally::{Tally, REQUIRED};
use std::collections::BTreeSet;

fn family(name: &str) -> Family {
    families(1).into_iter().find(|family| family.name == name).expect("a family of that name")
}

fn all_of(name: &str) -> BTreeSet<Vec<u8>> {
    let family = family(name);
    (0..family.count).map(|index| (family.make)(1, index)).collect()
}

#[test]
fn every_prefix_of_the_files_is_there() {
    let prefixes = all_of("file_prefix");
    assert!(files().len() >= 17);
    for file in files() {
        assert!((0..=file.len()).all(|length| prefixes.contains(&file[..length])));
    }
}

#[test]
fn every_single_bit_of_the_files_is_changed() {
    let changed = all_of("file_bit");
    for file in files() {
        for bit in 0..8 * file.len() {
            let mut bytes = file.clone();
            bytes[bit / 8] ^= 1 << (bit % 8);
            assert!(changed.contains(&bytes));
        }
    }
}

#[test]
fn every_length_from_0_to_700_is_there() {
    let lengths: BTreeSet<usize> = all_of("every_length").iter().map(Vec::len).collect();
    assert_eq!(lengths, (0..=700).collect());
}

#[test]
fn there_are_200_000_inputs() {
    assert!(families(1).iter().map(|family| family.count).sum::<u64>() >= 200_000);
}

/// What no input reached is said to be missing.
#[test]
fn an_empty_tally_misses_every_class() {
    assert_eq!(Tally::default().missing(), REQUIRED);
}
