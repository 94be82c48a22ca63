//! Wrong implementations, each of which the comparison must catch.

use differential::check::{Checker, Fault};
use differential::inputs::{families, BLOCK};
use differential::lending::Noise;
use differential::sides::{Decide, ListRow, Listed, Side, Told, OURS, PLAIN};

/// How many inputs of each family a wrong implementation may stay unseen on.
const ENOUGH: u64 = 1_000;

/// The first difference of two sides over the families, then over arbitrary
/// lists.
fn fault(sides: [Side; 2]) -> Option<Fault> {
    let noise = Noise::new(1);
    let mut checker = Checker::new(sides, 1, &noise);
    for family in families(1) {
        for start in (0..family.count.min(ENOUGH)).step_by(BLOCK as usize) {
            if let Err(fault) = checker.block(&family, start) {
                return Some(fault);
            }
        }
    }
    (0..50).find_map(|index| checker.arbitrary_lists(index).err())
}

fn is_caught(wrong: Side) {
    let fault = fault([wrong, PLAIN]).expect("a difference");
    println!("caught by {}: {}", fault.name, fault.what);
}

/// The mantissas of gains, moved without their sign.
fn without_sign(bytes: &[u8], nums: &mut [i32], dens: &mut [i32]) -> Told {
    let mut changed = bytes.to_vec();
    let terms = changed.first().map_or(0, |&n| usize::from(n));
    for record in changed.iter_mut().skip(4).collect::<Vec<_>>().chunks_exact_mut(8).take(terms) {
        if *record[0] >> 4 == 3 && *record[4] & 0x08 != 0 {
            *record[4] &= !0x08;
        }
    }
    (PLAIN.decide)(&changed, nums, dens)
}

/// Only the first assumption is merged.
fn first_assumption(bytes: &[u8], nums: &mut [i32], dens: &mut [i32]) -> Told {
    let told = (PLAIN.decide)(bytes, nums, dens);
    if told.word == 3 || bytes[1] < 2 {
        return told;
    }
    let mut shorter = bytes[..4 + 8 * usize::from(bytes[0]) + 2].to_vec();
    shorter[1] = 1;
    (PLAIN.decide)(&shorter, nums, dens)
}

fn miscounting(bytes: &[u8], nums: &mut [i32], dens: &mut [i32]) -> Told {
    let told = (PLAIN.decide)(bytes, nums, dens);
    let off = usize::from(told.word <= 1 && told.figure >= 9);
    Told { figure: told.figure + off, ..told }
}

fn overwriting(bytes: &[u8], nums: &mut [i32], dens: &mut [i32]) -> Told {
    let told = (PLAIN.decide)(bytes, nums, dens);
    if let (0, Some(place)) = (told.word, dens.get_mut(4160)) {
        *place = 1;
    }
    told
}

fn leaving_a_trace(bytes: &[u8], nums: &mut [i32], dens: &mut [i32]) -> Told {
    let told = (PLAIN.decide)(bytes, nums, dens);
    if (told.word, told.number) == (3, 6) {
        nums[4159] = 0;
    }
    told
}

fn unwiped(bytes: &[u8], nums: &mut [i32], dens: &mut [i32]) -> Told {
    let told = (PLAIN.decide)(bytes, nums, dens);
    if told.word == 2 {
        dens[4159] = 1;
    }
    told
}

/// The header before the lists' lengths.
fn header_first(bytes: &[u8], nums: &mut [i32], dens: &mut [i32]) -> Told {
    if bytes.len() < 4 {
        return Told { word: 3, number: 2, figure: 0 };
    }
    (PLAIN.decide)(bytes, nums, dens)
}

/// A count that hangs on how the first assumption is written.
fn order_bound(bytes: &[u8], nums: &mut [i32], dens: &mut [i32]) -> Told {
    let told = (PLAIN.decide)(bytes, nums, dens);
    if told.word > 1 || bytes[1] == 0 {
        return told;
    }
    let pairs = 4 + 8 * usize::from(bytes[0]);
    let swapped = bytes[pairs] > bytes[pairs + 1];
    Told { figure: told.figure + usize::from(swapped), ..told }
}

#[test]
fn wrong_decisions_are_caught() {
    let wrong: [Decide; 7] = [
        without_sign,
        first_assumption,
        miscounting,
        overwriting,
        leaving_a_trace,
        unwiped,
        header_first,
    ];
    for decide in wrong {
        is_caught(Side { decide, ..PLAIN });
    }
}

/// What both sides do wrong is held to document 01, and to the same problem
/// in another order.
#[test]
fn common_faults_are_caught() {
    for decide in [overwriting, leaving_a_trace, unwiped, header_first, order_bound] {
        let wrong = Side { decide, ..PLAIN };
        assert!(fault([wrong, wrong]).is_some());
    }
}

const LISTING_PLUS_FOR_MINUS: ListRow = |buf, at, nums, dens, t| {
    let listed = (PLAIN.list_row)(buf, at, nums, dens, t);
    if listed.number == 0 {
        let signs = buf[at..listed.place].iter_mut().filter(|byte| **byte == b'-');
        signs.for_each(|byte| *byte = b'+');
    }
    listed
};

const LISTING_A_BYTE_MORE: ListRow = |buf, at, nums, dens, t| {
    let listed = (PLAIN.list_row)(buf, at, nums, dens, t);
    if let (0, Some(byte)) = (listed.number, buf.get_mut(listed.place)) {
        *byte = 0;
    }
    listed
};

const LISTING_WITH_LESS_ROOM: ListRow = |buf, at, nums, dens, t| {
    if buf.len().saturating_sub(at) != 2047 {
        return (PLAIN.list_row)(buf, at, nums, dens, t);
    }
    let mut longer = [&*buf, &[0]].concat();
    let listed = (PLAIN.list_row)(&mut longer, at, nums, dens, t);
    buf.copy_from_slice(&longer[..buf.len()]);
    listed
};

/// The row's number before the room.
const LISTING_ROW_FIRST: ListRow = |buf, at, nums, dens, t| {
    if t > 63 {
        return Listed { number: 8, place: at };
    }
    (PLAIN.list_row)(buf, at, nums, dens, t)
};

const LISTING_LOWEST_NUMERATOR: ListRow = |buf, at, nums, dens, t| {
    let changed: Vec<i32> = nums.iter().map(|&num| num.max(-i32::MAX)).collect();
    (PLAIN.list_row)(buf, at, &changed, dens, t)
};

#[test]
fn wrong_listings_are_caught() {
    for list_row in [
        LISTING_PLUS_FOR_MINUS,
        LISTING_A_BYTE_MORE,
        LISTING_WITH_LESS_ROOM,
        LISTING_ROW_FIRST,
        LISTING_LOWEST_NUMERATOR,
    ] {
        is_caught(Side { list_row, ..PLAIN });
    }
}

#[test]
fn the_library_is_not_caught() {
    if let Some(fault) = fault([OURS, PLAIN]) {
        panic!("{}: {}", fault.name, fault.what);
    }
}
