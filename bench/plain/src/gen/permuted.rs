//! Families of problems that say the same.

use super::congruent::congruent;
use super::dense::dense;
use super::limits::limit_sum;
use super::random::Random;

/// How many problems of [`permuted`] say the same: those whose index divided
/// by this is the same.
pub const FAMILY: u64 = 8;

/// A problem, or the same with its pairs in another order, some repeated,
/// and with sides swapped. The first of each family is the plain one.
pub fn permuted(seed: u64, index: u64) -> Vec<u8> {
    let (family, member) = (index / FAMILY, index % FAMILY);
    let base = match family % 8 {
        6 => dense(seed, family),
        7 => limit_sum(seed, family),
        _ => congruent(seed, family),
    };
    if member == 0 {
        return base;
    }
    permute(&base, &mut Random::new("permuted", seed, index))
}

fn permute(base: &[u8], random: &mut Random) -> Vec<u8> {
    let (front, pairs) = base.split_at(4 + 8 * usize::from(base[0]));
    let mut pairs = pairs.as_chunks::<2>().0.to_vec();
    repeat_some(&mut pairs, random);
    random.shuffle(&mut pairs);
    for pair in &mut pairs {
        swap_perhaps(pair, random);
    }
    let mut bytes = front.to_vec();
    bytes[1] = pairs.len() as u8;
    swap_perhaps(&mut bytes[2..4], random);
    bytes.extend_from_slice(pairs.as_flattened());
    bytes
}

/// Repeats some pairs, as far as there is room.
fn repeat_some(pairs: &mut Vec<[u8; 2]>, random: &mut Random) {
    let room = 64 - pairs.len();
    if pairs.is_empty() || room == 0 {
        return;
    }
    for _ in 0..random.below(room.min(4) + 1) {
        pairs.push(random.pick(pairs));
    }
}

fn swap_perhaps(sides: &mut [u8], random: &mut Random) {
    if random.chance(50) {
        sides.swap(0, 1);
    }
}
