//! Lists and buffers as they are lent: the front of a longer allocation, with
//! guards behind it that nobody may touch.

use plain::gen::Random;
use plain::PLACES;

/// The places behind the longest part that is lent.
pub const GUARD: usize = 16;
/// The most places that a list is lent with.
pub const LONGEST: usize = PLACES + 80;
/// The most bytes that a buffer is lent with.
pub const LONGEST_BUFFER: usize = 8192;

/// The bytes of a buffer with its guard.
pub const ROOM_BUFFER: usize = LONGEST_BUFFER + GUARD;

const ROOM: usize = LONGEST + GUARD;
/// From how many different places of the noise content is taken.
const SHIFTS: usize = 4093;

/// How many places of each list are handed over.
#[derive(Clone, Copy, PartialEq, Eq, Debug)]
pub struct Lengths {
    /// Numerators.
    pub nums: usize,
    /// Denominators.
    pub dens: usize,
}

impl Lengths {
    const fn new(nums: usize, dens: usize) -> Lengths {
        Lengths { nums, dens }
    }

    /// Whether both lists have the 4,160 places.
    pub fn suffice(self) -> bool {
        self.nums >= PLACES && self.dens >= PLACES
    }
}

/// Lengths that are enough.
pub const ENOUGH: [Lengths; 4] = [
    Lengths::new(PLACES, PLACES),
    Lengths::new(PLACES + 1, PLACES),
    Lengths::new(PLACES, LONGEST),
    Lengths::new(PLACES + 65, PLACES + 7),
];

/// Lengths of which one or both are too short.
pub const SHORT: [Lengths; 8] = [
    Lengths::new(PLACES - 1, PLACES),
    Lengths::new(PLACES, PLACES - 1),
    Lengths::new(PLACES - 1, PLACES - 1),
    Lengths::new(0, 0),
    Lengths::new(0, PLACES),
    Lengths::new(LONGEST, 0),
    Lengths::new(1, 64),
    Lengths::new(2080, LONGEST),
];

/// Both lists, guards included.
#[derive(Clone, PartialEq, Eq)]
pub struct Lists {
    /// Numerators.
    pub nums: Vec<i32>,
    /// Denominators.
    pub dens: Vec<i32>,
}

impl Lists {
    /// Lists of zeros.
    pub fn new() -> Lists {
        Lists { nums: vec![0; ROOM], dens: vec![0; ROOM] }
    }

    /// Makes these lists the same as others.
    pub fn set(&mut self, from: &Lists) {
        self.nums.copy_from_slice(&from.nums);
        self.dens.copy_from_slice(&from.dens);
    }

    /// Numerators and then denominators, each number as four bytes in the
    /// machine's order.
    pub fn bytes(&self) -> Vec<u8> {
        self.nums.iter().chain(&self.dens).flat_map(|number| number.to_ne_bytes()).collect()
    }

    /// The parts that are handed over, to be written.
    pub fn lent_mut(&mut self, lengths: Lengths) -> (&mut [i32], &mut [i32]) {
        (&mut self.nums[..lengths.nums], &mut self.dens[..lengths.dens])
    }
}

impl Default for Lists {
    fn default() -> Lists {
        Lists::new()
    }
}

/// Pseudo-random content, from which lists and buffers are filled.
pub struct Noise {
    numbers: Vec<i32>,
    bytes: Vec<u8>,
}

impl Noise {
    /// The content for a seed.
    pub fn new(seed: u64) -> Noise {
        let mut random = Random::new("noise", seed, 0);
        let numbers = (0..2 * ROOM + SHIFTS).map(|_| random.bits() as i32).collect();
        let bytes = (0..ROOM_BUFFER + SHIFTS).map(|_| random.bits() as u8).collect();
        Noise { numbers, bytes }
    }

    /// Fills both lists, guards included; the index says with what.
    pub fn fill(&self, lists: &mut Lists, index: u64) {
        let start = (index % SHIFTS as u64) as usize;
        let (nums, dens) = self.numbers[start..start + 2 * ROOM].split_at(ROOM);
        lists.nums.copy_from_slice(nums);
        lists.dens.copy_from_slice(dens);
    }

    /// What a buffer of some length holds, with a guard behind; the index
    /// says what.
    pub fn buffer(&self, length: usize, index: u64) -> &[u8] {
        let start = (index % SHIFTS as u64) as usize;
        &self.bytes[start..start + length + GUARD]
    }
}
