//! What goes to `server.c` and comes back: numbers for each call, then all that is lent, each
//! with a guard behind it.

use std::ops::Range;

/// The most bytes of a message: the memory of `server.c`.
const MOST: usize = 1 << 20;
/// The bytes of a number.
const NUMBER: usize = 8;
/// The numbers in front: the size of the message, and how many calls there are.
const HEAD: usize = 2;
/// The numbers that ask for a call.
const ASKED: usize = 9;
/// All numbers of a call, its answer's three too.
const CALL: usize = ASKED + 3;
/// The bytes of an answer: the figure, the word, and one byte for the refusal's number.
const ANSWER: usize = 2 * NUMBER + 1;
/// The fewest bytes of a guard.
const GUARD: usize = 64;
/// What a guard holds, and an answer before the call.
const UNTOUCHED: u8 = 0xA5;

/// A call to ask for, as in `server.c`: where in the message that begins which is lent, and its
/// length; for a row to list, the place reached and the row.
pub struct Call {
    pub lists_a_row: bool,
    pub bytes: (usize, usize),
    pub nums: (usize, usize),
    pub dens: (usize, usize),
    pub at: usize,
    pub row: usize,
}

/// A message as it was sent and as it came back. Both stay, to be used again.
#[derive(Default)]
pub struct Message {
    calls: usize,
    sent: Vec<u8>,
    got: Vec<u8>,
}

impl Message {
    /// Begins a message of some calls.
    pub fn begin(&mut self, calls: usize) {
        self.calls = calls;
        self.sent.clear();
        self.sent.resize(NUMBER * (HEAD + CALL * calls), UNTOUCHED);
    }

    /// Adds bytes; answers where they stand.
    pub fn lend(&mut self, bytes: &[u8]) -> Range<usize> {
        let start = self.sent.len();
        self.sent.extend_from_slice(bytes);
        self.guard(start)
    }

    /// Adds a list; answers where its bytes stand.
    pub fn lend_list(&mut self, list: &[i32]) -> Range<usize> {
        let start = self.sent.len();
        self.sent.resize(start + 4 * list.len(), 0);
        for (bytes, number) in self.sent[start..].chunks_exact_mut(4).zip(list) {
            bytes.copy_from_slice(&number.to_le_bytes());
        }
        self.guard(start)
    }

    /// Adds a guard, up to where a number may stand; answers what it stands behind.
    fn guard(&mut self, start: usize) -> Range<usize> {
        let end = self.sent.len();
        self.sent.resize((end + GUARD).next_multiple_of(NUMBER), UNTOUCHED);
        start..end
    }

    /// Asks for the call of some index.
    pub fn ask(&mut self, index: usize, call: Call) {
        let Call { lists_a_row, bytes, nums, dens, at, row } = call;
        let slices = [bytes.0, bytes.1, nums.0, nums.1, dens.0, dens.1];
        let numbers = [usize::from(lists_a_row)].into_iter().chain(slices).chain([at, row]);
        for (place, number) in numbers.enumerate() {
            self.put(HEAD + CALL * index + place, number);
        }
    }

    fn put(&mut self, index: usize, number: usize) {
        let place = &mut self.sent[NUMBER * index..][..NUMBER];
        place.copy_from_slice(&(number as u64).to_le_bytes());
    }

    /// The bytes to send, and room for what comes back.
    pub fn both(&mut self) -> (&[u8], &mut [u8]) {
        let size = self.sent.len();
        assert!(size <= MOST, "a message of {size} bytes is too long");
        self.put(0, size);
        self.put(1, self.calls);
        self.got.resize(size, 0);
        (&self.sent, &mut self.got)
    }

    /// Holds what came back to what was sent, guards and all, except for answers and for what was
    /// lent to be written, which is given in rising order.
    pub fn hold_to_guards(&self, lent_to_write: &[Range<usize>]) {
        let answers = (0..self.calls).map(answer);
        let mut from = 0;
        for open in answers.chain(lent_to_write.iter().cloned()) {
            self.hold_to_sent(from..open.start);
            from = open.end;
        }
        self.hold_to_sent(from..self.sent.len());
    }

    fn hold_to_sent(&self, range: Range<usize>) {
        if self.got[range.clone()] != self.sent[range.clone()] {
            let place = range.clone().find(|&place| self.got[place] != self.sent[place]);
            let place = place.unwrap_or_default();
            panic!(
                "the library wrote where nothing was lent to be written: byte {place} of a message"
            );
        }
    }

    /// Takes bytes that came back.
    pub fn take(&self, range: &Range<usize>, bytes: &mut [u8]) {
        bytes.copy_from_slice(&self.got[range.clone()]);
    }

    /// Takes a list that came back.
    pub fn take_list(&self, range: &Range<usize>, list: &mut [i32]) {
        for (number, bytes) in list.iter_mut().zip(self.got[range.clone()].chunks_exact(4)) {
            *number = i32::from_le_bytes([bytes[0], bytes[1], bytes[2], bytes[3]]);
        }
    }

    /// The answer of the call of some index: its figure, word and refusal.
    pub fn answer(&self, index: usize) -> (usize, u8, u8) {
        let (mut figure, bytes) = ([0; NUMBER], &self.got[answer(index)]);
        figure.copy_from_slice(&bytes[..NUMBER]);
        (u64::from_le_bytes(figure) as usize, bytes[NUMBER], bytes[2 * NUMBER])
    }
}

/// Where the answer of the call of some index stands.
fn answer(index: usize) -> Range<usize> {
    let start = NUMBER * (HEAD + CALL * index + ASKED);
    start..start + ANSWER
}
