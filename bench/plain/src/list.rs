//! Listing a decided problem as text.

use crate::decide::{decide, Answer};
use crate::fraction::Fraction;
use crate::table::{grid, COLUMNS, CONSTANT, PLACES};

/// The bytes that must be free to list a row; no line is longer.
pub const LINE: usize = 2048;

const SPACE: u8 = 1;
const ROW: u8 = 8;

/// A buffer and the place reached in it.
struct Writer<'a> {
    buffer: &'a mut [u8],
    place: usize,
}

impl Writer<'_> {
    fn text(&mut self, text: &[u8]) {
        self.buffer[self.place..self.place + text.len()].copy_from_slice(text);
        self.place += text.len();
    }

    /// A number in decimal digits.
    fn number(&mut self, mut number: u32) {
        let mut digits = [b'0'; 10];
        let mut first = digits.len();
        loop {
            first -= 1;
            digits[first] = b'0' + (number % 10) as u8;
            number /= 10;
            if number == 0 {
                break;
            }
        }
        self.text(&digits[first..]);
    }

    /// A blank, a sign and a fraction.
    fn fraction(&mut self, num: i32, den: i32) {
        self.text(if num < 0 { b" -" } else { b" +" });
        self.number(num.unsigned_abs());
        if den != 1 {
            self.text(b"/");
            self.number(den.unsigned_abs());
        }
    }

    /// The piece of one column, if it is not zero.
    fn piece(&mut self, column: usize, num: i32, den: i32) {
        if num == 0 {
            return;
        }
        self.fraction(num, den);
        if column != CONSTANT {
            self.text(b"*t");
            self.number(column as u32);
        }
    }

    /// The whole line of a row.
    fn line(&mut self, row: usize, nums: &[i32; COLUMNS], dens: &[i32; COLUMNS]) {
        self.number(row as u32);
        self.text(b":");
        for (column, (&num, &den)) in nums.iter().zip(dens).enumerate() {
            self.piece(column, num, den);
        }
        if nums.iter().all(|&num| num == 0) {
            self.text(b" 0");
        }
        self.text(b"\n");
    }
}

/// Lists one row into `buf` from place `at` on. Answers the new place, or on
/// refusal the number and the old place.
pub fn list_row(
    nums: &[i32],
    dens: &[i32],
    row: usize,
    buf: &mut [u8],
    at: usize,
) -> Result<usize, (u8, usize)> {
    let (Some(nums), Some(dens)) = (grid(nums), grid(dens)) else {
        return Err((SPACE, at));
    };
    if buf.len().saturating_sub(at) < LINE {
        return Err((SPACE, at));
    }
    let (Some(nums), Some(dens)) = (nums.get(row), dens.get(row)) else {
        return Err((ROW, at));
    };
    if nums.iter().zip(dens).any(|(&num, &den)| !Fraction::is_lowest(num, den)) {
        return Err((ROW, at));
    }
    let mut writer = Writer { buffer: buf, place: at };
    writer.line(row, nums, dens);
    Ok(writer.place)
}

/// The whole output of the program for a problem.
pub fn listing(bytes: &[u8]) -> String {
    let (mut nums, mut dens) = ([0; PLACES], [0; PLACES]);
    let answer = decide(bytes, &mut nums, &mut dens);
    let mut text = first_line(answer);
    if matches!(answer, Answer::Entailed { .. } | Answer::NotEntailed { .. }) {
        for row in 0..usize::from(bytes[0]) {
            text.push_str(&row_text(&nums, &dens, row));
        }
    }
    text
}

fn first_line(answer: Answer) -> String {
    match answer {
        Answer::Entailed { solved } => format!("entailed 0 {solved}\n"),
        Answer::NotEntailed { solved } => format!("not-entailed 0 {solved}\n"),
        Answer::Contradictory { place } => format!("contradictory {place} 0\n"),
        Answer::Refused { number, place } => format!("refused {number} {place}\n"),
    }
}

/// The line of a row of a table that [`decide`] has left.
fn row_text(nums: &[i32; PLACES], dens: &[i32; PLACES], row: usize) -> String {
    let mut buffer = [0; LINE];
    let end = list_row(nums, dens, row, &mut buffer, 0).expect("a decided row can be listed");
    String::from_utf8_lossy(&buffer[..end]).into_owned()
}
