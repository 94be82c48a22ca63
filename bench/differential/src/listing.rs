//! Rows listed by both sides into the same buffers.

use crate::lending::{Lengths, Lists, LONGEST, LONGEST_BUFFER, ROOM_BUFFER};
use crate::sides::{Line, Listed, Side};
use plain::gen::Random;
use plain::{COLUMNS, LINE, PLACES, ROWS};

/// A row to list: of which row, from which place of a buffer of which length,
/// out of lists of which lengths.
#[derive(Clone, Copy, Debug)]
pub struct Request {
    /// The row.
    pub row: usize,
    /// The place reached.
    pub at: usize,
    /// The bytes of the buffer that are handed over.
    pub length: usize,
    /// The places of the lists that are handed over.
    pub lengths: Lengths,
}

const EXACT: Lengths = Lengths { nums: PLACES, dens: PLACES };

impl Request {
    /// A row of whole lists, mostly with room for it: exactly enough, a byte
    /// less or more, much more, or none.
    pub fn of_row(row: usize, random: &mut Random) -> Request {
        let at = random.pick(&[0, 0, 1, 7, 100, 1745, 2048, 5000]);
        let length = match random.below(16) {
            0 => at + LINE - 1,
            1 => at,
            2 => at / 2,
            3 => LONGEST_BUFFER,
            4..=6 => at + LINE + 1,
            _ => at + LINE,
        };
        let at = if random.chance(1) { usize::MAX - random.below(3) } else { at };
        Request { row, at, length, lengths: EXACT }
    }

    /// A row that there is not, or lists that are too short, or both.
    pub fn of_none(random: &mut Random) -> Request {
        let row = random.pick(&[0, 63, 64, 65, 127, 1 << 32, usize::MAX]);
        let longer = Lengths { nums: LONGEST, dens: PLACES + 1 };
        let short = Lengths { nums: PLACES - 1, dens: PLACES };
        let other = Lengths { nums: PLACES, dens: random.below(PLACES) };
        let lengths = random.pick(&[EXACT, longer, short, other]);
        Request { lengths, ..Request::of_row(row, random) }
    }
}

/// A request, and what its buffer holds before: noise, with a guard behind.
pub type Asked<'n> = (Request, &'n [u8]);

/// The most rows that are listed together: all of a table, and one more.
const TOGETHER: usize = ROWS + 1;

/// The buffers of one comparison, made once and used for one after the other.
pub struct Pages {
    first: Vec<u8>,
    second: Vec<u8>,
}

impl Pages {
    /// Buffers of zeros.
    pub fn new() -> Pages {
        Pages { first: vec![0; TOGETHER * ROOM_BUFFER], second: vec![0; TOGETHER * ROOM_BUFFER] }
    }
}

impl Default for Pages {
    fn default() -> Pages {
        Pages::new()
    }
}

/// Lists rows with both sides, each into a copy of the same noise. Answers
/// what both listed, or in what they differ.
pub fn compare(
    sides: [Side; 2],
    lists: &Lists,
    asked: &[Asked],
    pages: &mut Pages,
) -> Result<Vec<Listed>, String> {
    let first = list(sides[0], lists, asked, &mut pages.first);
    let second = list(sides[1], lists, asked, &mut pages.second);
    let mut start = 0;
    for (index, &(request, before)) in asked.iter().enumerate() {
        let here = start..start + before.len();
        let buffers = [&pages.first[here.clone()], &pages.second[here.clone()]];
        compare_row(request, before, [first[index], second[index]], buffers)?;
        start = here.end;
    }
    Ok(first)
}

/// Lists rows with one side, into one part of the page after the other.
fn list(side: Side, lists: &Lists, asked: &[Asked], mut page: &mut [u8]) -> Vec<Listed> {
    let mut lines = Vec::with_capacity(asked.len());
    for (request, before) in asked {
        let (buffer, rest) = page.split_at_mut(before.len());
        buffer.copy_from_slice(before);
        let buf = &mut buffer[..request.length];
        let Lengths { nums: nums_len, dens: dens_len } = request.lengths;
        lines.push(Line { buf, at: request.at, nums_len, dens_len, t: request.row });
        page = rest;
    }
    side.list_rows(&mut lines, &lists.nums, &lists.dens)
}

/// Compares what both sides answered for a row, and their buffers.
fn compare_row(
    request: Request,
    before: &[u8],
    [first, second]: [Listed; 2],
    [one, other]: [&[u8]; 2],
) -> Result<(), String> {
    if first != second {
        return Err(format!("{request:?}: {first:?}, the other side {second:?}"));
    }
    if one != other {
        let (ours, others) = (line(one, request, first), line(other, request, first));
        return Err(format!("{request:?}: {first:?} of both, but {ours:?} and {others:?}"));
    }
    as_laid_down(first, request, before, one)
        .map_err(|what| format!("{request:?}: {first:?}, but {what}"))
}

/// The bytes of a line, as text.
fn line(buffer: &[u8], request: Request, listed: Listed) -> String {
    let line = buffer.get(request.at..listed.place).unwrap_or(buffer);
    String::from_utf8_lossy(line).into_owned()
}

/// Holds the buffer to what document 01 says of it for each answer.
fn as_laid_down(
    listed: Listed,
    request: Request,
    before: &[u8],
    after: &[u8],
) -> Result<(), &'static str> {
    if listed.number != 0 {
        let unchanged = listed.place == request.at && after == before;
        return unchanged.then_some(()).ok_or("the place or the buffer changed");
    }
    let (start, end) = (request.at, listed.place);
    if end <= start || end > request.length || end - start > LINE {
        return Err("the place reached cannot be");
    }
    if after[..start] != before[..start] || after[end..] != before[end..] {
        return Err("bytes before or after the line changed");
    }
    (after[end - 1] == b'\n').then_some(()).ok_or("the line has no end")
}

/// Spoils one place of a row: most of these are no fractions in lowest terms.
pub fn spoil(lists: &mut Lists, row: usize, random: &mut Random) {
    let place = COLUMNS * row + random.below(COLUMNS);
    let (num, den) = (&mut lists.nums[place], &mut lists.dens[place]);
    match random.below(10) {
        0 => *den = 0,
        1 => *den = den.wrapping_neg(),
        2 => *num = i32::MIN,
        3 => (*num, *den) = (0, 2),
        4 => (*num, *den) = (random.bits() as i32 & !1, random.bits() as i32 & !1),
        5 => (*num, *den) = (num.wrapping_mul(3), den.wrapping_mul(3)),
        6 => (*num, *den) = (i32::MIN, 1),
        7 => (*num, *den) = (random.bits() as i32, i32::MAX),
        8 => (*num, *den) = (i32::MAX, i32::MIN),
        _ => (*num, *den) = (random.bits() as i32, random.bits() as i32),
    }
}

/// Fills both lists with fractions in lowest terms of every size, some rows
/// with the longest line there is.
pub fn fill_with_fractions(lists: &mut Lists, random: &mut Random) {
    for row in 0..ROWS {
        let longest = random.chance(5);
        for place in COLUMNS * row..COLUMNS * (row + 1) {
            let fraction = if longest { (-i32::MAX, i32::MAX - 1) } else { any_fraction(random) };
            (lists.nums[place], lists.dens[place]) = fraction;
        }
    }
}

/// A fraction in lowest terms, of any size.
fn any_fraction(random: &mut Random) -> (i32, i32) {
    let num = random.bits() as i32 >> random.below(31);
    let den = (random.bits() as i32 & i32::MAX) >> random.below(31);
    if num == 0 || num == i32::MIN || den == 0 {
        return (0, 1);
    }
    let common = greatest(num.unsigned_abs(), den.unsigned_abs()) as i32;
    (num / common, den / common)
}

/// Euclid's rule.
fn greatest(a: u32, b: u32) -> u32 {
    if b == 0 {
        a
    } else {
        greatest(b, a % b)
    }
}
