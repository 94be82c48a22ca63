//! The two sides of a comparison.

pub use library::{Line, ListRows, Listed, Told};
use plain::Answer;

/// Decides a problem over two lent lists.
pub type Decide = fn(bytes: &[u8], nums: &mut [i32], dens: &mut [i32]) -> Told;

/// Lists row `t` of two lists into a buffer.
pub type ListRow = fn(buf: &mut [u8], at: usize, nums: &[i32], dens: &[i32], t: usize) -> Listed;

/// An implementation of document 01, as two functions.
#[derive(Clone, Copy)]
pub struct Side {
    /// How it decides.
    pub decide: Decide,
    /// How it lists a row.
    pub list_row: ListRow,
    /// How it lists several rows together, if not one by one.
    pub together: Option<ListRows>,
}

impl Side {
    /// Lists several rows of two lists.
    pub fn list_rows(&self, lines: &mut [Line], nums: &[i32], dens: &[i32]) -> Vec<Listed> {
        if let Some(list_rows) = self.together {
            return list_rows(lines, nums, dens);
        }
        let list_row = |line: &mut Line| {
            let (nums, dens) = (&nums[..line.nums_len], &dens[..line.dens_len]);
            (self.list_row)(line.buf, line.at, nums, dens, line.t)
        };
        lines.iter_mut().map(list_row).collect()
    }
}

/// The proved library.
pub const OURS: Side =
    Side { decide: library::decide, list_row: library::list_row, together: library::LIST_ROWS };

/// The implementation in plain Rust.
pub const PLAIN: Side = Side { decide: plain_decide, list_row: plain_list_row, together: None };

/// The words of an answer, by number.
pub const WORDS: [&str; 4] = ["entailed", "not-entailed", "contradictory", "refused"];

fn plain_decide(bytes: &[u8], nums: &mut [i32], dens: &mut [i32]) -> Told {
    told(plain::decide(bytes, nums, dens))
}

/// An answer in numbers.
fn told(answer: Answer) -> Told {
    let (word, number, figure) = match answer {
        Answer::Entailed { solved } => (0, 0, solved),
        Answer::NotEntailed { solved } => (1, 0, solved),
        Answer::Contradictory { place } => (2, 0, place),
        Answer::Refused { number, place } => (3, number, place),
    };
    Told { word, number, figure: figure as usize }
}

fn plain_list_row(buf: &mut [u8], at: usize, nums: &[i32], dens: &[i32], t: usize) -> Listed {
    match plain::list_row(nums, dens, t, buf, at) {
        Ok(place) => Listed { number: 0, place },
        Err((number, place)) => Listed { number, place },
    }
}
