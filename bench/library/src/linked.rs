//! The C functions linked into the program, on the processor that they are compiled for.

use crate::{ListRows, Listed, Told};

mod c {
    extern "C" {
        pub fn hamzulaph_decide(
            bytes: *const u8,
            bytes_len: usize,
            nums: *mut i32,
            nums_len: usize,
            dens: *mut i32,
            dens_len: usize,
            number: *mut u8,
            figure: *mut usize,
        ) -> u8;

        pub fn hamzulaph_list_row(
            buf: *mut u8,
            buf_len: usize,
            at: usize,
            nums: *const i32,
            nums_len: usize,
            dens: *const i32,
            dens_len: usize,
            t: usize,
            number: *mut u8,
        ) -> usize;
    }
}

/// Rows are listed one by one.
pub const LIST_ROWS: Option<ListRows> = None;

/// Decides a problem. Both lists are left as document 01 says.
pub fn decide(bytes: &[u8], nums: &mut [i32], dens: &mut [i32]) -> Told {
    // What the call has to write over.
    let (mut number, mut figure) = (0xA5, usize::MAX);
    // SAFETY: each pointer is that of a slice or number lent for the call alone, with its length.
    let word = unsafe {
        c::hamzulaph_decide(
            bytes.as_ptr(),
            bytes.len(),
            nums.as_mut_ptr(),
            nums.len(),
            dens.as_mut_ptr(),
            dens.len(),
            &mut number,
            &mut figure,
        )
    };
    Told { word, number, figure }
}

/// Lists row `t` of two lists into `buf` from place `at` on.
pub fn list_row(buf: &mut [u8], at: usize, nums: &[i32], dens: &[i32], t: usize) -> Listed {
    let mut number = 0xA5;
    // SAFETY: as above.
    let place = unsafe {
        c::hamzulaph_list_row(
            buf.as_mut_ptr(),
            buf.len(),
            at,
            nums.as_ptr(),
            nums.len(),
            dens.as_ptr(),
            dens.len(),
            t,
            &mut number,
        )
    };
    Listed { number, place }
}
