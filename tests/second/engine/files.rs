//! The three files of rows.

use super::{Width, SRC_BITS, SRC_ROWS};

pub const A: usize = 0;
pub const B: usize = 1;
pub const D: usize = 2;
/// The two that have banks; they double as indexes for what A and B have in common.
pub const SRC: [usize; 2] = [A, B];
pub const FILES: [&str; 3] = ["SrcA", "SrcB", "Dst"];

/// How many rows a file has, SrcA and SrcB in a bank.
pub fn rows_of(file: usize, width: Width) -> usize {
    if file == D {
        width.rows()
    } else {
        SRC_ROWS
    }
}

/// The highest value that may be loaded into a file.
pub fn top_of(file: usize, width: Width) -> u32 {
    if file == D {
        width.top()
    } else {
        (1 << SRC_BITS) - 1
    }
}
