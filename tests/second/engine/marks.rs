//! Which rows and registers a job's fields have set so far.

use super::{BANKS, MOST_DST_ROWS, REGISTERS, SRC_ROWS, THREADS};

#[derive(Debug, Clone, PartialEq, Eq)]
pub struct Marks {
    /// By file, bank, row.
    pub src: [[[bool; SRC_ROWS]; BANKS]; 2],
    /// Of these the first 512 alone where Dst has no more rows.
    pub dst: [bool; MOST_DST_ROWS],
    /// By thread, register.
    pub registers: [[bool; REGISTERS]; THREADS],
}

impl Marks {
    pub fn start() -> Marks {
        Marks {
            src: [[[false; SRC_ROWS]; BANKS]; 2],
            dst: [false; MOST_DST_ROWS],
            registers: [[false; REGISTERS]; THREADS],
        }
    }
}

/// Are all of these rows set?
pub fn all_set(marks: &[bool]) -> bool {
    marks.iter().all(|&mark| mark)
}
