//! The lent numbers.

use super::{A, BANK_NUMBERS, COLUMNS, DST_NUMBERS, REGISTERS, REGISTER_NUMBERS, SRC_NUMBERS};

/// SrcA and SrcB as bank, row, column; Dst as row, column of 32 bits; registers as thread, register.
#[derive(Debug, Clone, PartialEq, Eq)]
pub struct State {
    pub srca: Vec<u32>,
    pub srcb: Vec<u32>,
    pub dst: Vec<u32>,
    pub registers: Vec<u32>,
}

/// Where a row of a Src bank begins.
pub fn src_at(bank: usize, row: usize) -> usize {
    bank * BANK_NUMBERS + row * COLUMNS
}

/// Where a register stands.
pub fn register_at(thread: usize, register: usize) -> usize {
    thread * REGISTERS + register
}

impl State {
    pub fn zero() -> State {
        State {
            srca: vec![0; SRC_NUMBERS],
            srcb: vec![0; SRC_NUMBERS],
            dst: vec![0; DST_NUMBERS],
            registers: vec![0; REGISTER_NUMBERS],
        }
    }

    pub fn fits(&self) -> bool {
        self.srca.len() == SRC_NUMBERS
            && self.srcb.len() == SRC_NUMBERS
            && self.dst.len() == DST_NUMBERS
            && self.registers.len() == REGISTER_NUMBERS
    }

    pub fn src(&self, file: usize) -> &[u32] {
        if file == A {
            &self.srca
        } else {
            &self.srcb
        }
    }

    pub fn src_mut(&mut self, file: usize) -> &mut [u32] {
        if file == A {
            &mut self.srca
        } else {
            &mut self.srcb
        }
    }
}
