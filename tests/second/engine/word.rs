//! A word taken apart.

use std::ops::Range;

use super::{
    Bits, Class, Control, Entry, Refusal, B, BOTH_BANKS, CLEAR, DST, ROW, SRC_ROWS, ZEROED,
};

/// A word that broke none of the rules 2 to 4 (or is only looked at).
#[derive(Debug, Clone, Copy)]
pub struct Instruction {
    pub entry: &'static Entry,
    pub word: u32,
}

impl Instruction {
    /// A word of the table, with whatever fields.
    #[inline]
    pub fn of(word: u32) -> Option<Instruction> {
        Entry::of(word).map(|entry| Instruction { entry, word })
    }

    /// Bits that stand in its row.
    pub fn get(&self, bits: Bits) -> u32 {
        bits.get(self.word)
    }

    pub fn on(&self, bits: Bits) -> bool {
        self.get(bits) == 1
    }

    /// The mode, 0 where its row has none.
    pub fn mode(&self) -> u32 {
        self.entry.mode.map_or(0, |mode| self.get(mode))
    }

    /// The lowest bit that is 1 though its row does not name it.
    #[inline]
    pub fn offending(&self) -> Option<u8> {
        // Most words have none, and are not walked bit by bit.
        if self.word & !self.entry.named == 0 {
            return None;
        }
        self.entry.unnamed().find(|bit| (self.word >> bit) & 1 == 1)
    }

    /// The two-bit number of its slot.
    pub fn slot(&self) -> Option<u32> {
        self.entry.slot.map(|slot| self.get(slot))
    }

    /// Does it clear a file's bank? The record tells whether the bank is kept.
    pub fn clears(&self, file: usize) -> bool {
        match self.entry.class {
            Class::Multiply { .. } | Class::Legacy | Class::SetRwc => {
                (self.get(CLEAR) >> file) & 1 == 1
            }
            Class::IncRwc | Class::ZeroSrc | Class::ShiftXa => false,
            Class::ShiftXb | Class::Nothing | Class::Scalar(_) => false,
        }
    }

    /// The Dst rows that a multiply reads and writes.
    #[inline]
    pub fn dst_rows(&self, control: &Control, thread: usize) -> Option<Range<usize>> {
        let sum = control.dst_sum(thread, self.get(DST));
        self.entry.class.dst_rows(sum)
    }

    /// Does ZEROSRC fill this bank of a file?
    pub fn fills(&self, control: &Control, file: usize, bank: usize) -> bool {
        let meant = self.on(BOTH_BANKS) || bank == control.unpackers_bank(file);
        self.on(ZEROED[file]) && meant
    }

    /// The row of SrcB that SHIFTXB moves.
    pub fn shifted_row(&self, control: &Control, thread: usize) -> usize {
        (self.get(ROW) as usize + control.threads[thread].src[B] as usize) % SRC_ROWS
    }
}

/// A word's fields, or the lowest of the rules 2 to 4 that it breaks.
#[inline]
pub fn decode(word: u32) -> Result<Instruction, Refusal> {
    let it = Instruction::of(word).ok_or(Refusal::UnknownOpcode)?;
    if let Some(bit) = it.offending() {
        return Err(Refusal::UnnamedBit { bit });
    }
    match it.entry.mode {
        Some(mode) if !mode.defines(mode.get(word)) => Err(Refusal::UndefinedMode),
        _ => Ok(it),
    }
}
