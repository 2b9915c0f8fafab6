//! The control record.

use super::{
    Width, A, B, BANKS, BLOCK, DST_COUNTS, FORMATS, PHASES, SLOTS, SRC_COUNTS, SRC_ROWS, THREADS,
};

/// The SrcA formats under which something is modelled.
pub const BF16: u8 = 2;
pub const TF32: u8 = 6;

/// The settings' flags.
pub const FP32: u8 = 1;
pub const INT8: u8 = 2;
pub const FP16A: u8 = 4;
/// The switches that keep a bank through a clear, by file.
pub const KEEP: [u8; 2] = [8, 16];
/// All of them, from bit 0 on without a gap; every other bit is 0.
pub const FLAGS: u8 = KIND_FLAGS | KEEP[A] | KEEP[B];
/// Those that, with the format, decide what is modelled.
pub const KIND_FLAGS: u8 = FP32 | INT8 | FP16A;

/// A slot's flags, those of SrcA and SrcB by file.
pub const SRC_CLEAR: [u8; 2] = [1, 4];
pub const SRC_CARRY: [u8; 2] = [2, 8];
pub const DST_CLEAR: u8 = 16;
pub const DST_CARRY: u8 = 32;
pub const DST_COPY: u8 = 64;
pub const FIDELITY_CLEAR: u8 = 128;
/// Each with its name.
pub const SLOT_FLAGS: [(u8, &str); 8] = [
    (SRC_CLEAR[A], "SrcA clear"),
    (SRC_CARRY[A], "SrcA carry"),
    (SRC_CLEAR[B], "SrcB clear"),
    (SRC_CARRY[B], "SrcB carry"),
    (DST_CLEAR, "Dst clear"),
    (DST_CARRY, "Dst carry"),
    (DST_COPY, "Dst copy"),
    (FIDELITY_CLEAR, "fidelity clear"),
];

#[derive(Debug, Clone, Copy, Default, PartialEq, Eq)]
pub enum Owner {
    #[default]
    Unpackers,
    Matrix,
}

#[derive(Debug, Clone, Copy, Default, PartialEq, Eq)]
pub struct Slot {
    /// The steps of SrcA and SrcB.
    pub src_step: [u8; 2],
    pub dst_step: u16,
    pub fidelity_step: u8,
    pub flags: u8,
}

impl Slot {
    fn in_range(&self) -> bool {
        self.src_step[A] < SRC_COUNTS
            && self.src_step[B] < SRC_COUNTS
            && self.dst_step < DST_COUNTS
            && self.fidelity_step < PHASES
    }
}

#[derive(Debug, Clone, Copy, Default, PartialEq, Eq)]
pub struct Thread {
    pub dst: u16,
    pub dst_cr: u16,
    /// The counters of SrcA and SrcB, and their carries.
    pub src: [u8; 2],
    pub src_cr: [u8; 2],
    pub phase: u8,
    pub extra: u8,
    pub offset: u16,
    pub fidelity_base: u8,
    pub slots: [Slot; SLOTS],
}

impl Thread {
    /// The slot that a word's two-bit number means.
    pub fn slot(&self, number: u32) -> usize {
        number as usize + SLOTS / 2 * self.extra as usize
    }

    fn counters_in_range(&self) -> bool {
        self.dst < DST_COUNTS
            && self.dst_cr < DST_COUNTS
            && self.src[A] < SRC_COUNTS
            && self.src[B] < SRC_COUNTS
            && self.src_cr[A] < SRC_COUNTS
            && self.src_cr[B] < SRC_COUNTS
            && self.phase < PHASES
    }

    fn settings_in_range(&self) -> bool {
        self.offset < DST_COUNTS
            && self.fidelity_base < PHASES
            && self.extra <= 1
            && self.slots.iter().all(Slot::in_range)
    }
}

/// Pairs are SrcA's number, then SrcB's.
#[derive(Debug, Clone, Default, PartialEq, Eq)]
pub struct Control {
    pub format: u8,
    pub flags: u8,
    pub base: u16,
    pub threads: [Thread; THREADS],
    /// The matrix unit's and the unpackers' bank pointers.
    pub matrix: [u8; 2],
    pub unpackers: [u8; 2],
    /// By file, then bank.
    pub owner: [[Owner; BANKS]; 2],
    /// The last SrcA row: where SHIFTXA's source begins.
    pub last: u8,
}

/// Does a phase take a file's low part?
pub fn takes_low(phase: u8, file: usize) -> bool {
    (phase >> file) & 1 == 1
}

impl Control {
    pub fn start() -> Control {
        Control::default()
    }

    /// The start record under a format and flags.
    pub fn under(format: u8, flags: u8) -> Control {
        Control {
            format,
            flags,
            ..Control::start()
        }
    }

    /// Are the settings and slots as a settings field allows them?
    pub fn settings_in_range(&self) -> bool {
        self.format < FORMATS
            && self.flags <= FLAGS
            && self.base < DST_COUNTS
            && self.threads.iter().all(Thread::settings_in_range)
    }

    pub fn in_range(&self) -> bool {
        let bank = |pointer: u8| usize::from(pointer) < BANKS;
        self.settings_in_range()
            && self.threads.iter().all(Thread::counters_in_range)
            && bank(self.matrix[A])
            && bank(self.matrix[B])
            && bank(self.unpackers[A])
            && bank(self.unpackers[B])
            && usize::from(self.last) < SRC_ROWS
            && usize::from(self.last) % BLOCK == 0
    }

    /// The format, and the flags that matter beside it.
    pub fn kind(&self) -> (u8, u8) {
        (self.format, self.flags & KIND_FLAGS)
    }

    pub fn width(&self) -> Width {
        Width::of(self.format, self.flags)
    }

    /// The settings under which a multiply is modelled.
    pub fn modelled(&self) -> bool {
        matches!(self.kind(), (BF16 | TF32, FP32) | (BF16, 0))
    }

    pub fn matrix_bank(&self, file: usize) -> usize {
        self.matrix[file] as usize
    }

    pub fn unpackers_bank(&self, file: usize) -> usize {
        self.unpackers[file] as usize
    }

    pub fn matrix_has(&self, file: usize) -> bool {
        self.owner[file][self.matrix_bank(file)] == Owner::Matrix
    }

    pub fn unpackers_have(&self, file: usize) -> bool {
        self.owner[file][self.unpackers_bank(file)] == Owner::Unpackers
    }

    /// Does a clear keep a file's bank, its owner and its marks, and move the pointer alone?
    pub fn keeps(&self, file: usize) -> bool {
        self.flags & KEEP[file] != 0
    }

    /// The first SrcA row of a multiply or a legacy instruction; either leaves it as the last one.
    pub fn a_row(&self, thread: usize) -> usize {
        (self.threads[thread].src[A] & 0x30) as usize
    }

    /// A multiply's first SrcB row and phase.
    pub fn b_row(&self, thread: usize) -> usize {
        (self.threads[thread].src[B] & 0x38) as usize
    }

    pub fn phase(&self, thread: usize) -> u8 {
        (self.threads[thread].phase + self.threads[thread].fidelity_base) % PHASES
    }

    /// What a multiply adds up before it masks the Dst row.
    pub fn dst_sum(&self, thread: usize, dst: u32) -> u32 {
        let t = &self.threads[thread];
        dst + u32::from(t.offset) + u32::from(t.dst) + u32::from(self.base)
    }
}
