//! The sizes of document 01, each in this place alone. What order 1 makes of Dst's rows is `Width`'s.

/// A job's greatest length in bytes.
pub const JOB_BYTES: usize = 8192;
/// The most rows that one field loads or puts out.
pub const FIELD_ROWS: usize = 64;

/// Numbers in a row.
pub const COLUMNS: usize = 16;
/// SrcA and SrcB: banks of each, and rows of a bank.
pub const BANKS: usize = 2;
pub const SRC_ROWS: usize = 64;
/// Rows of Dst as it is lent.
pub const DST_ROWS: usize = 512;
pub const THREADS: usize = 3;
/// Registers of a thread.
pub const REGISTERS: usize = 64;

/// Numbers of a bank, and of each lent slice.
pub const BANK_NUMBERS: usize = SRC_ROWS * COLUMNS;
pub const SRC_NUMBERS: usize = BANKS * BANK_NUMBERS;
pub const DST_NUMBERS: usize = DST_ROWS * COLUMNS;
pub const REGISTER_NUMBERS: usize = THREADS * REGISTERS;

/// The rows of SrcA that a multiply or a SHIFTXA takes: one for each column of a SrcB row.
pub const BLOCK: usize = COLUMNS;
pub const BLOCK_NUMBERS: usize = BLOCK * COLUMNS;

/// How many values a counter has; it wraps there.
pub const SRC_COUNTS: u8 = 64;
pub const DST_COUNTS: u16 = 1024;
pub const PHASES: u8 = 4;

/// Address slots of a thread; a word names one of the half that the extra bit chooses.
pub const SLOTS: usize = 8;
/// SrcA formats that the settings may name.
pub const FORMATS: u8 = 14;
/// Bits of a Src value.
pub const SRC_BITS: u32 = 19;
