//! Document 01's table of instruction fields.

use std::ops::Range;

use super::{named, A, B};

named! {
    /// What the table calls the bits of a word, for those who make words or tell what is in them.
    /// The files of ZEROSRC, the counters of SETRWC and INCRWC and the registers of a scalar
    /// instruction each have an A and a B.
    pub enum Name {
        Clear = "clear",
        Mode = "mode",
        Slot = "slot",
        Dst = "dst",
        Either = "either",
        CounterD = "d",
        CounterB = "b",
        CounterA = "a",
        Which = "which",
        Value = "value",
        WriteMode = "write mode",
        BothBanks = "both banks",
        FileB = "B",
        FileA = "A",
        ZeroFill = "zero fill",
        Row = "row",
        Bits = "bits",
        Constant = "constant",
        Result = "result",
        RegisterB = "B",
        RegisterA = "A",
    }
}

/// Named bits; a value outside of the defined ones is an undefined mode.
#[derive(Debug, Clone, Copy)]
pub struct Bits {
    pub name: Name,
    /// The lowest bit, and all of them.
    low: u32,
    mask: u32,
    /// Lowest and highest.
    pub defined: (u32, u32),
}

const fn bits(name: Name, high: u32, low: u32) -> Bits {
    let top = (1 << (high - low + 1)) - 1;
    Bits {
        name,
        low,
        mask: top << low,
        defined: (0, top),
    }
}

const fn mode(high: u32, low: u32, defined: (u32, u32)) -> Bits {
    Bits {
        defined,
        ..bits(Name::Mode, high, low)
    }
}

impl Bits {
    pub fn count(&self) -> u32 {
        self.mask.count_ones()
    }

    pub fn get(&self, word: u32) -> u32 {
        (word & self.mask) >> self.low
    }

    pub fn put(&self, word: u32, value: u32) -> u32 {
        (word & !self.mask) | ((value << self.low) & self.mask)
    }

    pub fn defines(&self, value: u32) -> bool {
        self.defined.0 <= value && value <= self.defined.1
    }
}

#[derive(Debug, Clone, Copy, PartialEq, Eq)]
pub enum Scalar {
    Bitwise,
    Shift,
    Compare,
}

#[derive(Debug, Clone, Copy, PartialEq, Eq)]
pub enum Class {
    Multiply { rows: usize, mask: u32 },
    Legacy,
    SetRwc,
    IncRwc,
    ZeroSrc,
    ShiftXa,
    ShiftXb,
    Nothing,
    Scalar(Scalar),
}

impl Class {
    /// Does an instruction need the matrix bank of a file?
    pub fn needs(self, file: usize) -> bool {
        match self {
            Class::Multiply { .. } | Class::Legacy => true,
            Class::ShiftXa => file == A,
            Class::ShiftXb => file == B,
            Class::SetRwc | Class::IncRwc | Class::ZeroSrc => false,
            Class::Nothing | Class::Scalar(_) => false,
        }
    }

    pub fn needs_a_bank(self) -> bool {
        self.needs(A) || self.needs(B)
    }

    /// The Dst rows that a multiply takes at a sum of dst field, offset, counter and base.
    pub fn dst_rows(self, sum: u32) -> Option<Range<usize>> {
        let Class::Multiply { rows, mask } = self else {
            return None;
        };
        let first = (sum & mask) as usize;
        Some(first..first + rows)
    }

    pub fn is_multiply(self) -> bool {
        matches!(self, Class::Multiply { .. })
    }

    pub fn is_scalar(self) -> bool {
        matches!(self, Class::Scalar(_))
    }
}

#[derive(Debug)]
pub struct Entry {
    pub name: &'static str,
    pub opcode: u8,
    pub class: Class,
    pub bits: &'static [Bits],
    /// All bits that the table names, the opcode's among them.
    pub named: u32,
    /// Where its mode and its slot stand, as these differ from row to row.
    pub mode: Option<Bits>,
    pub slot: Option<Bits>,
}

const EIGHT: Class = Class::Multiply {
    rows: 8,
    mask: 0x3F8,
};
const FOUR: Class = Class::Multiply {
    rows: 4,
    mask: 0x3FC,
};
const BITWISE: Class = Class::Scalar(Scalar::Bitwise);
const SHIFT: Class = Class::Scalar(Scalar::Shift);
const COMPARE: Class = Class::Scalar(Scalar::Compare);

pub const CLEAR: Bits = bits(Name::Clear, 23, 22);
const SLOT: Bits = bits(Name::Slot, 15, 14);
pub const DST: Bits = bits(Name::Dst, 13, 0);
pub const COUNTER_D: Bits = bits(Name::CounterD, 17, 14);
const COUNTER_B: Bits = bits(Name::CounterB, 13, 10);
const COUNTER_A: Bits = bits(Name::CounterA, 9, 6);
pub const WHICH: Bits = bits(Name::Which, 3, 0);
pub const VALUE: Bits = bits(Name::Value, 23, 4);
pub const WRITE_MODE: Bits = bits(Name::WriteMode, 3, 3);
pub const BOTH_BANKS: Bits = bits(Name::BothBanks, 2, 2);
const FILE_B: Bits = bits(Name::FileB, 1, 1);
const FILE_A: Bits = bits(Name::FileA, 0, 0);
pub const ZERO_FILL: Bits = bits(Name::ZeroFill, 10, 10);
pub const ROW: Bits = bits(Name::Row, 9, 0);
pub const CONSTANT: Bits = bits(Name::Constant, 23, 23);
pub const RESULT: Bits = bits(Name::Result, 17, 12);
pub const REGISTER_B: Bits = bits(Name::RegisterB, 11, 6);
pub const REGISTER_A: Bits = bits(Name::RegisterA, 5, 0);

/// By file.
pub const COUNTERS: [Bits; 2] = [COUNTER_A, COUNTER_B];
pub const ZEROED: [Bits; 2] = [FILE_A, FILE_B];

const MULTIPLY: &[Bits] = &[CLEAR, mode(21, 19, (0, 0)), SLOT, DST];
const POOL: &[Bits] = &[CLEAR, mode(21, 19, (0, 1)), bits(Name::Slot, 16, 15), DST];
const LEGACY: &[Bits] = &[CLEAR, bits(Name::Either, 17, 17), SLOT, DST];
const SET: &[Bits] = &[
    CLEAR,
    mode(21, 18, (0, 0)),
    COUNTER_D,
    COUNTER_B,
    COUNTER_A,
    WHICH,
];
const INC: &[Bits] = &[mode(23, 18, (0, 0)), COUNTER_D, COUNTER_B, COUNTER_A];
const ZERO: &[Bits] = &[VALUE, WRITE_MODE, BOTH_BANKS, FILE_B, FILE_A];
const SHIFT_B: &[Bits] = &[SLOT, ZERO_FILL, ROW];

/// With modes from 0 to the last one.
const fn scalar(last: u32) -> [Bits; 5] {
    let mode = mode(20, 18, (0, last));
    [CONSTANT, mode, RESULT, REGISTER_B, REGISTER_A]
}

const OPCODE: u32 = 24;
/// All bits below it.
pub const BELOW_OPCODE: u32 = (1 << OPCODE) - 1;

const fn named(bits: &[Bits]) -> u32 {
    let (mut named, mut n) = (0xFF << OPCODE, 0);
    while n < bits.len() {
        named |= bits[n].mask;
        n += 1;
    }
    named
}

/// Those of a name, found when the table is compiled.
const fn only(bits: &[Bits], name: Name) -> Option<Bits> {
    let mut n = 0;
    while n < bits.len() {
        if bits[n].name as u32 == name as u32 {
            return Some(bits[n]);
        }
        n += 1;
    }
    None
}

/// Each row as an entry of its name, and all of them as the table.
macro_rules! table {
    ($($name:ident $opcode:literal, $class:expr, $bits:expr;)*) => {
        $(pub static $name: Entry = Entry {
            name: stringify!($name),
            opcode: $opcode,
            class: $class,
            bits: $bits,
            named: named($bits),
            mode: only($bits, Name::Mode),
            slot: only($bits, Name::Slot),
        };)*

        pub static TABLE: &[&Entry] = &[$(&$name),*];
    };
}

table! {
    MVMUL 0x26, EIGHT, MULTIPLY;
    DOTPV 0x29, EIGHT, MULTIPLY;
    GAPOOL 0x34, FOUR, POOL;
    CONV3S1 0x22, Class::Legacy, LEGACY;
    CONV3S2 0x23, Class::Legacy, LEGACY;
    MPOOL3S1 0x24, Class::Legacy, LEGACY;
    APOOL3S1 0x25, Class::Legacy, LEGACY;
    MPOOL3S2 0x31, Class::Legacy, LEGACY;
    APOOL3S2 0x32, Class::Legacy, LEGACY;
    SETRWC 0x37, Class::SetRwc, SET;
    INCRWC 0x38, Class::IncRwc, INC;
    ZEROSRC 0x11, Class::ZeroSrc, ZERO;
    SHIFTXA 0x17, Class::ShiftXa, &[mode(1, 0, (2, 3))];
    SHIFTXB 0x18, Class::ShiftXb, SHIFT_B;
    GATESRCRST 0x35, Class::Nothing, &[bits(Name::Bits, 1, 0)];
    CLREXPHIST 0x21, Class::Nothing, &[];
    FLUSHDMA 0x46, Class::Nothing, &[bits(Name::Bits, 3, 0)];
    BITWOPDMAREG 0x5B, BITWISE, &scalar(2);
    SHIFTDMAREG 0x5C, SHIFT, &scalar(1);
    CMPDMAREG 0x5D, COMPARE, &scalar(2);
}

/// The entries by opcode.
static BY_OPCODE: [Option<&Entry>; 256] = {
    let (mut entries, mut n) = ([None; 256], 0);
    while n < TABLE.len() {
        entries[TABLE[n].opcode as usize] = Some(TABLE[n]);
        n += 1;
    }
    entries
};

impl Entry {
    /// The entry of a word's opcode.
    pub fn of(word: u32) -> Option<&'static Entry> {
        BY_OPCODE[(word >> OPCODE) as usize]
    }

    /// The bits below the opcode that its row does not name, from the lowest on.
    pub fn unnamed(&self) -> impl Iterator<Item = u8> {
        let named = self.named;
        (0..OPCODE as u8).filter(move |bit| (named >> bit) & 1 == 0)
    }

    pub fn find(&self, name: Name) -> Option<&'static Bits> {
        self.bits.iter().find(|bits| bits.name == name)
    }

    /// A word with these fields, the others 0.
    pub fn word(&self, fields: &[(Name, u32)]) -> u32 {
        let mut word = u32::from(self.opcode) << OPCODE;
        for &(name, value) in fields {
            word = self.put(word, name, value);
        }
        word
    }

    /// The word with a field changed.
    pub fn put(&self, word: u32, name: Name, value: u32) -> u32 {
        self.find(name).expect("bits of this name").put(word, value)
    }
}
