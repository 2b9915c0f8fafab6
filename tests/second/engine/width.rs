//! Dst's two widths.

use std::cmp::Ordering;

use super::{BF16, DST_NUMBERS, DST_ROWS, KIND_FLAGS};

/// How wide a Dst number is. The settings decide it, and so it is one for a whole job.
#[derive(Debug, Clone, Copy, PartialEq, Eq)]
pub enum Width {
    /// 512 rows of 32-bit numbers, the lent ones.
    Bits32,
    /// 1,024 rows of 16-bit numbers: the low halves of the lent rows, then their high halves.
    Bits16,
}

/// The most rows that Dst has in any width.
pub const MOST_DST_ROWS: usize = Width::Bits16.rows();

impl Width {
    pub const ALL: [Width; 2] = [Width::Bits32, Width::Bits16];

    /// The width under a format and flags: 16 bits for BF16 with Fp32, INT8 and FP16A force off.
    pub fn of(format: u8, flags: u8) -> Width {
        if format == BF16 && flags & KIND_FLAGS == 0 {
            Width::Bits16
        } else {
            Width::Bits32
        }
    }

    pub const fn bits(self) -> usize {
        match self {
            Width::Bits32 => 32,
            Width::Bits16 => 16,
        }
    }

    pub const fn rows(self) -> usize {
        DST_ROWS * (32 / self.bits())
    }

    /// The digits of a printed number.
    pub fn digits(self) -> usize {
        self.bits() / 4
    }

    /// The highest number.
    pub fn top(self) -> u32 {
        u32::MAX >> (32 - self.bits())
    }

    /// A number has a sign, eight bits of exponent and a mantissa in the rest.
    pub fn sign(self) -> u32 {
        1 << (self.bits() - 1)
    }

    pub fn mantissa_bits(self) -> usize {
        self.bits() - 9
    }

    pub fn infinity(self) -> u32 {
        255 << self.mantissa_bits()
    }

    /// What a result that isn't a number is stored as.
    pub fn nan(self) -> u32 {
        match self {
            Width::Bits32 => 0x7FC0_0000,
            Width::Bits16 => 0x7FC0,
        }
    }

    /// The number at row * 16 + column.
    pub fn get(self, dst: &[u32], at: usize) -> u32 {
        (dst[at % DST_NUMBERS] >> (at / DST_NUMBERS * self.bits())) & self.top()
    }

    /// Stores a number there; the other half of the lent number, where there is one, stays.
    pub fn put(self, dst: &mut [u32], at: usize, number: u32) {
        let place = at / DST_NUMBERS * self.bits();
        let lent = &mut dst[at % DST_NUMBERS];
        *lent = (*lent & !(self.top() << place)) | (number << place);
    }

    /// The binary32 number that a Dst number stands for.
    pub fn widen(self, number: u32) -> f32 {
        f32::from_bits(number << (32 - self.bits()))
    }

    /// A binary32 result as it is stored.
    pub fn narrow(self, result: f32) -> u32 {
        match self {
            _ if result.is_nan() => self.nan(),
            Width::Bits32 => result.to_bits(),
            Width::Bits16 => nearest_bf16(result.to_bits()),
        }
    }
}

/// The BF16 number nearest to a binary32 number, of two equally near ones the even one. The
/// neighbours are the upper 16 bits alone and the next number away from zero, which is infinity
/// above the largest finite one; the lower 16 bits tell which is nearer.
fn nearest_bf16(bits: u32) -> u32 {
    let (toward_zero, rest) = (bits >> 16, bits & 0xFFFF);
    match rest.cmp(&0x8000) {
        Ordering::Less => toward_zero,
        Ordering::Equal => toward_zero + toward_zero % 2,
        Ordering::Greater => toward_zero + 1,
    }
}
