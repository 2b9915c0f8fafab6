//! Numbers, and lent states of them.

use super::rng::Rng;
use super::tiny::Tiny;
use crate::engine::{
    datum, State, Width, A, BLOCK, BLOCK_NUMBERS, COLUMNS, D, MANTISSAS, REGISTERS, SRC, SRC_BITS,
};

const STYLES: u32 = 9;

/// Src values; one style is kept for all, or infinities would drown all else.
fn src_values(rng: &mut Rng, count: usize) -> Vec<u32> {
    let style = rng.below(STYLES);
    (0..count).map(|_| src_value(rng, style)).collect()
}

fn src_value(rng: &mut Rng, style: u32) -> u32 {
    let e = match style {
        0 | 1 => 119 + rng.below(16),
        2 => rng.below(256),
        3 => 52 + rng.below(24),
        4 => 182 + rng.below(14),
        5 => rng.pick(&[1, 1, 2, 253, 254, 127]),
        6 if !rng.one_in(4) => 0,
        7 if rng.one_in(20) => rng.pick(&[0, 255]),
        // Few and far apart, so that sums keep few digits and fall on a rounding's middle.
        8 if !rng.one_in(4) => 0,
        8 => 95 + rng.below(33),
        _ => 123 + rng.below(8),
    };
    let m = match rng.below(8) {
        _ if style == 8 => rng.pick(&[0, 0, 8, 32, 40]),
        0 | 1 => 0,
        2 => 1023,
        3 => 1016,
        4 => rng.below(8),
        5 => rng.below(64),
        _ => rng.below(MANTISSAS),
    };
    datum(rng.below(2), e, m)
}

pub fn dst_number(rng: &mut Rng, width: Width) -> u32 {
    let digits = width.mantissa_bits();
    let sign = rng.below(2) * width.sign();
    let (infinity, mantissas) = (width.infinity(), 1 << digits);
    match rng.below(16) {
        0 => sign,
        1 => sign | infinity,
        2 => sign | (infinity + 1 + rng.below(mantissas - 1)),
        3 => sign | (infinity - 1),
        4 => sign | (1 + rng.below(mantissas - 1)),
        5 => rng.word() & width.top(),
        6 => sign | (151 << digits),
        _ => sign | ((115 + rng.below(24)) << digits) | rng.below(mantissas),
    }
}

/// The datum whose slice in use is a power of two, and 0 where no exponent reaches it.
pub fn power(rng: &mut Rng, file: usize, low: bool, exponent: i32) -> u32 {
    let (m, unit) = match (file, low) {
        (_, false) => (0, 0),
        (A, true) => (32, -5),
        (_, true) => (8, -7),
    };
    match exponent - unit + 127 {
        e @ 1..=254 => datum(rng.below(2), e as u32, m),
        _ => 0,
    }
}

pub fn register_value(rng: &mut Rng) -> u32 {
    match rng.below(6) {
        0 => rng.below(4),
        1 => rng.below(REGISTERS as u32),
        2 => 32 + rng.below(32),
        3 => rng.pick(&[0xFFFF_FFFF, 0x8000_0001, 0x8000_0000, 0x7FFF_FFFF]),
        _ => rng.word(),
    }
}

/// Numbers that may be loaded into a file.
pub fn numbers(rng: &mut Rng, width: Width, file: usize, count: usize) -> Vec<u32> {
    match file {
        D => (0..count).map(|_| dst_number(rng, width)).collect(),
        _ => src_values(rng, count),
    }
}

/// A lent state; Src numbers have bits above the 19 as well, Dst has rows for either width.
pub fn state(rng: &mut Rng) -> State {
    let mut state = State::zero();
    let file = rng.pick(&SRC);
    let tiny = rng.one_in(12).then(|| Tiny::new(rng, file));
    for file in SRC {
        for block in state.src_mut(file).chunks_mut(BLOCK_NUMBERS) {
            let numbers = match &tiny {
                Some(tiny) => tiny.rows(rng, file, BLOCK),
                None => src_values(rng, BLOCK_NUMBERS),
            };
            for (lent, number) in block.iter_mut().zip(numbers) {
                *lent = number | (rng.word() << SRC_BITS);
            }
        }
    }
    for row in state.dst.chunks_mut(COLUMNS) {
        let width = rng.pick(&Width::ALL);
        for number in row {
            *number = match width {
                Width::Bits32 => dst_number(rng, width),
                Width::Bits16 => (dst_number(rng, width) << 16) | dst_number(rng, width),
            };
        }
    }
    for number in &mut state.registers {
        *number = register_value(rng);
    }
    state
}
