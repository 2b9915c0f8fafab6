//! Rows for a multiply on the edge of both roundings: to old numbers of one exponent it adds about
//! half a BF16 unit in the last place, and about half a binary32 one.

use super::numbers::power;
use super::rng::Rng;
use crate::engine::{takes_low, Width, A, B, BLOCK_NUMBERS, COLUMNS};

pub struct Halfway {
    pub a: Vec<u32>,
    pub b: Vec<u32>,
    /// What stands in Dst before.
    pub old: Vec<u32>,
}

impl Halfway {
    pub fn new(rng: &mut Rng, width: Width, phase: u8, rows: usize) -> Halfway {
        let between = rng.below(254) as i32 - 126;
        let x = rng.pick(&[-126, -126, -125, 0, 127, 127, between]);
        let a = src_a(rng, phase, x);
        let b = src_b(rng, phase, x, rows);
        let old = (0..rows * COLUMNS).map(|_| old_number(rng, width, x));
        let old = old.collect();
        Halfway { a, b, old }
    }
}

/// SrcB holds the same power in columns 0 and 1, so that SrcA's rows 0 and 1 decide.
fn src_a(rng: &mut Rng, phase: u8, x: i32) -> Vec<u32> {
    let mut a = vec![0; BLOCK_NUMBERS];
    for column in 0..COLUMNS {
        let halves = [
            x - 8 + rng.pick(&[0, 0, 0, 0, -1, 1]),
            x - 24 + rng.below(6) as i32 - 3,
        ];
        for (k, exponent) in halves.into_iter().enumerate() {
            let low = takes_low(phase, A);
            a[k * COLUMNS + column] = power(rng, A, low, exponent - x / 2);
        }
    }
    a
}

fn src_b(rng: &mut Rng, phase: u8, x: i32, rows: usize) -> Vec<u32> {
    let mut b = vec![0; rows * COLUMNS];
    for row in 0..rows {
        for k in 0..2 {
            if !rng.one_in(4) {
                b[row * COLUMNS + k] = power(rng, B, takes_low(phase, B), x / 2);
            }
        }
    }
    b
}

fn old_number(rng: &mut Rng, width: Width, x: i32) -> u32 {
    let digits = width.mantissa_bits();
    let e = match x {
        -126 => rng.below(2),
        _ => (x + 127) as u32,
    };
    let m = rng.under(1u32 << digits);
    let last_zeros = rng.pick(&[0, width.bits() - 16]);
    let m = (m >> last_zeros) << last_zeros;
    (rng.below(2) * width.sign()) | (e << digits) | m
}
