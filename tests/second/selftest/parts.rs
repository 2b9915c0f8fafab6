//! The two parts of a finite datum as 32 bits: order 2.

use super::{prints, same, Case, Verdict};
use crate::engine::{datum, parts, A, B, BF16, COLUMNS, FORMATS, MANTISSAS, TF32};
use crate::worked::{
    one_infinity_a, one_infinity_b, one_tiny, tiny_a, tiny_b, tiny_border, tiny_halves,
    tiny_low_and_high, Written,
};

pub const CASES: &[Case] = &[
    ("parts: SrcA, all digits at e = 1", || {
        splits(A, TF32, 1, 1023, [0x00F8_0000, 0x0007_C000])
    }),
    ("parts: SrcB, all digits at e = 1", || {
        splits(B, TF32, 1, 1023, [0x00FE_0000, 0x0001_E000])
    }),
    ("parts: SrcA, the smallest", || {
        splits(A, TF32, 1, 2, [0x0080_0000, 0x0000_4000])?;
        splits(A, TF32, 1, 3, [0x0080_0000, 0x0000_4000])
    }),
    ("parts: SrcB, the smallest", || {
        splits(B, TF32, 1, 1, [0x0080_0000, 0x0000_2000])?;
        splits(B, TF32, 1, 3, [0x0080_0000, 0x0000_6000])
    }),
    ("parts: SrcA, the last subnormal", || {
        splits(A, TF32, 9, 2, [0x0480_0000, 0x0040_0000])?;
        splits(A, TF32, 10, 2, [0x0500_0000, 0x0080_0000])?;
        splits(A, TF32, 11, 2, [0x0580_0000, 0x0100_0000])
    }),
    ("parts: SrcB, the last subnormal", || {
        splits(B, TF32, 10, 1, [0x0500_0000, 0x0040_0000])?;
        splits(B, TF32, 11, 1, [0x0580_0000, 0x0080_0000])?;
        splits(B, TF32, 12, 1, [0x0600_0000, 0x0100_0000])
    }),
    ("parts: SrcA, the last subnormal of all digits", || {
        splits(A, TF32, 5, 63, [0x0280_0000, 0x007C_0000])?;
        splits(A, TF32, 6, 63, [0x0300_0000, 0x00F8_0000])?;
        splits(A, TF32, 9, 63, [0x0480_0000, 0x0278_0000])
    }),
    ("parts: SrcB, the last subnormal of all digits", || {
        splits(B, TF32, 7, 15, [0x0380_0000, 0x0078_0000])?;
        splits(B, TF32, 8, 15, [0x0400_0000, 0x00F0_0000])?;
        splits(B, TF32, 10, 15, [0x0500_0000, 0x01F0_0000])
    }),
    ("parts: SrcA at e = 254", || {
        splits(A, TF32, 254, 1023, [0x7F78_0000, 0x7CF8_0000])?;
        splits(A, TF32, 254, 2, [0x7F00_0000, 0x7A80_0000])
    }),
    ("parts: SrcB at e = 254", || {
        splits(B, TF32, 254, 1023, [0x7F7E_0000, 0x7BF0_0000])?;
        splits(B, TF32, 254, 1, [0x7F00_0000, 0x7A00_0000])
    }),
    ("parts: an ordinary datum", || {
        splits(A, TF32, 127, 726, [0x3FD8_0000, 0x3CB0_0000])?;
        splits(B, TF32, 127, 726, [0x3FDA_0000, 0x3BC0_0000])
    }),
    ("parts: a zero part has no sign", || {
        splits(A, TF32, 127, 1, [0x3F80_0000, 0])?;
        splits(A, TF32, 1, 64, [0x0088_0000, 0])?;
        splits(B, TF32, 1, 16, [0x0082_0000, 0])?;
        splits(B, TF32, 254, 1008, [0x7F7E_0000, 0])
    }),
    ("parts: SrcA under format 2", || {
        splits(A, BF16, 1, 1023, [0x00F8_0000, 0x0007_0000])?;
        splits(A, BF16, 7, 15, [0x0380_0000, 0x0040_0000])?;
        splits(A, BF16, 8, 15, [0x0400_0000, 0x0080_0000])?;
        splits(A, BF16, 254, 1023, [0x7F78_0000, 0x7CE0_0000])?;
        splits(A, BF16, 1, 7, [0x0080_0000, 0])
    }),
    ("parts: SrcB under format 2", || {
        splits(B, BF16, 1, 1023, [0x00FE_0000, 0x0001_0000])?;
        splits(B, BF16, 7, 15, [0x0380_0000, 0x0040_0000])?;
        splits(B, BF16, 8, 15, [0x0400_0000, 0x0080_0000])?;
        splits(B, BF16, 254, 1023, [0x7F7E_0000, 0x7B80_0000])?;
        splits(B, BF16, 1, 7, [0x0080_0000, 0])
    }),
    ("parts: all other formats keep the bits", || {
        for format in (0..FORMATS).filter(|&format| format != BF16) {
            splits(A, format, 1, 1023, [0x00F8_0000, 0x0007_C000])?;
            splits(B, format, 1, 1023, [0x00FE_0000, 0x0001_E000])?;
        }
        Ok(())
    }),
    ("parts: all finite data, exactly", all_finite),
    ("SrcA's tiny low parts in Dst", || {
        shows(&tiny_a(), 1, &eight_rows(LOW_A))
    }),
    ("SrcB's tiny low parts in Dst", || {
        shows(&tiny_b(), 1, &eight_rows(LOW_B))
    }),
    ("tiny parts in phases 3 and 0", || {
        let rows = [
            (0, bits(LOW_A, -16)),
            (1, bits(from_column_1(LOW_B), -14)),
            (8, bits(HIGH_A, -9)),
            (9, bits(from_column_1(HIGH_B), -9)),
        ];
        shows(&tiny_low_and_high(), 2, &rows)
    }),
    ("low parts from e = 9 to 12 in Dst", || {
        let rows = [
            (0, bits(BORDER_A, -1)),
            (1, [0; COLUMNS]),
            (8, [0; COLUMNS]),
            (9, bits(from_column_1(BORDER_B), -1)),
        ];
        shows(&tiny_border(), 2, &rows)
    }),
    ("one tiny number among ordinary ones", || {
        let mut tiny_in_3 = bits([60; COLUMNS], 57);
        tiny_in_3[3] = 0xBDF8_0000;
        let rows = [
            (0, tiny_in_3),
            (1, tiny_in_3),
            (2, tiny_in_3),
            (8, bits([13; COLUMNS], 57)),
            (9, bits([13; COLUMNS], 57)),
            (10, [0xBCF0_0000; COLUMNS]),
        ];
        shows(&one_tiny(), 2, &rows)
    }),
    ("one infinity among SrcA's tiny numbers", || {
        let mut rows = eight_rows(LOW_A);
        for (n, row) in &mut rows {
            row[5] = if *n == 2 { 0xFF80_0000 } else { NAN };
        }
        shows(&one_infinity_a(), 1, &rows)
    }),
    ("one infinity among SrcB's tiny numbers", || {
        let mut rows = eight_rows(LOW_B);
        rows[3].1 = [NAN; COLUMNS];
        rows[3].1[9] = 0x7F80_0000;
        shows(&one_infinity_b(), 1, &rows)
    }),
    ("16 bits: tiny parts in phases 1 to 3", || {
        let rows = [
            (504, bits(LOW_A_OF_2, -9)),
            (505, bits(from_column_1(HIGH_B), -14)),
            (512, bits(HIGH_A, -16)),
            (513, bits(from_column_1(LOW_B_OF_2), -9)),
            (520, bits(LOW_A_OF_2, -16)),
            (521, bits(from_column_1(LOW_B_OF_2), -14)),
        ];
        let printed = rows.map(|(n, row)| (n, row.map(|number| number >> 16)));
        same(prints(&tiny_halves()), lines(3, 4, &printed))
    }),
];

const NAN: u32 = 0x7FC0_0000;

/// A datum's parts as bits, and those of the negative datum: a sign on each that is not zero.
fn splits(file: usize, format: u8, e: u32, m: u32, wanted: [u32; 2]) -> Verdict {
    let bits = |sign: u32| parts(file, format, datum(sign, e, m)).map(f32::to_bits);
    same((format, bits(0)), (format, wanted))?;
    let minus = wanted.map(|part| if part == 0 { 0 } else { part | 1 << 31 });
    same((format, bits(1)), (format, minus))
}

/// A product of two whole numbers, the second a power of two, as an odd number and an exponent.
fn odd(number: u32, exponent: u32) -> (u32, u32) {
    match number.trailing_zeros() {
        32 => (0, 0),
        zeros => (number >> zeros, exponent + zeros),
    }
}

/// What 32 bits without a sign are worth, in the smallest subnormal number.
fn worth(bits: u32) -> (u32, u32) {
    let (e, digits) = (bits >> 23, bits & 0x7F_FFFF);
    match e {
        0 => odd(digits, 0),
        _ => odd(digits | 1 << 23, e - 1),
    }
}

/// Each part is worth its factor times 2^(e-137), which is 2^(e+12) times the smallest subnormal
/// number, and has the sign of the datum unless it is zero.
fn all_finite() -> Verdict {
    for (file, format) in [(A, BF16), (A, TF32), (B, BF16), (B, TF32)] {
        let taken = if format == BF16 { 0x3F8 } else { 0x3FF };
        let (high, low) = [(0x3C0, 0x3E), (0x3F0, 0xF)][file];
        for n in 0..2 * 254 * MANTISSAS {
            let (sign, e, m) = (n % 2, n / 2 / MANTISSAS + 1, n / 2 % MANTISSAS);
            let factors = [1024 + (m & taken & high), m & taken & low];
            let wanted = factors.map(|factor| (odd(factor, e + 12), sign == 1 && factor != 0));
            let bits = parts(file, format, datum(sign, e, m)).map(f32::to_bits);
            let got = bits.map(|bits| (worth(bits & !(1 << 31)), bits >> 31 == 1));
            same(
                (file, format, sign, e, m, got),
                (file, format, sign, e, m, wanted),
            )?;
        }
    }
    Ok(())
}

/// The factors of a row in Dst, and its bits.
type Factors = [i32; COLUMNS];
type Row = [u32; COLUMNS];

/// Those of the tiny row's parts.
const LOW_A: Factors = [62, -2, 0, -4, 8, -16, 32, 0, 62, -62, 6, 0, 56, -42, 20, -2];
const LOW_B: Factors = [15, -2, 1, -4, 8, 0, 0, 0, 14, -15, 7, 0, 8, -10, 5, -3];
const HIGH_A: Factors = [
    1984, -1024, 1024, -1024, 1024, -1024, 1024, -1024, 1024, -1024, 1088, -1984, 1984, -1024,
    1024, -1024,
];
const HIGH_B: Factors = [
    2032, -1024, 1024, -1024, 1024, -1040, 1056, -1024, 1072, -1072, 1088, -1984, 2032, -1056,
    1040, -1024,
];
/// Under format 2, where the high parts are the same.
const LOW_A_OF_2: Factors = [56, 0, 0, 0, 8, -16, 32, 0, 56, -56, 0, 0, 56, -40, 16, 0];
const LOW_B_OF_2: Factors = [8, 0, 0, 0, 8, 0, 0, 0, 8, -8, 0, 0, 8, -8, 0, 0];
/// Those of the row from e = 9 to 12, doubled from each exponent to the next.
const BORDER_A: Factors = [
    0, -2, 2, -14, 0, -4, 4, -28, 0, -8, 8, -56, 0, -16, 16, -112,
];
const BORDER_B: Factors = [
    1, -2, 3, -15, 2, -4, 6, -30, 4, -8, 12, -60, 8, -16, 24, -120,
];

/// Such a row times a power of two; all of it is far from the ends of the exponents.
fn bits(row: Factors, exponent: i32) -> Row {
    let power = f32::from_bits(((exponent + 127) as u32) << 23);
    row.map(|factor| (factor as f32 * power).to_bits())
}

fn from_column_1(mut row: Factors) -> Factors {
    row[0] = 0;
    row
}

/// Dst rows 0 to 7 with factors at exponents from 1 on, times 2^127.
fn eight_rows(row: Factors) -> [(usize, Row); 8] {
    [0, 1, 2, 3, 4, 5, 6, 7].map(|n| (n, bits(row, n as i32 - 9)))
}

/// The printed lines of a job that finished.
fn lines(issued: usize, digits: usize, rows: &[(usize, Row)]) -> String {
    let mut text = format!("finished {issued}\n");
    for (row, numbers) in rows {
        let numbers = numbers.map(|number| format!(" {number:0digits$x}"));
        text += &format!("D {row}{}\n", numbers.concat());
    }
    text
}

fn shows(job: &[Written], issued: usize, rows: &[(usize, Row)]) -> Verdict {
    same(prints(job), lines(issued, 8, rows))
}
