//! Dst rows of 16 bits: order 1.

use super::steps::{first_row, product_of, record_of};
use super::{prints, same, Case, Verdict};
use crate::bf16;
use crate::engine::{
    datum, run, Answer, Name, Refusal, State, Width, BF16, COLUMNS, D, DOTPV, DST_ROWS, FLAGS,
    FORMATS, FP16A, FP32, GAPOOL, INT8, TF32,
};
use crate::worked::{
    across, both_halves, bytes, ending, four_rows, in_halves, load, mvmul, mvmul_word, one, power,
    powers, rounded_row, rounded_sum, rows_out, settings, zero, Written, ROUNDED,
};

pub const CASES: &[Case] = &[
    ("16 bits: all upper halves, exactly", upper_halves),
    ("16 bits: middles go to even", || {
        rounds(&[(0x3F80_8000, 0x3F80), (0x3F81_8000, 0x3F82)])
    }),
    ("16 bits: beside the middle", || {
        rounds(&[(0x3F80_8001, 0x3F81), (0x3F81_7FFF, 0x3F81)])
    }),
    ("16 bits: overflow", || {
        rounds(&[
            (0x7F7F_FFFF, 0x7F80),
            (0x7F7F_8000, 0x7F80),
            (0x7F7F_7FFF, 0x7F7F),
            (0x7F80_0000, 0x7F80),
        ])
    }),
    ("16 bits: subnormals", || {
        rounds(&[
            (0, 0),
            (0x0000_0001, 0),
            (0x0000_8000, 0),
            (0x0000_8001, 1),
            (0x0001_8000, 2),
            (0x0012_3456, 0x0012),
            (0x007F_FFFF, 0x0080),
        ])
    }),
    ("16 bits: not a number", || {
        let numbers = [0x7F80_0001, 0xFF80_0001, 0x7FFF_FFFF, 0xFFFF_FFFF];
        same(numbers.map(narrow), [NAN; 4])
    }),
    ("16 bits: two roundings of a sum", || {
        adds(0, &[0, -8, -26], 0x3F80)
    }),
    ("16 bits: two roundings with the old number", || {
        adds(0x3F80, &[-8, -26], 0x3F80)
    }),
    ("16 bits: what binary32 keeps counts", || {
        adds(0x3F80, &[-8, -23], 0x3F81)
    }),
    ("16 bits: binary32's own middle goes to even first", || {
        adds(0x3F80, &[-8, -24], 0x3F80)?;
        adds(0x3F80, &[-8, -23, -24], 0x3F81)
    }),
    ("16 bits: the largest finite number", || {
        adds(0x7F7F, &[119], 0x7F80)?;
        adds(0x7F7F, &[118], 0x7F7F)?;
        adds(0xFF7F, &[119], 0xFF7E)?;
        same(product(power(true, 119), one(), 0xFF7F), 0xFF80)
    }),
    ("16 bits: minus zero plus zero", || adds(0x8000, &[], 0)),
    ("16 bits: a small negative sum goes to minus zero", || {
        let small = power(true, -100);
        same(product(small, power(false, -34), 0), 0x8000)?;
        same(product(small, power(false, -33), 0), 0x8001)
    }),
    ("16 bits: not-a-number by a multiply", || {
        adds(0x7F81, &[0], NAN)?;
        same(product(datum(0, 255, 0), datum(0, 0, 0), 0), NAN)?;
        adds(0xFF80, &[0], 0xFF80)
    }),
    ("16 bits: rows 510 to 513", || {
        let numbers = |row: u32| (1..17).map(move |n| format!(" {:04x}", row * 256 + n));
        let row = |row: u32| numbers(row).collect::<String>();
        let loaded = format!("D 510{}\n{}", row(0), zeros(511));
        let wanted = format!("finished 0\n{loaded}{}D 513{}\n", zeros(512), row(3));
        same(prints(&across()), wanted)
    }),
    ("16 bits: a row of roundings", || {
        let results = ROUNDED.map(|row| format!(" {:04x}", row.2)).concat();
        let wanted = format!("finished 1\nD 512{results} 0000 0000\n");
        same(prints(&rounded_row()), wanted)
    }),
    ("16 bits: all other halves stay", others_stay),
    ("16 bits: a multiply keeps halves", multiplies_keep_halves),
    ("16 bits: both halves put out", || {
        let (low, high) = (" 3f80".repeat(16), " 4040".repeat(15));
        let wanted = format!("finished 1\nD 0{low}\nD 512 40c0{high}\n");
        same(prints(&both_halves()), wanted)
    }),
    ("the same multiply in both widths", || {
        sum_prints(BF16, 0, 0, "3f80", " 0000")?;
        sum_prints(BF16, FP32, 0, "3f808000", " 00000000")
    }),
    ("16 bits: dst 512 is row 512", || {
        sum_prints(BF16, 0, 512, "3f80", " 0000")
    }),
    ("16 bits: no 7", no_7),
    ("7 with 32-bit rows", || {
        let row = first_row(record_of(BF16, FP32), mvmul_word(512), 0);
        same(row, Err(Refusal::DstRow))
    }),
    ("16 bits: a value of 2^16", || {
        let over = ending(BF16, 0, 512, 0x1_0000);
        same(prints(&over), "refused 1 at 170\n")?;
        let wanted = format!("finished 0\nD 512{} ffff\n", " 7f80".repeat(15));
        same(prints(&ending(BF16, 0, 512, 0xFFFF)), wanted)
    }),
    ("a value of 2^16 with 32-bit rows", || {
        let row = format!("{} 00010000", " 00007f80".repeat(15));
        for (format, flags) in [(BF16, FP32), (TF32, FP32), (BF16, FP16A), (TF32, 0)] {
            let printed = prints(&ending(format, flags, 511, 0x1_0000));
            same(printed, format!("finished 0\nD 511{row}\n"))?;
        }
        Ok(())
    }),
    ("16 bits: zeroing", || {
        let printed = halves_print(&[zero(0, 1024), rows_out(1023, 1)]);
        same(printed, format!("finished 0\n{}", zeros(1023)))?;
        for (first, count, row) in [(0, 1025, 0), (1, 1024, 1), (0, 0, 0), (1024, 1, 0)] {
            let printed = halves_print(&[zero(first, count), rows_out(row, 1)]);
            same(printed, "refused 1 at 163\n")?;
        }
        Ok(())
    }),
    ("16 bits: an output's last row", || {
        let printed = halves_print(&[zero(0, 1024), rows_out(960, 64)]);
        let last = printed.split_inclusive('\n').next_back();
        same(last, Some(zeros(1023).as_str()))?;
        let printed = halves_print(&[zero(0, 1024), rows_out(961, 64)]);
        same(printed, "refused 1 at 170\n")
    }),
    ("16 bits: halves are set one by one", || {
        let printed = halves_print(&[zero(512, 512), rows_out(0, 1)]);
        same(printed, "refused 8 at 170\n")?;
        let printed = halves_print(&[zero(0, 512), rows_out(511, 2)]);
        same(printed, "refused 8 at 170\n")?;
        let fields = [powers(&[0]), vec![zero(0, 8), mvmul(512), rows_out(0, 1)]];
        same(halves_print(&fields.concat()), "refused 8 at 1726\n")
    }),
    ("a multiply in neither mode", || {
        let printed = prints(&rounded_sum(BF16, INT8, 0));
        same(printed, "refused 5 at 1733\n")?;
        let printed = prints(&rounded_sum(TF32, 0, 0));
        same(printed, "refused 5 at 1733\n")
    }),
    ("one mode has 16-bit rows", one_mode_has_halves),
];

const NAN: u32 = 0x7FC0;

fn narrow(bits: u32) -> u32 {
    Width::Bits16.narrow(f32::from_bits(bits))
}

/// Binary32 numbers and their BF16 ones, with both signs.
fn rounds(rows: &[(u32, u32)]) -> Verdict {
    for &(bits, number) in rows {
        same((bits, narrow(bits)), (bits, number))?;
        let minus = bits ^ 1 << 31;
        same((minus, narrow(minus)), (minus, number ^ 0x8000))?;
    }
    Ok(())
}

/// A 16-bit Dst number with a sum of powers of two added, in rows 0 and 512.
fn adds(old: u32, exponents: &[i32], wanted: u32) -> Verdict {
    let a: Vec<u32> = exponents.iter().map(|&e| power(false, e)).collect();
    let stored = |dst: usize, old: u32| {
        product_of(record_of(BF16, 0), mvmul_word(dst), &a, &[one(); 16], old)
    };
    same(stored(0, old), wanted)?;
    same(stored(DST_ROWS, old << 16), wanted << 16)
}

/// A 16-bit Dst number with one product added.
fn product(a: u32, b: u32, old: u32) -> u32 {
    product_of(record_of(BF16, 0), mvmul_word(0), &[a], &[b], old)
}

/// A 16-bit row of zeros as it is printed.
fn zeros(row: usize) -> String {
    format!("D {row}{}\n", " 0000".repeat(COLUMNS))
}

fn halves_print(fields: &[Written]) -> String {
    prints(&in_halves(fields))
}

fn sum_prints(format: u8, flags: u8, dst: usize, number: &str, zero: &str) -> Verdict {
    let printed = prints(&rounded_sum(format, flags, dst));
    let wanted = format!("finished 1\nD {dst} {number}{}\n", zero.repeat(15));
    same(printed, wanted)
}

/// The engine's BF16 bits against what the numbers are worth: each 16-bit number widened, and each
/// upper half of a binary32 number with lower halves on both sides of the middle.
fn upper_halves() -> Verdict {
    let lows = [
        0, 1, 0x1234, 0x7FFE, 0x7FFF, 0x8000, 0x8001, 0xC000, 0xFFFE, 0xFFFF,
    ];
    for high in 0..0x1_0000u32 {
        let wide = f64::from(Width::Bits16.widen(high));
        let minus = high >= 0x8000;
        let sign = if minus { -1.0 } else { 1.0 };
        match high & 0x7FFF {
            size @ 0..0x7F80 => {
                let told = (high, wide, wide.is_sign_negative());
                same(told, (high, sign * bf16::worth(size), minus))?;
            }
            0x7F80 => same((high, wide), (high, sign * f64::INFINITY))?,
            _ => same((high, wide.is_nan()), (high, true))?,
        }
        for low in lows {
            let bits = (high << 16) | low;
            let nearest = match f32::from_bits(bits) {
                number if number.is_nan() => NAN,
                number => bf16::nearest(number.into()),
            };
            same((bits, narrow(bits)), (bits, nearest))?;
        }
    }
    Ok(())
}

/// A job over numbers that are not 0: each half that it does not name stays.
fn others_stay() -> Verdict {
    let mut state = State::zero();
    for (n, number) in state.dst.iter_mut().enumerate() {
        *number = 0xA000_B000 + n as u32 % 0x1000 * 0x1_0001;
    }
    let mut expected = state.dst.clone();
    for (n, number) in four_rows().into_iter().enumerate() {
        let (row, column) = (510 + n / COLUMNS, n % COLUMNS);
        let lent = &mut expected[row % DST_ROWS * COLUMNS + column];
        *lent = match row {
            510 => *lent & 0xFFFF_0000 | number,
            511 => *lent & 0xFFFF_0000,
            512 => *lent & 0xFFFF,
            _ => *lent & 0xFFFF | (number << 16),
        };
    }
    let answer = run(&bytes(&across()), &mut state);
    same(answer, Answer::Finished(0))?;
    same_numbers(&state.dst, &expected)
}

/// The first number that differs.
fn same_numbers(got: &[u32], wanted: &[u32]) -> Verdict {
    for (n, (got, wanted)) in got.iter().zip(wanted).enumerate() {
        same((n, got), (n, wanted))?;
    }
    same(got.len(), wanted.len())
}

/// Two multiplies, one into each half of lent rows 0 to 7, over numbers that are not 0; as jobs
/// and as single steps.
fn multiplies_keep_halves() -> Verdict {
    let one_half = |first: usize, sum: u32, zeroed: u32| {
        let mut job = in_halves(&powers(&[0, 0]));
        job.extend([zero(first, 8), mvmul(first), rows_out(first, 1)]);
        let mut state = State::zero();
        state.dst.fill(0xFFFF_7F81);
        let mut expected = state.dst.clone();
        expected[..8 * COLUMNS].fill(zeroed);
        expected[0] = sum;
        same(run(&bytes(&job), &mut state), Answer::Finished(1))?;
        same_numbers(&state.dst, &expected)
    };
    one_half(0, 0xFFFF_4000, 0xFFFF_0000)?;
    one_half(DST_ROWS, 0x4000_7F81, 0x7F81)?;
    let step = |dst: usize, old: u32| {
        product_of(record_of(BF16, 0), mvmul_word(dst), &[one()], &[one()], old)
    };
    same(step(0, 0xBEEF_3F80), 0xBEEF_4000)?;
    same(step(DST_ROWS, 0x3F80_BEEF), 0x4000_BEEF)
}

fn no_7() -> Verdict {
    let row_of = |word: u32, base: u16| first_row(record_of(BF16, 0), word, base);
    same(row_of(mvmul_word(0x200), 0), Ok(512))?;
    same(row_of(mvmul_word(0x3FF), 0), Ok(1016))?;
    same(row_of(GAPOOL.word(&[(Name::Dst, 0x3FF)]), 0), Ok(1020))?;
    same(row_of(mvmul_word(0x400), 0), Ok(0))?;
    same(row_of(mvmul_word(0x200), 512), Ok(0))?;
    for dst in 0..1 << 14 {
        let word = DOTPV.word(&[(Name::Dst, dst)]);
        same((dst, row_of(word, 0)), (dst, Ok(dst as usize & 0x3F8)))?;
    }
    Ok(())
}

/// Under all settings: rows from 512 on, and a zeroing of more than 512, are there for BF16 with none
/// of the first three flags alone; a multiply is refused with 5 unless it is modelled.
fn one_mode_has_halves() -> Verdict {
    for format in 0..FORMATS {
        for flags in 0..=FLAGS {
            let told = |what: String| format!("format {format}, flags {flags}: {what}");
            mode_has_its_rows(format, flags).map_err(told)?;
        }
    }
    Ok(())
}

fn mode_has_its_rows(format: u8, flags: u8) -> Verdict {
    // The switches are bits 3 and 4.
    let kind = flags % 8;
    let halves = format == BF16 && kind == 0;
    let modelled = halves || kind == FP32 && (format == BF16 || format == TF32);
    let job = |fields: &[Written]| prints(&[&[settings(format, flags)], fields].concat());
    let digits = if halves { 4 } else { 8 };
    let number = format!(" {}", "0".repeat(digits));
    let row = |row: usize| format!("D {row}{}\n", number.repeat(COLUMNS));
    let printed = job(&[zero(511, 1), rows_out(511, 1)]);
    same(printed, format!("finished 0\n{}", row(511)))?;
    let of_halves = |fields: &[Written], place: usize, rows: String| {
        let wanted = match halves {
            true => format!("finished 0\n{rows}"),
            false => format!("refused 1 at {place}\n"),
        };
        same(job(fields), wanted)
    };
    of_halves(&[zero(512, 1), rows_out(512, 1)], 163, row(512))?;
    of_halves(&[zero(0, 513), rows_out(0, 1)], 163, row(0))?;
    let load = load(D, 512, &[0; COLUMNS]);
    of_halves(&[load, rows_out(512, 1)], 163, row(512))?;
    let fields = [zero(0, 1), zero(511, 2), rows_out(511, 2)];
    of_halves(&fields, 170, row(511) + &row(512))?;
    let fields = [powers(&[0]), vec![zero(0, 8), mvmul(0), rows_out(7, 1)]];
    let wanted = match modelled {
        true => format!("finished 1\n{}", row(7)),
        false => "refused 5 at 1726\n".to_string(),
    };
    same(job(&fields.concat()), wanted)
}
