//! Rows for the numbers of multiplies.

use super::table::Test;
use crate::bf16;
use crate::engine::{kept, split, Width};

/// A datum that is multiplied, with its low part and whether that is in use.
pub fn src(format: u8, number: u32, low_part: f32, low: bool) -> [Test; 13] {
    let (sign, e, m) = split(number);
    let (negative, kept) = (sign == 1, kept(format, m));
    let finite = (1..255).contains(&e);
    [
        ("+0", e == 0 && m == 0 && !negative),
        ("-0 (taken as +0)", e == 0 && m == 0 && negative),
        ("zero with a mantissa", e == 0 && m != 0),
        ("+infinity", e == 255 && m == 0 && !negative),
        ("-infinity", e == 255 && m == 0 && negative),
        ("not a number", e == 255 && kept != 0),
        ("infinity only by format 2", e == 255 && kept == 0 && m != 0),
        ("e = 1", e == 1),
        ("e = 254", e == 254),
        (
            "subnormal low part in use",
            finite && low && low_part.is_subnormal(),
        ),
        ("zero low part in use", finite && low && low_part == 0.0),
        ("negative", finite && negative),
        ("low bits that format 2 drops", finite && kept != m),
    ]
}

/// A Dst number before a multiply.
pub fn before(width: Width, old: u32) -> [Test; 11] {
    let number = width.widen(old);
    let (sign, infinity) = (width.sign(), width.infinity());
    let quiet = 1 << (width.mantissa_bits() - 1);
    let largest = infinity - 1;
    [
        ("+0", old == 0),
        ("-0", old == sign),
        ("+infinity", old == infinity),
        ("-infinity", old == sign | infinity),
        ("quiet NaN", number.is_nan() && old & quiet != 0),
        ("signalling NaN", number.is_nan() && old & quiet == 0),
        ("negative NaN", number.is_nan() && old & sign != 0),
        ("largest finite", old == largest),
        ("negative largest finite", old == sign | largest),
        ("subnormal", number.is_subnormal()),
        ("other finite", number.is_normal() && old & !sign != largest),
    ]
}

/// What a multiply makes of it.
pub fn after(width: Width, old: u32, new: u32) -> Vec<Test> {
    let (number, result) = (width.widen(old), width.widen(new));
    let (sign, infinity) = (width.sign(), width.infinity());
    let mut tests = vec![
        ("+0", new == 0),
        ("subnormal", result.is_subnormal()),
        ("normal", result.is_normal()),
        ("+infinity", new == infinity),
        ("-infinity", new == sign | infinity),
        ("NaN from numbers", new == width.nan() && !number.is_nan()),
        ("NaN from an old NaN", new == width.nan() && number.is_nan()),
    ];
    // One of BF16 alone: what is left of a small negative number.
    if width == Width::Bits16 {
        tests.push(("-0", new == sign));
    }
    tests
}

/// What the roundings to binary32 and then to BF16 meet: old number and sum, their binary32 result,
/// what is stored.
pub fn rounding(old: f32, sum: f32, result: f32, new: u32) -> [Test; 12] {
    let (toward_zero, rest) = (result.to_bits() >> 16, result.to_bits() & 0xFFFF);
    let size = new & 0x7FFF;
    // Where f64 holds the exact sum: what binary32 dropped of it, which put on once more leads to
    // the other neighbour if the sum is in the middle.
    let exact = f64::from(old) + f64::from(sum);
    let known = exact - f64::from(old) == f64::from(sum) && exact - f64::from(sum) == old.into();
    let dropped = exact - f64::from(result);
    let other = exact + dropped;
    let rounds = known && result.is_finite() && dropped != 0.0;
    let finite = old.is_finite() && sum.is_finite();
    let at_middle = rounds && f64::from(other as f32) == other;
    [
        ("nothing to round", rest == 0),
        ("nearer to zero", (1..0x8000).contains(&rest)),
        ("nearer away from zero", rest > 0x8000),
        (
            "middle, even toward zero",
            rest == 0x8000 && new == toward_zero,
        ),
        (
            "middle, even away from zero",
            rest == 0x8000 && new != toward_zero,
        ),
        (
            "to infinity",
            result.is_finite() && size == Width::Bits16.infinity(),
        ),
        (
            "infinite in binary32 already",
            result.is_infinite() && finite,
        ),
        ("to zero", result != 0.0 && size == 0),
        ("subnormal to normal", result.is_subnormal() && size == 0x80),
        ("binary32 rounds", rounds),
        ("binary32 rounds at its middle", at_middle),
        (
            "one rounding would differ",
            rounds && bf16::nearest(exact) != new,
        ),
    ]
}
