//! A Src value as a datum, and its two parts.

use super::{A, BF16};

const SIGN: u32 = 18;
const EXPONENT: u32 = 10;
const EXPONENTS: u32 = 256;
pub const MANTISSAS: u32 = 1 << EXPONENT;
/// What format 2 drops of a mantissa.
const BELOW_BF16: u32 = 7;

/// A datum from sign, exponent and mantissa.
pub fn datum(sign: u32, e: u32, m: u32) -> u32 {
    (sign << SIGN) | (e << EXPONENT) | m
}

/// Sign, exponent and mantissa of a datum, the mantissa as it stands.
pub fn split(number: u32) -> (u32, u32, u32) {
    let e = (number >> EXPONENT) % EXPONENTS;
    ((number >> SIGN) & 1, e, number % MANTISSAS)
}

/// The mantissa as a format takes it.
pub fn kept(format: u8, m: u32) -> u32 {
    if format == BF16 {
        m & !BELOW_BF16
    } else {
        m
    }
}

/// A datum's high and low part; zero, infinity and not-a-number stand in both.
pub fn parts(file: usize, format: u8, number: u32) -> [f32; 2] {
    let (sign, e, m) = split(number);
    let m = kept(format, m);
    let signed = |size: f32| if sign == 1 { -size } else { size };
    match (e, m) {
        (0, _) => [0.0; 2],
        (255, 0) => [signed(f32::INFINITY); 2],
        (255, _) => [f32::NAN; 2],
        _ => {
            let factors = if file == A {
                [1024 + 64 * (m / 64), (m % 64) & !1]
            } else {
                [1024 + 16 * (m / 16), m % 16]
            };
            // 2^(e-137). The products are exact in f64, and as f32 too: a part has at most 11
            // bits, the lowest worth 2^-136 or more.
            let unit = f64::from_bits(u64::from(e + 1023 - 137) << 52);
            factors.map(|factor| match factor {
                0 => 0.0,
                _ => signed((f64::from(factor) * unit) as f32),
            })
        }
    }
}
