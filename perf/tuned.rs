//! The multiply as one would tune it by hand: both files' slices are split once for each multiply,
//! and the sixteen columns of a row are carried along together, so that they go into vectors.

/// What a multiply works on; rows count from the start of their file. With `halves` Dst has rows of
/// 16-bit numbers, first all low halves of its numbers and then all high ones.
pub struct Product {
    pub halves: bool,
    pub format: u8,
    pub phase: u8,
    pub a: usize,
    pub b: usize,
    pub dst: usize,
    pub rows: usize,
}

/// The slice of a datum: the exponent's power times the digits that this slice keeps.
#[inline(always)]
fn slice(number: u32, keep: u32, top: u32, digits: u32) -> f32 {
    let e = (number >> 10) & 255;
    let m = number & digits;
    let sign = (number & 0x4_0000) << 13;
    let n = top | (m & keep);
    let finite = if n == 0 {
        0
    } else {
        (f32::from_bits(e << 23) * (n as f32 * 0.0009765625)).to_bits() | sign
    };
    let special = if m == 0 {
        0x7F80_0000 | sign
    } else {
        0x7FC0_0000
    };
    f32::from_bits(match e {
        0 => 0,
        255 => special,
        _ => finite,
    })
}

pub fn multiply(p: &Product, srca: &[u32], srcb: &[u32], dst: &mut [u32]) {
    let digits = if p.format == 2 { 1016 } else { 1023 };
    let (a_keep, a_top) = if p.phase & 1 == 1 {
        (62, 0)
    } else {
        (960, 1024)
    };
    let (b_keep, b_top) = if p.phase & 2 == 2 {
        (15, 0)
    } else {
        (1008, 1024)
    };
    let mut fa = [0.0f32; 256];
    for (x, &number) in fa.iter_mut().zip(&srca[p.a * 16..][..256]) {
        *x = slice(number, a_keep, a_top, digits);
    }
    let mut fb = [0.0f32; 128];
    for (y, &number) in fb.iter_mut().zip(&srcb[p.b * 16..][..p.rows * 16]) {
        *y = slice(number, b_keep, b_top, digits);
    }
    for (i, y) in fb.chunks_exact(16).take(p.rows).enumerate() {
        let mut sum = [0.0f32; 16];
        for (x, &y) in fa.chunks_exact(16).zip(y) {
            for j in 0..16 {
                sum[j] += x[j] * y;
            }
        }
        let at = (p.dst + i) * 16;
        if !p.halves {
            for (number, s) in dst[at..][..16].iter_mut().zip(sum) {
                *number = plus(*number, s);
            }
        } else if at < dst.len() {
            for (number, s) in dst[at..][..16].iter_mut().zip(sum) {
                *number = (*number & 0xFFFF_0000) | rounded(plus(*number << 16, s));
            }
        } else {
            let at = at - dst.len();
            for (number, s) in dst[at..][..16].iter_mut().zip(sum) {
                *number = (*number & 0xFFFF) | (rounded(plus(*number & 0xFFFF_0000, s)) << 16);
            }
        }
    }
}

/// The number of a pattern plus a sum, as a pattern.
#[inline(always)]
fn plus(old: u32, sum: f32) -> u32 {
    let result = f32::from_bits(old) + sum;
    if result.is_nan() {
        0x7FC0_0000
    } else {
        result.to_bits()
    }
}

/// The upper half of a pattern, rounded to nearest even. The one NaN that `plus` makes stays.
#[inline(always)]
fn rounded(pattern: u32) -> u32 {
    (pattern + 0x7FFF + ((pattern >> 16) & 1)) >> 16
}
