//! BF16 by what its numbers are worth, to hold the engine's bits against.

/// What a BF16 number without a sign is worth, from 0 to infinity's 0x7F80, which counts as the
/// number that would follow the largest finite one.
pub fn worth(number: u32) -> f64 {
    let (e, m) = (number >> 7, number & 127);
    let (factor, exponent) = match e {
        0 => (m, -133),
        _ => (128 + m, e as i32 - 134),
    };
    f64::from(factor) * f64::from_bits(((exponent + 1023) as u64) << 52)
}

/// The BF16 number nearest to a value that is a number: found among all of them by halving, then
/// chosen between the two beside it by their middle, which f64 holds exactly.
pub fn nearest(value: f64) -> u32 {
    let (size, sign) = (value.abs(), u32::from(value.is_sign_negative()) << 15);
    let (mut below, mut above) = (0, 0x7F80);
    if size >= worth(above) {
        return sign | above;
    }
    // The value is at least `below` and less than `above`.
    while above - below > 1 {
        let between = (below + above) / 2;
        if size < worth(between) {
            above = between;
        } else {
            below = between;
        }
    }
    let middle = (worth(below) + worth(above)) / 2.0;
    let even = if below % 2 == 0 { below } else { above };
    sign | if size < middle {
        below
    } else if size > middle {
        above
    } else {
        even
    }
}
