//! Rows with tiny exponents in one file and large ones in the other: products of the smallest
//! subnormal parts are ordinary numbers then, and every digit of a part shows in Dst.

use super::builder::{Builder, Done};
use super::rng::Rng;
use crate::engine::{
    datum, takes_low, Entry, Field, A, B, BLOCK, COLUMNS, MANTISSAS, SRC, THREADS,
};

/// What stands in the tiny file.
#[derive(Clone, Copy)]
enum Kind {
    Tiny,
    /// Tiny numbers, and a few at the ends of the exponents.
    WithEnds,
    /// One tiny number among ordinary ones.
    OneTiny,
    /// One infinity or not-a-number among tiny or among ordinary numbers.
    OneInTiny,
    OneInOrdinary,
}

/// Some of them more often.
const KINDS: [Kind; 11] = [
    Kind::Tiny,
    Kind::Tiny,
    Kind::Tiny,
    Kind::WithEnds,
    Kind::OneTiny,
    Kind::OneTiny,
    Kind::OneTiny,
    Kind::OneTiny,
    Kind::OneInTiny,
    Kind::OneInTiny,
    Kind::OneInOrdinary,
];

/// A pair of styles for the two Src files.
pub struct Tiny {
    /// The file with the tiny numbers.
    file: usize,
    kind: Kind,
    /// The SrcA row and SrcB column of one tiny number: there the other file is large.
    line: usize,
    /// The lowest of the large exponents. They are close together, so that no product hides others.
    large: u32,
    /// The exponent of all others where each Dst number has but one large factor.
    others: Option<u32>,
}

impl Tiny {
    pub fn new(rng: &mut Rng, file: usize) -> Tiny {
        Tiny {
            file,
            kind: rng.pick(&KINDS),
            line: rng.index(BLOCK),
            large: 230 + rng.within(0, 21),
            others: rng.pick(&[None, None, Some(0), Some(100)]),
        }
    }

    /// So many rows of a file.
    pub fn rows(&self, rng: &mut Rng, file: usize, count: usize) -> Vec<u32> {
        // SrcA rows and SrcB columns are the lines whose numbers meet in products; one Dst number
        // has those of a SrcA column and a SrcB row.
        let across = if file == A { COLUMNS } else { count };
        let line = match self.kind {
            Kind::OneTiny => self.line,
            _ => rng.index(BLOCK),
        };
        let one = (line, rng.index(across));
        let large: Vec<usize> = (0..across).map(|_| rng.index(BLOCK)).collect();
        let number = |n: usize| {
            let (row, column) = (n / COLUMNS, n % COLUMNS);
            let (line, place) = match file {
                A => (row, column),
                _ => (column, row),
            };
            if file == self.file {
                self.tiny_side(rng, (line, place) == one)
            } else {
                self.large_side(rng, line, line == large[place])
            }
        };
        (0..count * COLUMNS).map(number).collect()
    }

    fn tiny_side(&self, rng: &mut Rng, one: bool) -> u32 {
        let e = match self.kind {
            Kind::OneTiny if !one => 64 + rng.below(56),
            Kind::OneInTiny | Kind::OneInOrdinary if one => 255,
            Kind::OneInOrdinary => ordinary(rng),
            Kind::WithEnds if rng.one_in(40) => rng.pick(&[0, 0, 254, 255]),
            _ => return tiny(rng),
        };
        number(rng, e)
    }

    fn large_side(&self, rng: &mut Rng, line: usize, large: bool) -> u32 {
        let e = match (self.kind, self.others) {
            // Small, or the ordinary numbers would hide the tiny one.
            (Kind::OneTiny, _) if line != self.line => 14 + rng.below(60),
            (Kind::OneInOrdinary, _) => ordinary(rng),
            (Kind::Tiny | Kind::WithEnds | Kind::OneInTiny, Some(e)) if !large => e,
            _ => self.large + rng.below(4),
        };
        number(rng, e)
    }
}

fn ordinary(rng: &mut Rng) -> u32 {
    119 + rng.below(16)
}

/// A digit of a low part: SrcB's are 0 to 3, SrcA's 1 to 5, and 3 is in both under format 2.
fn digit(rng: &mut Rng) -> u32 {
    rng.pick(&[0, 1, 1, 2, 3, 3, 4, 5])
}

/// A number with a mantissa whose low part has one digit, all digits or none, or any; of infinity
/// it is mostly 0.
fn number(rng: &mut Rng, e: u32) -> u32 {
    let any = rng.below(MANTISSAS);
    let m = match rng.below(8) {
        _ if e == 255 && !rng.one_in(4) => 0,
        0 => MANTISSAS - 1,
        1 => any & !63,
        2 | 3 => any & !63 | 1 << digit(rng),
        _ => any,
    };
    datum(rng.below(2), e, m)
}

/// A number with an exponent for a subnormal low part, or next to those.
fn tiny(rng: &mut Rng) -> u32 {
    let any = 1 + rng.below(13);
    let e = rng.pick(&[1, 1, 1, 2, 2, 9, 10, 11, 12, any, any, any]);
    if !rng.one_in(3) {
        return number(rng, e);
    }
    // The low part is one digit worth 2^-127 or 2^-126, half of the smallest normal number or all.
    let digit = digit(rng);
    let high = rng.below(MANTISSAS) & !63;
    datum(rng.below(2), 10 - digit + rng.below(2), high | 1 << digit)
}

impl Builder<'_> {
    /// A thread and a file, mostly such that the thread's next multiply takes the file's low part.
    fn pick_low(&mut self) -> (usize, usize) {
        let all = (0..THREADS).flat_map(|thread| SRC.map(|file| (thread, file)));
        let all: Vec<(usize, usize)> = all.collect();
        let takes = |&(thread, file): &(usize, usize)| takes_low(self.control.phase(thread), file);
        let low: Vec<(usize, usize)> = all.iter().copied().filter(takes).collect();
        if low.is_empty() || self.rng.one_in(4) {
            self.rng.pick(&all)
        } else {
            self.rng.pick(&low)
        }
    }

    /// A multiply of such rows.
    pub fn multiply_tiny(&mut self, entry: &'static Entry) -> Done {
        let count = entry.class.dst_rows(0)?.len();
        let (thread, file) = self.pick_low();
        let tiny = Tiny::new(self.rng, file);
        let (a, b) = (tiny.rows(self.rng, A, BLOCK), tiny.rows(self.rng, B, count));
        self.load_both(thread, &a, &b)?;
        let sum = self.aim();
        let first = entry.class.dst_rows(sum)?.start;
        if self.rng.one_in(3) {
            self.load_dst(first, count)?;
        } else {
            self.push(&Field::ZeroRows { first, count })?;
        }
        self.multiply_into(thread, entry, sum)
    }
}
