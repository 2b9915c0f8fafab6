//! Rows for the parts that a multiply takes of its Src numbers.

use super::issues::Issued;
use super::table::{Group, Table, Test};
use crate::engine::{change_numbers, parts, split, takes_low, Width, BF16, TF32};

/// By width, then by file.
pub const GROUPS: [[Group; 2]; 2] = [
    [Group::PartA32, Group::PartB32],
    [Group::PartA16, Group::PartB16],
];

/// A datum of a multiply, and its low part.
struct Taken {
    negative: bool,
    e: u32,
    low: f32,
}

fn take(file: usize, format: u8, number: u32) -> Taken {
    let (sign, e, _) = split(number);
    let [_, low] = parts(file, format, number);
    Taken {
        negative: sign == 1,
        e,
        low,
    }
}

/// The numbers of a file that a multiply takes in a phase, and whether subnormal low parts show.
pub fn tests(
    width: Width,
    file: usize,
    format: u8,
    phase: u8,
    numbers: &[u32],
    shows: bool,
) -> Vec<Test> {
    let taken = numbers.iter().map(|&number| take(file, format, number));
    let taken: Vec<Taken> = taken.collect();
    let [low, other_low] = [file, 1 - file].map(|file| takes_low(phase, file));
    let any = |holds: fn(&Taken) -> bool| taken.iter().any(holds);
    let one = |holds: fn(&Taken) -> bool| taken.iter().filter(|it| holds(it)).count() == 1;
    let subnormal = low && any(|it| it.low.is_subnormal());
    // Its bits without the sign.
    let one_digit = |it: &Taken| it.low.is_subnormal() && (it.low.to_bits() << 1).is_power_of_two();
    let zero = |it: &Taken| (1..255).contains(&it.e) && it.negative && it.low == 0.0;
    let mut tests = vec![
        ("subnormal low part", subnormal),
        ("subnormal low part of one digit", low && any(one_digit)),
        ("subnormal times a high part", subnormal && !other_low),
        ("subnormal times a low part", subnormal && other_low),
        ("subnormal, and Dst shows it", shows),
        (
            "smallest normal low part",
            low && any(|it| it.low.abs() == f32::MIN_POSITIVE),
        ),
        ("zero low part of a negative datum", low && any(zero)),
        (
            "low part at e = 254",
            low && any(|it| it.e == 254 && it.low != 0.0),
        ),
        ("high part at e = 1", !low && any(|it| it.e == 1)),
        ("one e from 1 to 10", one(|it| (1..=10).contains(&it.e))),
        ("one e of 255", one(|it| it.e == 255)),
    ];
    // 16-bit rows have one format alone.
    if width == Width::Bits32 {
        tests.push(("subnormal under format 2", subnormal && format == BF16));
        tests.push(("subnormal under format 6", subnormal && format == TF32));
    }
    tests
}

/// Counts what a multiply takes of so many numbers of a file from a place on.
pub fn count(table: &mut Table, issued: Issued, file: usize, at: usize, count: usize) {
    let (width, format) = (issued.control.width(), issued.control.format);
    let phase = issued.control.phase(issued.thread);
    let numbers = &issued.state.src(file)[at..][..count];
    let shows = takes_low(phase, file) && subnormals_show(issued, file, at, count);
    let tests = tests(width, file, format, phase, numbers, shows);
    table.hit_tests(GROUPS[width as usize][file], tests);
}

/// Does Dst differ from what it would be with zeros for the subnormal low parts?
fn subnormals_show(issued: Issued, file: usize, at: usize, count: usize) -> bool {
    let mut flushed = issued.state.clone();
    let mut found = false;
    for number in &mut flushed.src_mut(file)[at..][..count] {
        if parts(file, issued.control.format, *number)[1].is_subnormal() {
            *number = 0;
            found = true;
        }
    }
    if found {
        change_numbers(issued.control, issued.thread, issued.it, &mut flushed);
    }
    found && flushed.dst != issued.after().dst
}
