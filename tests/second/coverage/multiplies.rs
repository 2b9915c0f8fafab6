//! Multiplies of passing jobs.

use std::ops::Range;

use super::issues::Issued;
use super::table::{Group, Table};
use super::{data, parts as taken, skipped};
use crate::engine::{
    change_numbers, parts, src_at, takes_low, State, Width, A, B, BLOCK, CLEAR, COLUMNS,
    DST_COUNTS, DST_ROWS, FILES, FP32, MOST_DST_ROWS,
};

/// By file, by width and by sign.
pub const DATUM: [Group; 2] = [Group::DatumA, Group::DatumB];
pub const BEFORE: [Group; 2] = [Group::Before32, Group::Before16];
pub const AFTER: [Group; 2] = [Group::After32, Group::After16];
pub const ROUNDING: [Group; 2] = [Group::RoundingPositive, Group::RoundingNegative];

pub fn count(table: &mut Table, issued: Issued) {
    let (control, it) = (issued.control, issued.it);
    let (name, phase) = (it.entry.name, control.phase(issued.thread));
    table.hit(Group::MultiplyFormat, control.format);
    table.hit(Group::MultiplyPhase, format!("{name} {phase}"));
    let by_counter = skipped::needs_its_counter(control, issued.thread, it.word);
    table.hit_if(by_counter, Group::DoneByCounter, skipped::NOT_FROM_0);
    let clear = it.get(CLEAR);
    table.hit(Group::MultiplyClear, format!("{name} {clear}"));
    let reads = [
        (A, control.a_row(issued.thread), BLOCK),
        (B, control.b_row(issued.thread), rows_of(issued).len()),
    ];
    for (file, first, count) in reads {
        let bank = control.matrix_bank(file);
        table.hit(Group::MultiplyBank, format!("{} {bank}", FILES[file]));
        let place = if first == 0 { "0" } else { "other" };
        table.hit(Group::MultiplyRow, format!("{} {place}", FILES[file]));
        let low = takes_low(phase, file);
        let (at, count) = (src_at(bank, first), count * COLUMNS);
        taken::count(table, issued, file, at, count);
        for &number in &issued.state.src(file)[at..][..count] {
            let [_, low_part] = parts(file, control.format, number);
            let tests = data::src(control.format, number, low_part, low);
            table.hit_tests(DATUM[file], tests);
        }
    }
    count_dst(table, issued);
}

/// The Dst rows of a multiply.
fn rows_of(issued: Issued) -> Range<usize> {
    let rows = issued.it.dst_rows(issued.control, issued.thread);
    rows.expect("a multiply")
}

/// The places of their numbers.
fn numbers_of(issued: Issued) -> Range<usize> {
    let rows = rows_of(issued);
    rows.start * COLUMNS..rows.end * COLUMNS
}

fn count_dst(table: &mut Table, issued: Issued) {
    let (width, after) = (issued.control.width(), issued.after());
    let number = |state: &State, at: usize| width.get(&state.dst, at);
    let pairs = numbers_of(issued).map(|at| (number(issued.state, at), number(&after, at)));
    let pairs: Vec<(u32, u32)> = pairs.collect();
    for &(old, new) in &pairs {
        table.hit_tests(BEFORE[width as usize], data::before(width, old));
        table.hit_tests(AFTER[width as usize], data::after(width, old, new));
    }
    if width == Width::Bits16 {
        let rows = rows_of(issued);
        let half = ["low", "high"][rows.start / DST_ROWS];
        let row = format!("{} into {half} halves", issued.it.entry.name);
        table.hit(Group::HalfMultiply, row);
        let last = rows.end == MOST_DST_ROWS;
        table.hit_if(last, Group::HalfMultiply, "into the last rows");
        count_roundings(table, issued, &pairs);
    }
}

/// Old and new 16-bit numbers by the roundings between them.
fn count_roundings(table: &mut Table, issued: Issued, pairs: &[(u32, u32)]) {
    let old = pairs.iter().map(|pair| Width::Bits16.widen(pair.0));
    let old: Vec<f32> = old.collect();
    let sums = under_fp32(issued, &vec![0.0; old.len()]);
    let results = under_fp32(issued, &old);
    for (n, &(_, new)) in pairs.iter().enumerate() {
        let result = results[n];
        if !result.is_nan() {
            let group = ROUNDING[usize::from(result.is_sign_negative())];
            table.hit_tests(group, data::rounding(old[n], sums[n], result, new));
        }
    }
}

/// The results of a multiply under Fp32, with these as the old numbers. With zeros they are the
/// sums alone; with widened 16-bit numbers, what is rounded once more.
fn under_fp32(issued: Issued, old: &[f32]) -> Vec<f32> {
    let (mut control, mut state) = (issued.control.clone(), issued.state.clone());
    control.flags = FP32;
    // As far down as the first row is, rounded to a multiple of 8: then it is 0 or 4.
    let first = (rows_of(issued).start / 8 * 8) as u16;
    control.base = (control.base + DST_COUNTS - first) % DST_COUNTS;
    let place = numbers_of(Issued {
        control: &control,
        ..issued
    });
    for (number, old) in state.dst[place.clone()].iter_mut().zip(old) {
        *number = old.to_bits();
    }
    change_numbers(&control, issued.thread, issued.it, &mut state);
    let results = state.dst[place].iter();
    results.map(|&number| f32::from_bits(number)).collect()
}
