//! What many generated jobs cover, and the words of as many generated single steps.

mod bits;
mod data;
mod issues;
mod kept;
mod left;
mod multiplies;
mod parts;
mod passing;
mod refused;
mod rows;
mod skipped;
mod table;

use std::ops::Range;

use crate::engine::{named, precheck, Answer, Control, Field, Instruction, Width};
use crate::generate::job;
use crate::generate::rng::Rng;
use table::{Group, Table};

named! {
    /// The settings by what is modelled under them.
    enum Mode {
        Fp32 = "Fp32",
        Halves = "16-bit rows",
        Neither = "neither",
    }
}

fn mode(control: &Control) -> Mode {
    match (control.width(), control.modelled()) {
        (Width::Bits16, _) => Mode::Halves,
        (_, true) => Mode::Fp32,
        _ => Mode::Neither,
    }
}

const MULTIPLY: &str = "multiply";

/// The Dst rows of a field or of its multiply, and what it is called.
fn dst_rows(control: &Control, field: &Field) -> Option<(&'static str, Range<usize>)> {
    if let Field::Issue { thread, word } = *field {
        let rows = Instruction::of(word)?.dst_rows(control, thread)?;
        return Some((MULTIPLY, rows));
    }
    Some((field.tag().text(), field.dst_rows()?))
}

/// The table over so many generated jobs, with a single step each, and the names of its rows that
/// stayed zero.
pub fn coverage(seed: u64, count: u64) -> (String, Vec<String>) {
    let (mut rng, mut of_steps) = (Rng(seed), Rng(seed));
    let mut table = rows::table();
    for _ in 0..count {
        bits::count_step(&mut table, &mut of_steps);
        let bytes = job(&mut rng);
        match precheck(&bytes) {
            Answer::Finished(_) => passing::count(&mut table, &bytes),
            Answer::Refused { refusal, place } => {
                refused::count(&mut table, &bytes, refusal, place);
            }
        }
    }
    let (text, missing) = table.text();
    (text + &shares(&table, count), missing)
}

fn shares(table: &Table, count: u64) -> String {
    let of = |part: u64, all: u64| 100.0 * part as f64 / all.max(1) as f64;
    let passing = table.hits(Group::Jobs, "passing");
    let text = format!("share of passing jobs {:.1} %\n", of(passing, count));
    let passing = table.hits(Group::PassingSettings, Mode::Halves.text());
    let all = passing + table.hits(Group::RefusedSettings, Mode::Halves.text());
    text + &format!(
        "share of jobs with 16-bit Dst rows {:.1} %, of these passing {:.1} %\n",
        of(all, count),
        of(passing, all)
    )
}
