//! One job through both programs.

use super::lent::{difference, missize};
use super::{given, proved, Refusals};
use crate::engine::{
    lines, precheck, run, shape, width_of, Answer, Field, Refusal, State, Width, A, B, JOB_BYTES,
    KEEP,
};
use crate::generate::numbers::state;
use crate::generate::rng::Rng;
use crate::generate::{job, reload};

#[derive(Default)]
pub struct Tally {
    passing: u64,
    issued: u64,
    lines: u64,
    refused: Refusals,
    resized: u64,
    over_long: u64,
    /// With 16-bit Dst rows: all of them, and the passing ones.
    halves: [u64; 2],
    /// The same with a switch that keeps a bank.
    switched: [u64; 2],
}

impl Tally {
    pub fn print(&self) {
        println!(
            "{} jobs passed, each over two states: {} issue fields, {} lines",
            self.passing, self.issued, self.lines
        );
        self.refused.print("jobs");
        println!(
            "{} jobs with 16-bit Dst rows, {} of them passed",
            self.halves[0], self.halves[1]
        );
        println!(
            "{} jobs with a switch that keeps a bank, {} of them passed",
            self.switched[0], self.switched[1]
        );
        println!(
            "{} jobs over 8,192 bytes, {} runs on slices of a wrong length",
            self.over_long, self.resized
        );
    }
}

/// Both programs' answers of an entry that gives these numbers.
fn same(what: &str, numbers: &[u8], got: u64, expected: &Answer) -> Result<(), String> {
    let packed = proved::packed(expected);
    given(numbers, [got, packed]).map_err(|fault| format!("{what}: {fault}"))?;
    if got == packed {
        Ok(())
    } else {
        let expected = expected.line("finished");
        Err(format!("{what}: {got:#x}, not {expected}"))
    }
}

/// Has a job 16-bit Dst rows, and has it a switch?
fn kinds(job: &[u8]) -> [bool; 2] {
    let fields = shape(job).0;
    let flags = match fields.first() {
        Some((_, Field::Settings(payload))) => payload[1],
        _ => 0,
    };
    let switched = flags & (KEEP[A] | KEEP[B]) != 0;
    [width_of(&fields) == Width::Bits16, switched]
}

/// The first thing in which the two differ over one job, or nothing.
pub fn compare(rng: &mut Rng, tally: &mut Tally) -> Result<(), String> {
    let bytes = job(rng);
    let expected = precheck(&bytes);
    let numbers = Refusal::OF_PRECHECK;
    same("pre-check", numbers, proved::precheck(&bytes), &expected)?;
    let reloaded = proved::precheck(&reload(rng, &bytes));
    same("pre-check of other values", numbers, reloaded, &expected)?;
    tally.over_long += u64::from(bytes.len() > JOB_BYTES);
    let [halves, switched] = kinds(&bytes).map(u64::from);
    tally.halves[0] += halves;
    tally.switched[0] += switched;

    match expected {
        Answer::Refused { refusal, .. } => {
            // Two states are for the lines alone, and a refused job has none.
            let lent = state(rng);
            if compare_run("run 0", &bytes, &expected, &lent)? != lent {
                let number = refusal.number();
                return Err(format!("refused {number}, yet the state changed"));
            }
            tally.refused.count(refusal);
        }
        Answer::Finished(count) => {
            let mut printed = Vec::new();
            for run in ["run 0", "run 1"] {
                let after = compare_run(run, &bytes, &expected, &state(rng))?;
                printed.push(lines(&bytes, &after));
            }
            if printed[0] != printed[1] {
                return Err("the lines depend on the lent state".to_string());
            }
            tally.passing += 1;
            tally.halves[1] += halves;
            tally.switched[1] += switched;
            tally.issued += count;
            tally.lines += printed[0].len() as u64;
        }
    }
    if rng.one_in(8) {
        compare_missized(rng, &bytes)?;
        tally.resized += 1;
    }
    Ok(())
}

/// Both runs over one lent state, and what the proved one left.
fn compare_run(what: &str, job: &[u8], expected: &Answer, lent: &State) -> Result<State, String> {
    let (mut second, mut after) = (lent.clone(), lent.clone());
    let answer = run(job, &mut second);
    let got = proved::run(job, &mut after);
    same(what, Refusal::OF_RUN, got, expected)?;
    if answer != *expected {
        return Err(format!("{what}: the second program's is {answer:?}"));
    }
    difference(&after, &second).map_err(|fault| format!("{what}: {fault}"))?;
    Ok(after)
}

/// Both runs on a file of a wrong length.
fn compare_missized(rng: &mut Rng, job: &[u8]) -> Result<(), String> {
    let mut lent = state(rng);
    missize(rng, &mut lent);
    let mut after = lent.clone();
    let nine = Refusal::LentLength.at(0);
    let got = proved::run(job, &mut after);
    same("wrong lengths", Refusal::OF_RUN, got, &nine)?;
    let answer = run(job, &mut lent.clone());
    if answer != nine {
        return Err(format!("wrong lengths: the second program's is {answer:?}"));
    }
    if after != lent {
        return Err("wrong lengths, yet the state changed".to_string());
    }
    Ok(())
}
