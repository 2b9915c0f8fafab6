//! Single steps through both programs.

use super::lent::{difference, missize, resize};
use super::record::{control, numbers};
use super::{given, proved, Refusals};
use crate::engine::{step, Control, Instruction, Refusal, State, Width, SRC, THREADS};
use crate::generate::numbers::state;
use crate::generate::records::record;
use crate::generate::rng::Rng;
use crate::generate::words::word;

#[derive(Default)]
pub struct Tally {
    done: u64,
    /// Multiplies into 16-bit Dst rows among them, and clears that keep a bank.
    halves: u64,
    kept: u64,
    refused: Refusals,
    no_record: u64,
    resized: u64,
    chained: u64,
}

impl Tally {
    pub fn print(&self, fresh: u64) {
        println!(
            "{} steps done, {} of them multiplies into 16-bit Dst rows, {} clears that keep a bank",
            self.done, self.halves, self.kept
        );
        self.refused.print("steps");
        println!(
            "of these {fresh} fresh, {} chained; {} fresh ones on numbers of no record, {} on files of a wrong length",
            self.chained, self.no_record, self.resized
        );
    }
}

/// The numbers of a record: about one list in four with a number changed, a few of a wrong length.
fn step_numbers(rng: &mut Rng) -> Vec<u32> {
    let mut n = numbers(&record(rng));
    if rng.one_in(4) {
        let at = rng.index(n.len());
        n[at] = match rng.below(8) {
            0 => rng.word(),
            1 => n[at] + 256,
            2 => n[at] + 65536,
            3 => n[at] | 1 << 31,
            4 => rng.pick(&[255, 256, 65535, 65536, u32::MAX]),
            5 => rng.pick(&[2, 3, 4, 64, 1024]),
            _ => rng.below(2),
        };
    }
    if rng.one_in(24) {
        resize(rng, &mut n);
    }
    n
}

fn step_thread(rng: &mut Rng) -> u32 {
    let threads = THREADS as u32;
    match rng.below(16) {
        0 => rng.pick(&[255, 256, 257, 258, 65536, 1 << 31, u32::MAX]),
        1 => rng.word(),
        2 => threads + rng.below(2),
        _ => rng.below(threads),
    }
}

/// The record, as numbers and as the second program's own, or none, and the files of each; they go
/// on from step to step.
struct Pair {
    numbers: Vec<u32>,
    control: Option<Control>,
    proved: State,
    second: State,
}

impl Pair {
    fn second_step(&mut self, thread: u32, word: u32) -> Option<Refusal> {
        match &mut self.control {
            _ if !self.second.fits() => Some(Refusal::LentLength),
            None => Some(Refusal::Shape),
            Some(c) => step(c, thread as usize, word, &mut self.second),
        }
    }

    fn step(&mut self, thread: u32, word: u32, tally: &mut Tally) -> Result<(), String> {
        let (old_numbers, old) = (self.numbers.clone(), self.second.clone());
        let refusal = self.second_step(thread, word);
        let got = proved::step(&mut self.numbers, thread, word, &mut self.proved);
        let expected = refusal.map_or(0, |refusal| proved::packed(&refusal.at(0)));
        given(Refusal::OF_STEP, [got, expected])?;
        if got != expected {
            return Err(format!("{got:#x}, not {expected:#x}"));
        }
        difference(&self.proved, &self.second)?;
        if let Some(refusal) = refusal {
            tally.refused.count(refusal);
            if self.numbers != old_numbers || self.proved != old {
                let number = refusal.number();
                return Err(format!("refused {number}, yet something changed"));
            }
            return Ok(());
        }
        let control = self.control.as_ref().expect("a record, as it is done");
        tally.done += 1;
        let it = Instruction::of(word).expect("a word of the table, as it is done");
        let halves = it.entry.class.is_multiply() && control.width() == Width::Bits16;
        tally.halves += u64::from(halves);
        let mut files = SRC.into_iter();
        let kept = files.any(|file| it.clears(file) && control.keeps(file));
        tally.kept += u64::from(kept);
        if numbers(control) != self.numbers {
            return Err("another record after it".to_string());
        }
        Ok(())
    }
}

/// The first thing in which the two differ over one fresh step and, one time in four, some more
/// steps that go on with what it left.
pub fn compare(rng: &mut Rng, tally: &mut Tally) -> Result<(), String> {
    let numbers = step_numbers(rng);
    let control = control(&numbers);
    tally.no_record += u64::from(control.is_none());
    let mut proved = state(rng);
    if rng.one_in(16) {
        missize(rng, &mut proved);
        tally.resized += 1;
    }
    let mut pair = Pair {
        numbers,
        control,
        second: proved.clone(),
        proved,
    };
    let more = if rng.one_in(4) { 1 + rng.below(20) } else { 0 };
    tally.chained += u64::from(more);
    for n in 0..=more {
        let (thread, word) = (step_thread(rng), word(rng));
        let told = |what| format!("step {n}, word {word:08x} on thread {thread}: {what}");
        pair.step(thread, word, tally).map_err(told)?;
    }
    Ok(())
}
