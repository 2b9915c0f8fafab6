//! The engine held against itself over generated jobs and single steps.

use std::ops::Range;

use crate::engine::{
    act, decode, fields, follow, follow_record, lines, precheck, ranged, raw_at, rules, run, shape,
    step, width_of, Answer, Control, Field, Marks, Ranged, Refusal, State, Width, BELOW_OPCODE,
    COLUMNS, THREADS,
};
use crate::generate::numbers::state;
use crate::generate::records::record;
use crate::generate::rng::Rng;
use crate::generate::words::word;
use crate::generate::{job, reload};

type Verdict = Result<(), String>;

fn must(holds: bool, fault: &str) -> Verdict {
    if holds {
        Ok(())
    } else {
        Err(fault.to_string())
    }
}

/// The Dst rows in which two states differ.
fn changed_rows(width: Width, one: &State, two: &State) -> Vec<usize> {
    let differs = |at: usize| width.get(&one.dst, at) != width.get(&two.dst, at);
    let numbers = |row: usize| row * COLUMNS..(row + 1) * COLUMNS;
    let rows = 0..width.rows();
    rows.filter(|&row| numbers(row).any(differs)).collect()
}

/// The Dst rows that a word writes: a multiply's.
fn written_rows(control: &Control, thread: usize, word: u32) -> Range<usize> {
    let it = rules(control, thread, word).ok();
    let rows = it.and_then(|it| it.dst_rows(control, thread));
    rows.unwrap_or(0..0)
}

/// Is this the lowest unnamed bit of a word? With all bits above it put out, the word is still
/// refused with 3, and with this one put out too it no longer is.
fn is_lowest(bit: u8, word: u32) -> bool {
    let is_3_below = |end: u8| {
        let put_out = BELOW_OPCODE & (u32::MAX << end);
        decode(word & !put_out).is_err_and(|refusal| refusal.number() == 3)
    };
    is_3_below(bit + 1) && !is_3_below(bit)
}

/// A generated job, and what came of it over two states.
struct Held {
    bytes: Vec<u8>,
    answer: Answer,
    answers: [Answer; 2],
    before: [State; 2],
    after: [State; 2],
    /// The pre-check's answer with other loaded values.
    reloaded: Answer,
}

impl Held {
    fn new(rng: &mut Rng) -> Held {
        let bytes = job(rng);
        let before = [state(rng), state(rng)];
        let mut after = before.clone();
        let answers = [0, 1].map(|n: usize| run(&bytes, &mut after[n]));
        Held {
            answer: precheck(&bytes),
            answers,
            before,
            after,
            reloaded: precheck(&reload(rng, &bytes)),
            bytes,
        }
    }

    fn width(&self) -> Width {
        width_of(&shape(&self.bytes).0)
    }

    fn passes(&self) -> bool {
        matches!(self.answer, Answer::Finished(_))
    }

    /// Pre-check and run agree.
    fn agrees(&self) -> Verdict {
        let (answer, answers) = (&self.answer, &self.answers);
        let same = answers.iter().all(|other| other == answer);
        must(same, &format!("{answer:?} but {answers:?}"))
    }

    /// A refusal's number is one of the pre-check's.
    fn numbers(&self) -> Verdict {
        let number = self.answer.number();
        let right = number.is_none_or(|number| Refusal::OF_PRECHECK.contains(&number));
        must(right, &format!("answered {:?}", self.answer))
    }

    /// Other loaded values change no answer.
    fn reloads(&self) -> Verdict {
        let (answer, reloaded) = (&self.answer, &self.reloaded);
        let fault = format!("{answer:?}, with other values {reloaded:?}");
        must(reloaded == answer, &fault)
    }

    /// A field fits when each of its ranged numbers is within its ends.
    fn ranges(&self) -> Verdict {
        let width = self.width();
        for (place, field) in fields(&self.bytes) {
            let (tag, payload) = raw_at(&self.bytes, place).expect("a whole field");
            let holds = ranged(width, tag, payload).iter().all(Ranged::holds);
            let fault = format!("the field at {place} fits by one rule alone");
            must(field.fits(width) == holds, &fault)?;
        }
        Ok(())
    }

    /// A passing job run by single steps ends alike, so both roads through an instruction are
    /// walked: the run's, and the step's with its tests of the record.
    fn steps(&self) -> Verdict {
        if !self.passes() {
            return Ok(());
        }
        let (mut control, mut state) = (Control::start(), self.before[0].clone());
        for (place, field) in fields(&self.bytes) {
            if let Field::Issue { thread, word } = field {
                let refusal = step(&mut control, thread, word, &mut state);
                let fault = format!("the step at {place} answered {refusal:?}");
                must(refusal.is_none(), &fault)?;
            } else {
                act(&control, &field, &mut state);
                follow_record(&mut control, &field);
            }
        }
        must(state == self.after[0], "run by steps, it ends otherwise")
    }

    /// A refusal 3 tells the lowest unnamed bit of the issue field at its place.
    fn tells_the_bit(&self) -> Verdict {
        let Answer::Refused { refusal, place } = self.answer else {
            return Ok(());
        };
        let Some(bit) = refusal.bit() else {
            return Ok(());
        };
        let told = match fields(&self.bytes).find(|(at, _)| *at == place) {
            Some((_, Field::Issue { word, .. })) => is_lowest(bit, word),
            _ => false,
        };
        must(told, &format!("answered {:?}", self.answer))
    }

    /// A refusal leaves the state as it stood.
    fn keeps(&self) -> Verdict {
        let kept = self.passes() || self.after == self.before;
        must(kept, "refused, yet the state changed")
    }

    /// A passing job's lines don't depend on the lent numbers.
    fn prints(&self) -> Verdict {
        let printed = |n: usize| lines(&self.bytes, &self.after[n]);
        let same = !self.passes() || printed(0) == printed(1);
        must(same, "lines depend on the lent state")
    }

    /// Dst rows that a passing job left unset keep their numbers.
    fn leaves(&self) -> Verdict {
        if !self.passes() {
            return Ok(());
        }
        let (mut control, mut marks) = (Control::start(), Marks::start());
        for (_, field) in shape(&self.bytes).0 {
            follow(&mut control, &mut marks, &field);
        }
        let changed = changed_rows(self.width(), &self.before[0], &self.after[0]);
        let set = changed.iter().all(|&row| marks.dst[row]);
        must(set, "an unset Dst row changed")
    }
}

/// A refused step has one of its numbers and changes nothing, and a 3 tells the lowest unnamed bit;
/// a done step leaves a record in range and writes Dst in its own rows alone.
fn check_step(rng: &mut Rng, lent: &State) -> Verdict {
    let (old_record, mut old_state) = (record(rng), lent.clone());
    if rng.one_in(20) {
        old_state.dst.pop();
    }
    let (mut new_record, mut new_state) = (old_record.clone(), old_state.clone());
    let (thread, word) = (rng.index(THREADS + 1), word(rng));
    let refusal = step(&mut new_record, thread, word, &mut new_state);
    let kept = new_record == old_record && new_state == old_state;
    let width = old_record.width();
    let right = match refusal {
        None => {
            let own = written_rows(&old_record, thread, word);
            let changed = changed_rows(width, &old_state, &new_state);
            new_record.in_range() && changed.iter().all(|row| own.contains(row))
        }
        Some(Refusal::DstRow) => kept && width == Width::Bits32,
        Some(Refusal::UnnamedBit { bit }) => kept && is_lowest(bit, word),
        Some(refusal) => kept && Refusal::OF_STEP.contains(&refusal.number()),
    };
    must(right, &format!("answered {refusal:?}"))
}

/// What came of so many jobs, with a single step each, and whether nothing was wrong.
pub fn check(seed: u64, count: u64) -> (String, bool) {
    let mut rng = Rng(seed);
    let (mut passing, mut halves, mut faults) = (0, 0, Vec::new());
    for n in 0..count {
        let held = Held::new(&mut rng);
        passing += u64::from(held.passes());
        halves += u64::from(held.width() == Width::Bits16);
        let tests = [
            Held::agrees,
            Held::numbers,
            Held::reloads,
            Held::ranges,
            Held::steps,
            Held::tells_the_bit,
            Held::keeps,
            Held::prints,
            Held::leaves,
        ];
        let told = tests.iter().filter_map(|test| test(&held).err());
        faults.extend(told.map(|fault| format!("job {n}: {fault}\n")));
        let told = check_step(&mut rng, &held.before[0]).err();
        faults.extend(told.map(|fault| format!("step {n}: {fault}\n")));
    }
    let text = format!(
        "{count} jobs, {halves} with 16-bit Dst rows, {passing} passing, {} faults\n",
        faults.len()
    );
    (faults.concat() + &text, faults.is_empty())
}
