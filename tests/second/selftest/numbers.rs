//! The table's numbers, which of them each entry gives, and that a run finishes once its pre-check
//! has passed: order 8.

use std::collections::BTreeSet;

use super::steps::refusal;
use super::{prints, same, Case, Verdict};
use crate::engine::{
    act, fields, follow_record, precheck, run, step, Answer, Control, Field, Refusal, State,
    COLUMNS, THREADS,
};
use crate::generate::job;
use crate::generate::numbers::state;
use crate::generate::records::record;
use crate::generate::rng::Rng;
use crate::generate::words::word;
use crate::worked::{
    by_counter, by_counter_in_halves, by_pointers, bytes, ADD_8, AT_BASE, REACHED,
};

pub const CASES: &[Case] = &[
    ("numbers: 1 to 9, each once", each_once),
    ("numbers: those of each entry", || {
        same(Refusal::OF_PRECHECK, [1, 2, 3, 4, 5, 6, 7, 8])?;
        same(Refusal::OF_RUN, [1, 2, 3, 4, 5, 6, 7, 8, 9])?;
        same(Refusal::OF_STEP, [1, 2, 3, 4, 5, 6, 7, 9])
    }),
    ("numbers: each entry gives its own", each_gives_its_own),
    ("numbers: a passing run finishes", passing_runs_finish),
    ("numbers: the worked job by records", worked_by_records),
    ("numbers: a row by the counter alone", || {
        REACHED.iter().try_for_each(|&(words, line, number)| {
            let wanted = printed(line, number);
            same((words, prints(&by_counter(words))), (words, wanted))
        })
    }),
    ("numbers: a 16-bit row by the counter alone", || {
        let of = |words| prints(&by_counter_in_halves(words));
        same(of(&[(0, AT_BASE)]), printed("refused 8 at 1726", ""))?;
        let wanted = printed("finished 2", "4040");
        same(of(&[(0, ADD_8), (0, AT_BASE)]), wanted)
    }),
    ("numbers: banks by the pointers alone", || {
        let [stays, back] = [false, true].map(|back| prints(&by_pointers(back)));
        same(stays, printed("refused 6 at 1734", ""))?;
        same(back, printed("finished 3", "40400000"))
    }),
];

/// The whole table, a 3 with some bit.
const ALL: [Refusal; 9] = [
    Refusal::Shape,
    Refusal::UnknownOpcode,
    Refusal::UnnamedBit { bit: 16 },
    Refusal::UndefinedMode,
    Refusal::Unmodelled,
    Refusal::OtherOwner,
    Refusal::DstRow,
    Refusal::Unset,
    Refusal::LentLength,
];

/// Document 01's numbers again. With a case more this does not compile, so that it is listed too.
fn of_paper(refusal: Refusal) -> u8 {
    match refusal {
        Refusal::Shape => 1,
        Refusal::UnknownOpcode => 2,
        Refusal::UnnamedBit { .. } => 3,
        Refusal::UndefinedMode => 4,
        Refusal::Unmodelled => 5,
        Refusal::OtherOwner => 6,
        Refusal::DstRow => 7,
        Refusal::Unset => 8,
        Refusal::LentLength => 9,
    }
}

fn each_once() -> Verdict {
    let numbers: BTreeSet<u8> = ALL.into_iter().map(Refusal::number).collect();
    same(numbers, (1..=9).collect::<BTreeSet<u8>>())?;
    same(ALL.map(Refusal::number), ALL.map(of_paper))
}

/// A state with one file that is too short by a number, too long by one, or empty.
fn missized(rng: &mut Rng, lent: &State) -> State {
    let mut state = lent.clone();
    let file = match rng.below(4) {
        0 => &mut state.srca,
        1 => &mut state.srcb,
        2 => &mut state.dst,
        _ => &mut state.registers,
    };
    match rng.below(3) {
        0 => file.clear(),
        1 => file.push(0),
        _ => file.truncate(file.len() - 1),
    }
    state
}

/// Over generated jobs and single steps, right and damaged ones, on files of right and of wrong
/// lengths: each number of an entry is given, and no other one; the run's 9 for wrong ones alone.
fn each_gives_its_own() -> Verdict {
    let mut rng = Rng(8);
    let mut lent = state(&mut rng);
    let [mut of_precheck, mut of_run, mut of_step] = [(); 3].map(|()| BTreeSet::new());
    for _ in 0..3000 {
        let (job, mut missized) = (job(&mut rng), missized(&mut rng, &lent));
        of_precheck.extend(precheck(&job).number());
        let (mut control, thread) = (record(&mut rng), rng.index(THREADS + 1));
        let word = word(&mut rng);
        for state in [&mut lent, &mut missized] {
            let answer = run(&job, state);
            same(answer == Refusal::LentLength.at(0), !state.fits())?;
            of_run.extend(answer.number());
            let told = step(&mut control, thread, word, state);
            of_step.extend(told.map(Refusal::number));
        }
    }
    let list = |given: BTreeSet<u8>| given.into_iter().collect::<Vec<u8>>();
    same(list(of_precheck), Refusal::OF_PRECHECK)?;
    same(list(of_run), Refusal::OF_RUN)?;
    same(list(of_step), Refusal::OF_STEP)
}

/// Walks a job by single steps, each of which must be done, and counts them.
fn walk(job: &[u8], state: &mut State) -> Result<u64, String> {
    let (mut control, mut steps) = (Control::start(), 0);
    for (place, field) in fields(job) {
        if let Field::Issue { thread, word } = field {
            let told = step(&mut control, thread, word, state);
            same((place, told), (place, None))?;
            steps += 1;
        } else {
            act(&control, &field, state);
            follow_record(&mut control, &field);
        }
    }
    Ok(steps)
}

/// Generated jobs that pass, over two lent states each: every issue field's single step is done on
/// the record and the files as the fields before it left them, and the run finishes as they end.
fn passing_runs_finish() -> Verdict {
    let (mut rng, mut passing, mut steps) = (Rng(10), 0, 0);
    for _ in 0..400 {
        let job = job(&mut rng);
        let Answer::Finished(count) = precheck(&job) else {
            continue;
        };
        (passing, steps) = (passing + 1, steps + count);
        for mut walked in [state(&mut rng), state(&mut rng)] {
            let mut left = walked.clone();
            same(walk(&job, &mut walked)?, count)?;
            same(run(&job, &mut left), Answer::Finished(count))?;
            same(left == walked, true)?;
        }
    }
    same((passing > 100, steps > 1000), (true, true))
}

/// The job with base 1016, an INCRWC that adds 8 to Dst, and an MVMUL with nothing to add, whose
/// first row is (1016 + 8) & 0x3F8 = 0 on the record that the INCRWC left. On no record before that
/// could it be done: at the start nothing is modelled (5), after the settings the banks are the
/// unpackers' (6), and once they are handed over the row is 1016 & 0x3F8 = 1016 (7).
fn worked_by_records() -> Verdict {
    let job = bytes(&by_counter(&[(0, ADD_8), (0, AT_BASE)]));
    let (mut control, mut told) = (Control::start(), Vec::new());
    for (_, field) in fields(&job) {
        told.push(refusal(control.clone(), AT_BASE).map_or(0, Refusal::number));
        follow_record(&mut control, &field);
    }
    // Before the settings; two loads and two hand-overs; zeroing and INCRWC; MVMUL and output.
    same(told, [5, 6, 6, 6, 6, 7, 7, 0, 0])?;
    same(precheck(&job), Answer::Finished(2))?;
    same(run(&job, &mut State::zero()), Answer::Finished(2))
}

/// A job's first line and, where it finishes, row 0 with a number in column 0 and zeros.
pub fn printed(line: &str, number: &str) -> String {
    if number.is_empty() {
        return format!("{line}\n");
    }
    let zero = format!(" {}", "0".repeat(number.len()));
    format!("{line}\nD 0 {number}{}\n", zero.repeat(COLUMNS - 1))
}
