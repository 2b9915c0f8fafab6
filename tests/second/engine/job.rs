//! Whole jobs.

use super::{
    act, change_numbers, fields, follow, follow_record, judge, register_at, rules, shape, width_of,
    wrong_place, Answer, Control, Field, Instruction, Marks, Refusal, State, Width, COLUMNS,
};

/// Judges the whole shape, then field after field.
pub fn precheck(job: &[u8]) -> Answer {
    if let Some(place) = wrong_place(job) {
        return Refusal::Shape.at(place);
    }
    let (mut control, mut marks) = (Control::start(), Marks::start());
    let mut issued = 0;
    for (place, field) in fields(job) {
        if let Some(refusal) = judge(&control, &marks, &field) {
            return refusal.at(place);
        }
        follow(&mut control, &mut marks, &field);
        issued += u64::from(matches!(field, Field::Issue { .. }));
    }
    Answer::Finished(issued)
}

pub fn run(job: &[u8], state: &mut State) -> Answer {
    run_with(job, state, change_numbers)
}

/// The job run with another function for what an instruction does to the lent numbers.
pub fn run_with(
    job: &[u8],
    state: &mut State,
    change_numbers: impl Fn(&Control, usize, Instruction, &mut State),
) -> Answer {
    if !state.fits() {
        return Refusal::LentLength.at(0);
    }
    let answer = precheck(job);
    if let Answer::Refused { .. } = answer {
        return answer;
    }
    let mut control = Control::start();
    for (place, field) in fields(job) {
        if let Field::Issue { thread, word } = field {
            let it = passed(&control, thread, word, place);
            change_numbers(&control, thread, it, state);
        } else {
            act(&control, &field, state);
        }
        follow_record(&mut control, &field);
    }
    answer
}

/// The instruction of an issue field in a run. The pre-check passed the job, so a rule that is
/// broken here is a defect of this program, which no answer may hide.
fn passed(control: &Control, thread: usize, word: u32, place: usize) -> Instruction {
    rules(control, thread, word).unwrap_or_else(|refusal| {
        panic!("the pre-check passed the word at {place}, and the run refuses it: {refusal:?}")
    })
}

fn row_line(width: Width, row: usize, state: &State) -> String {
    let mut line = format!("D {row}");
    for column in 0..COLUMNS {
        let number = width.get(&state.dst, row * COLUMNS + column);
        line += &format!(" {number:0digits$x}", digits = width.digits());
    }
    line
}

/// The output lines of a finished job over its final state.
pub fn lines(job: &[u8], state: &State) -> Vec<String> {
    let mut lines = Vec::new();
    let fields = shape(job).0;
    let width = width_of(&fields);
    for (_, field) in fields {
        match field {
            Field::OutputRows { first, count } => {
                let rows = first..first + count;
                lines.extend(rows.map(|row| row_line(width, row, state)));
            }
            Field::OutputRegister { thread, register } => {
                let value = state.registers[register_at(thread, register)];
                lines.push(format!("G {thread} {register} {value:08x}"));
            }
            _ => {}
        }
    }
    lines
}

/// Exactly what the job program prints.
pub fn output(job: &[u8], state: &mut State) -> String {
    let answer = run(job, state);
    let mut text = vec![answer.line("finished")];
    if let Answer::Finished(_) = answer {
        text.extend(lines(job, state));
    }
    text.join("\n") + "\n"
}
