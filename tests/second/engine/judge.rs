//! One field of a job: the rules that it breaks, and what it does.

use super::{
    all_set, change_numbers, change_record, reads_set, register_at, row_numbers, rules, settings,
    src_at, Class, Control, Field, Instruction, Marks, Owner, Refusal, State, A, BANKS, BLOCK,
    COLUMNS, D, RESULT, ROW_BYTES, SRC,
};

const PASSED: &str = "a word that breaks no rule";

/// The lowest number from 2 to 8 that a field meets.
#[inline]
pub fn judge(control: &Control, marks: &Marks, field: &Field) -> Option<Refusal> {
    let unless = |holds: bool, refusal: Refusal| (!holds).then_some(refusal);
    match *field {
        Field::LoadRows { file: D, .. } => None,
        Field::LoadRows { file, .. } | Field::HandOver { file } => {
            unless(control.unpackers_have(file), Refusal::OtherOwner)
        }
        Field::Issue { thread, word } => match rules(control, thread, word) {
            Err(refusal) => Some(refusal),
            Ok(it) => unless(reads_set(control, marks, thread, it), Refusal::Unset),
        },
        Field::OutputRows { first, count } => {
            unless(all_set(&marks.dst[first..][..count]), Refusal::Unset)
        }
        Field::OutputRegister { thread, register } => {
            unless(marks.registers[thread][register], Refusal::Unset)
        }
        Field::Settings(_) | Field::LoadRegister { .. } | Field::ZeroRows { .. } => None,
    }
}

/// Record and marks after a field that breaks no rule.
#[inline]
pub fn follow(control: &mut Control, marks: &mut Marks, field: &Field) {
    follow_marks(control, marks, field);
    follow_record(control, field);
}

/// The marks after a field, under the record as the fields before it left it.
#[inline]
fn follow_marks(control: &Control, marks: &mut Marks, field: &Field) {
    match *field {
        Field::LoadRows { file, first, rows } => {
            let marks = match file {
                D => &mut marks.dst[..],
                _ => &mut marks.src[file][control.unpackers_bank(file)],
            };
            marks[first..][..rows.len() / ROW_BYTES].fill(true);
        }
        Field::ZeroRows { first, count } => marks.dst[first..][..count].fill(true),
        Field::LoadRegister {
            thread, register, ..
        } => marks.registers[thread][register] = true,
        Field::Issue { thread, word } => {
            issue_marks(control, marks, thread, Instruction::of(word).expect(PASSED));
        }
        Field::Settings(_) | Field::HandOver { .. } => {}
        Field::OutputRows { .. } | Field::OutputRegister { .. } => {}
    }
}

#[inline]
fn issue_marks(control: &Control, marks: &mut Marks, thread: usize, it: Instruction) {
    match it.entry.class {
        Class::Multiply { .. } | Class::Legacy | Class::SetRwc => {
            for file in SRC {
                if it.clears(file) && !control.keeps(file) {
                    marks.src[file][control.matrix_bank(file)].fill(false);
                }
            }
        }
        Class::ZeroSrc => {
            for file in SRC {
                for bank in 0..BANKS {
                    if it.fills(control, file, bank) {
                        marks.src[file][bank].fill(true);
                    }
                }
            }
        }
        Class::ShiftXa => marks.src[A][control.matrix_bank(A)][..BLOCK].fill(true),
        Class::Scalar(_) => marks.registers[thread][it.get(RESULT) as usize] = true,
        Class::IncRwc | Class::ShiftXb | Class::Nothing => {}
    }
}

/// The record after a field.
#[inline]
pub fn follow_record(control: &mut Control, field: &Field) {
    match *field {
        Field::Settings(payload) => *control = settings(payload),
        Field::HandOver { file } => {
            let bank = control.unpackers_bank(file);
            control.owner[file][bank] = Owner::Matrix;
            control.unpackers[file] = 1 - control.unpackers[file];
        }
        Field::Issue { thread, word } => {
            change_record(control, thread, Instruction::of(word).expect(PASSED));
        }
        Field::LoadRows { .. } | Field::LoadRegister { .. } | Field::ZeroRows { .. } => {}
        Field::OutputRows { .. } | Field::OutputRegister { .. } => {}
    }
}

/// What a field does to the lent numbers, under the record as the fields before it left it.
#[inline]
pub fn act(control: &Control, field: &Field, state: &mut State) {
    match *field {
        Field::LoadRows {
            file: D,
            first,
            rows,
        } => {
            let width = control.width();
            for (n, number) in row_numbers(rows).enumerate() {
                width.put(&mut state.dst, first * COLUMNS + n, number);
            }
        }
        Field::LoadRows { file, first, rows } => {
            let at = src_at(control.unpackers_bank(file), first);
            let places = &mut state.src_mut(file)[at..];
            for (place, number) in places.iter_mut().zip(row_numbers(rows)) {
                *place = number;
            }
        }
        Field::LoadRegister {
            thread,
            register,
            value,
        } => state.registers[register_at(thread, register)] = value,
        Field::Issue { thread, word } => {
            change_numbers(control, thread, Instruction::of(word).expect(PASSED), state);
        }
        Field::ZeroRows { first, count } => {
            let width = control.width();
            for at in first * COLUMNS..(first + count) * COLUMNS {
                width.put(&mut state.dst, at, 0);
            }
        }
        Field::Settings(_) | Field::HandOver { .. } => {}
        Field::OutputRows { .. } | Field::OutputRegister { .. } => {}
    }
}
