//! Refused jobs by what they were refused for.

use super::kept::{self, Kept};
use super::left::Trail;
use super::skipped::Skipped;
use super::table::{Group, Table, Test};
use super::{bits, dst_rows, mode};
use crate::engine::{
    all_set, follow, named, ranged, raw_at, read, settings, shape, width_of, Class, Control, Field,
    Instruction, Marks, Placed, Refusal, Tag, Width, A, B, BF16, BLOCK, DST_ROWS, FIELD_ROWS,
    FILES, FP16A, FP32, INT8, JOB_BYTES, LOAD_HEAD, REGISTER_A, ROW_BYTES, TF32,
};
use crate::explain::{reason, Reason};

named! {
    /// The first read that met something unset.
    pub enum Unset {
        MultiplyA = "multiply SrcA",
        MultiplyB = "multiply SrcB",
        MultiplyDst = "multiply Dst",
        ShiftXa = "SHIFTXA",
        ShiftXb = "SHIFTXB",
        ScalarA = "scalar A",
        ScalarB = "scalar B",
        OutputRows = "output rows",
        OutputRegister = "output register",
    }
}

pub fn size_row() -> String {
    format!("{} refused", JOB_BYTES + 1)
}

pub fn count(table: &mut Table, bytes: &[u8], refusal: Refusal, place: usize) {
    table.hit(Group::Jobs, "refused");
    table.hit(Group::RefusalNumber, refusal.number());
    let fields = shape(bytes).0;
    if let Some((_, Field::Settings(payload))) = fields.first() {
        let control = settings(payload);
        table.hit(Group::RefusedSettings, mode(&control).text());
        kept::count_switches(table, Group::RefusedSwitches, &control);
    }
    if refusal == Refusal::Shape {
        return count_shape(table, bytes, place, &fields);
    }
    let (mut control, mut marks) = (Control::start(), Marks::start());
    let (mut trail, mut skipped) = (Trail::default(), Skipped::default());
    let mut kept = Kept::start();
    for placed @ (at, field) in &fields {
        if *at == place {
            match refusal {
                Refusal::UnknownOpcode | Refusal::UnnamedBit { .. } => {
                    bits::count(table, &control, &marks, &fields, placed);
                }
                Refusal::OtherOwner | Refusal::DstRow => skipped.count(table, &control, field),
                Refusal::Unset => trail.count(table, &control, &marks, field, false),
                _ => {}
            }
            if [Refusal::OtherOwner, Refusal::Unset].contains(&refusal) {
                kept.count_refused(table, &control, &marks, field, refusal);
            }
            return count_field(table, &control, &marks, field, refusal);
        }
        trail.follow(&control, field);
        skipped.follow(&control, field);
        kept.follow(&control, field);
        follow(&mut control, &mut marks, field);
    }
    unreachable!("a refusal names a field");
}

fn count_shape(table: &mut Table, bytes: &[u8], place: usize, fields: &[Placed]) {
    let why = reason(bytes, place);
    table.hit(Group::WrongShape, why.text());
    table.hit_if(bytes.len() == JOB_BYTES + 1, Group::Size, size_row());
    let Some((tag, payload)) = raw_at(bytes, place) else {
        return;
    };
    if why == Reason::WrongLength && tag == Tag::LoadRows.byte() {
        table.hit_tests(Group::LoadRows, load_tests(payload.len()));
    }
    if why == Reason::WrongValue {
        count_value(table, tag, payload, fields);
    }
}

/// A load's length with a row too few or too many.
pub fn load_tests(length: usize) -> [Test; 2] {
    let rows = |rows: usize| length == LOAD_HEAD + ROW_BYTES * rows;
    [
        ("0, refused", rows(0)),
        ("65, refused", rows(FIELD_ROWS + 1)),
    ]
}

/// A value out of range: which, and would it be right under the other width?
fn count_value(table: &mut Table, tag: u8, payload: &[u8], fields: &[Placed]) {
    let width = width_of(fields);
    let other = Width::ALL[1 - width as usize];
    if let Some((_, Field::Settings(first))) = fields.first() {
        let right = read(tag, payload).filter(|field| field.fits(other));
        match (width, right) {
            (Width::Bits32, Some(field)) => {
                let mode = mode(&settings(first)).text();
                let row = format!("{mode}, {}", field.tag().text());
                table.hit(Group::RightWith16, row);
            }
            (Width::Bits16, Some(field)) => table.hit(Group::RightWith32, field.tag().text()),
            _ => {}
        }
    }
    if let Some(Field::Settings(payload)) = read(tag, payload) {
        table.hit_tests(Group::HighFlags, kept::high_flags(payload[1]));
    }
    for range in ranged(width, tag, payload) {
        let (name, value) = (&range.what.under(width), range.value);
        table.hit_if(value == range.high + 1, Group::PastHigh, name);
        let past_low = range.low.checked_sub(1) == Some(value);
        table.hit_if(past_low, Group::PastLow, name);
    }
}

fn count_field(
    table: &mut Table,
    control: &Control,
    marks: &Marks,
    field: &Field,
    refusal: Refusal,
) {
    let it = match field {
        Field::Issue { word, .. } => Instruction::of(*word),
        _ => None,
    };
    let known = || it.expect("a known opcode");
    match refusal {
        Refusal::UndefinedMode => count_mode(table, known()),
        Refusal::Unmodelled => {
            table.hit(Group::Unmodelled, known().entry.name);
            table.hit_tests(Group::Unmodelled, unmodelled(control));
        }
        Refusal::OtherOwner => match field {
            Field::LoadRows { file, .. } | Field::HandOver { file } => {
                table.hit(Group::OtherOwner, owner_row(field.tag(), *file));
            }
            _ => table.hit(Group::OtherOwner, known().entry.name),
        },
        Refusal::DstRow => table.hit(Group::DstRow, known().entry.name),
        Refusal::Unset => count_unset(table, control, marks, field),
        Refusal::Shape | Refusal::UnknownOpcode | Refusal::UnnamedBit { .. } => {}
        Refusal::LentLength => {}
    }
}

pub fn owner_row(tag: Tag, file: usize) -> String {
    format!("{} {}", tag.text(), FILES[file])
}

/// Rows for a mode of a name: where there are many, one for each of its bits.
pub fn mode_rows(name: &str, bits: u32, mode: u32) -> Vec<String> {
    if bits <= 3 {
        return vec![format!("{name} {mode}")];
    }
    let bits = (0..bits).filter(|bit| (mode >> bit) & 1 == 1);
    bits.map(|bit| format!("{name} bit {bit}")).collect()
}

fn count_mode(table: &mut Table, it: Instruction) {
    let bits = it.entry.mode.expect("an entry with modes");
    for row in mode_rows(it.entry.name, bits.count(), it.mode()) {
        table.hit(Group::UndefinedMode, row);
    }
}

pub fn unmodelled(control: &Control) -> [Test; 7] {
    let (format, flags) = control.kind();
    let known = format == BF16 || format == TF32;
    [
        ("Fp32, other format", flags == FP32),
        ("Fp32, INT8 too", known && flags == FP32 | INT8),
        ("Fp32, FP16A too", known && flags == FP32 | FP16A),
        ("no Fp32, TF32", format == TF32 && flags == 0),
        ("no Fp32, other format", !known && flags == 0),
        ("no Fp32, BF16 with INT8", format == BF16 && flags == INT8),
        ("no Fp32, BF16 with FP16A", format == BF16 && flags == FP16A),
    ]
}

fn first_unset(control: &Control, marks: &Marks, field: &Field) -> Unset {
    let (thread, word) = match *field {
        Field::OutputRows { .. } => return Unset::OutputRows,
        Field::Issue { thread, word } => (thread, word),
        _ => return Unset::OutputRegister,
    };
    let it = Instruction::of(word).expect("a word that breaks only rule 8");
    let src = |file: usize, first: usize, count: usize| {
        all_set(&marks.src[file][control.matrix_bank(file)][first..][..count])
    };
    match it.entry.class {
        Class::Multiply { .. } if !src(A, control.a_row(thread), BLOCK) => Unset::MultiplyA,
        Class::Multiply { rows, .. } if !src(B, control.b_row(thread), rows) => Unset::MultiplyB,
        Class::Multiply { .. } => Unset::MultiplyDst,
        Class::ShiftXa => Unset::ShiftXa,
        Class::ShiftXb => Unset::ShiftXb,
        _ if !marks.registers[thread][it.get(REGISTER_A) as usize] => Unset::ScalarA,
        _ => Unset::ScalarB,
    }
}

fn count_unset(table: &mut Table, control: &Control, marks: &Marks, field: &Field) {
    let why = first_unset(control, marks, field);
    table.hit(Group::Unset, why.text());
    if control.width() == Width::Bits32 || ![Unset::OutputRows, Unset::MultiplyDst].contains(&why) {
        return;
    }
    if let Some((name, mut rows)) = dst_rows(control, field) {
        // Where marks were kept for lent rows, this would pass.
        let hidden = rows.all(|row| marks.dst[row] || marks.dst[row ^ DST_ROWS]);
        table.hit_if(hidden, Group::UnsetHalf, name);
    }
}
