//! Fields of passing jobs.

use super::issues::{self, Issued};
use super::kept::{self, Kept};
use super::left::Trail;
use super::skipped::Skipped;
use super::table::{Group, Table, Test};
use super::{dst_rows, mode, Mode, MULTIPLY};
use crate::engine::{
    act, follow, named, ranged, raw_at, row_numbers, settings, shape, width_of, Control, Field,
    Instruction, Marks, State, Width, D, DST_ROWS, FIELD_ROWS, FILES, JOB_BYTES, ROW_BYTES,
};

named! {
    /// The 16-bit rows that a field names.
    pub enum Place {
        Low = "below row 512",
        High = "from row 512 on",
        Both = "across both",
    }
}

pub fn size_row() -> String {
    format!("{JOB_BYTES} passing")
}

pub fn count(table: &mut Table, bytes: &[u8]) {
    table.hit(Group::Jobs, "passing");
    table.hit_if(bytes.len() == JOB_BYTES, Group::Size, size_row());
    let (mut control, mut marks) = (Control::start(), Marks::start());
    let (mut trail, mut skipped) = (Trail::default(), Skipped::default());
    let mut kept = Kept::start();
    let mut state = State::zero();
    let fields = shape(bytes).0;
    let width = width_of(&fields);
    for (place, field) in fields {
        table.hit(Group::PassingField, field.tag().text());
        let (tag, payload) = raw_at(bytes, place).expect("a field of right shape");
        for range in ranged(width, tag, payload) {
            let (name, value) = (&range.what.under(width), range.value);
            table.hit_if(value == range.low, Group::RangeLow, name);
            table.hit_if(value == range.high, Group::RangeHigh, name);
        }
        if width == Width::Bits16 {
            count_halves(table, &control, &marks, &field);
        }
        count_field(table, &control, &field, &state);
        trail.count(table, &control, &marks, &field, true);
        trail.follow(&control, &field);
        skipped.count(table, &control, &field);
        skipped.follow(&control, &field);
        kept.count(table, &control, &field);
        kept.follow(&control, &field);
        act(&control, &field, &mut state);
        follow(&mut control, &mut marks, &field);
    }
}

/// Fields with 16-bit rows, by the halves that they meet.
fn count_halves(table: &mut Table, control: &Control, marks: &Marks, field: &Field) {
    let Some((name, mut rows)) = dst_rows(control, field) else {
        return;
    };
    if name != MULTIPLY {
        let place = match (rows.start / DST_ROWS, (rows.end - 1) / DST_ROWS) {
            (0, 0) => Place::Low,
            (0, _) => Place::Both,
            _ => Place::High,
        };
        table.hit(Group::HalfRows, format!("{name} {}", place.text()));
    }
    let beside = rows.any(|row| marks.dst[row ^ DST_ROWS]);
    let writes = beside && !matches!(field, Field::OutputRows { .. });
    table.hit_if(writes, Group::WrittenHalf, name);
}

/// A load's rows, least and most.
pub fn load_tests(rows: usize) -> [Test; 2] {
    [
        ("1, passing", rows == 1),
        ("64, passing", rows == FIELD_ROWS),
    ]
}

/// A settings' mode in which nothing is modelled: Dst is as in the 32-bit mode.
pub fn neither_tests(field: &Field) -> [Test; 2] {
    let wide = match field {
        Field::LoadRows { file: D, rows, .. } => {
            row_numbers(rows).any(|number| number > Width::Bits16.top())
        }
        _ => false,
    };
    let last = match field {
        Field::OutputRows { first, count } => first + count == DST_ROWS,
        _ => false,
    };
    [("Dst value from 2^16 on", wide), ("row 511 put out", last)]
}

fn count_field(table: &mut Table, control: &Control, field: &Field, state: &State) {
    if mode(control) == Mode::Neither {
        table.hit_tests(Group::NeitherMode, neither_tests(field));
    }
    match field {
        Field::Settings(payload) => {
            let control = settings(payload);
            table.hit(Group::PassingSettings, mode(&control).text());
            kept::count_switches(table, Group::PassingSwitches, &control);
        }
        Field::LoadRows { file, rows, .. } => {
            table.hit_tests(Group::LoadRows, load_tests(rows.len() / ROW_BYTES));
            if *file != D {
                let bank = control.unpackers_bank(*file);
                table.hit(Group::LoadBank, format!("{} {bank}", FILES[*file]));
            }
        }
        Field::Issue { thread, word } => {
            let it = Instruction::of(*word).expect("a word of a passing job");
            let issued = Issued {
                control,
                thread: *thread,
                it,
                state,
            };
            issues::count(table, issued);
        }
        _ => {}
    }
}
