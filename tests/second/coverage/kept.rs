//! Banks that a switch keeps through a clear: what comes back to them, and what a switch alone lets
//! pass or refuses.

use std::ops::Range;

use super::table::{Group, Table, Test};
use super::{mode, Mode, MULTIPLY};
use crate::engine::{
    all_set, follow, judge, Class, Control, Entry, Field, Instruction, Marks, Owner, Refusal, A, B,
    BANKS, BLOCK, D, FILES, FLAGS, KEEP, KIND_FLAGS, SRC,
};

/// By bit 0 for SrcA and bit 1 for SrcB.
const SWITCHES: [&str; 4] = [
    "no switch",
    "SrcA's switch",
    "SrcB's switch",
    "both switches",
];

fn switches_row(mode: Mode, switches: usize) -> String {
    format!("{}, {}", mode.text(), SWITCHES[switches])
}

/// Each mode with each choice of switches.
pub fn switches_rows() -> Vec<String> {
    let all = |&mode: &Mode| (0..SWITCHES.len()).map(move |n| switches_row(mode, n));
    Mode::ALL.iter().flat_map(all).collect()
}

pub fn count_switches(table: &mut Table, group: Group, control: &Control) {
    let [a, b] = SRC.map(|file| usize::from(control.keeps(file)));
    table.hit(group, switches_row(mode(control), a + 2 * b));
}

/// A settings' flags by the bits that are no flags.
pub fn high_flags(flags: u8) -> [Test; 5] {
    let high = flags & !FLAGS;
    [
        ("bit 5 alone", high == 32),
        ("bit 6 alone", high == 64),
        ("bit 7 alone", high == 128),
        ("more than one", high.count_ones() > 1),
        (
            "beside a switch",
            high != 0 && flags & (KEEP[A] | KEEP[B]) != 0,
        ),
    ]
}

/// What is done to a file's bank, by its name.
pub fn of_file(name: &str, file: usize) -> String {
    format!("{name} {}", FILES[file])
}

/// A multiply in a kept bank of a file.
pub fn under_row(mode: Mode, file: usize) -> String {
    of_file(&format!("{MULTIPLY} under {},", mode.text()), file)
}

/// Instructions that clear, by their kind.
pub fn clearing(entry: &'static Entry) -> &'static str {
    match entry.class {
        Class::Multiply { .. } => MULTIPLY,
        Class::Legacy => "legacy instruction",
        _ => entry.name,
    }
}

pub const OF_UNPACKERS: &str = "the unpackers'";

/// A clear of both files.
pub fn both_cleared(control: &Control) -> [Test; 3] {
    let [a, b] = SRC.map(|file| control.keeps(file));
    [
        ("both cleared, SrcA's kept alone", a && !b),
        ("both cleared, SrcB's kept alone", b && !a),
        ("both cleared, both kept", a && b),
    ]
}

/// An instruction that another answer would meet with the switches off.
pub fn otherwise_row(name: &str, number: u8) -> String {
    format!("{name} ({number})")
}

/// Behind a kept bank: the matrix bank is not, or its rows are not, what the kept one has.
pub fn behind_row(number: u8, file: usize) -> String {
    of_file(if number == 6 { OF_UNPACKERS } else { "unset" }, file)
}

/// The rows of a file that an instruction reads; a legacy one reads none.
fn reads(control: &Control, thread: usize, it: Instruction, file: usize) -> Range<usize> {
    let (first, count) = match (it.entry.class, file) {
        (Class::Multiply { .. }, A) => (control.a_row(thread), BLOCK),
        (Class::Multiply { rows, .. }, B) => (control.b_row(thread), rows),
        (Class::ShiftXa, A) => (control.last.into(), BLOCK),
        (Class::ShiftXb, B) => (it.shifted_row(control, thread), 1),
        _ => (0, 0),
    };
    first..first + count
}

/// What switches have kept as far as a job has been walked.
pub struct Kept {
    /// By file, then bank.
    banks: [[bool; BANKS]; 2],
    /// Record and marks with the switches off, up to the first field that they answer otherwise.
    off: Option<(Control, Marks)>,
}

impl Kept {
    pub fn start() -> Kept {
        Kept {
            banks: [[false; BANKS]; 2],
            off: Some((Control::start(), Marks::start())),
        }
    }

    /// Goes on past a field, under the record as the fields before it left it.
    pub fn follow(&mut self, control: &Control, field: &Field) {
        if let Field::Issue { word, .. } = *field {
            let it = Instruction::of(word).expect("a word that breaks no rule");
            for file in SRC {
                let kept = it.clears(file) && control.keeps(file);
                self.banks[file][control.matrix_bank(file)] |= kept;
            }
        }
        if self.told_off(field).is_some() {
            self.off = None;
        }
        if let Some((control, marks)) = &mut self.off {
            follow(control, marks, field);
            control.flags &= KIND_FLAGS;
        }
    }

    /// What a field is refused with where the switches are off.
    fn told_off(&self, field: &Field) -> Option<Refusal> {
        let (control, marks) = self.off.as_ref()?;
        judge(control, marks, field)
    }

    /// Counts a field of a passing job.
    pub fn count(&self, table: &mut Table, control: &Control, field: &Field) {
        match *field {
            Field::LoadRows { file, .. } | Field::HandOver { file } if file != D => {
                let kept = self.banks[file][control.unpackers_bank(file)];
                let row = of_file(field.tag().text(), file);
                table.hit_if(kept, Group::InKept, row);
            }
            Field::Issue { word, .. } => {
                let it = Instruction::of(word).expect("a word of a passing job");
                self.count_issue(table, control, it);
                if let Some(refusal) = self.told_off(field) {
                    let row = otherwise_row(it.entry.name, refusal.number());
                    table.hit(Group::DoneBySwitch, row);
                }
            }
            _ => {}
        }
    }

    fn count_issue(&self, table: &mut Table, control: &Control, it: Instruction) {
        let entry = it.entry;
        for file in SRC {
            if it.clears(file) && control.keeps(file) {
                table.hit(Group::ClearKept, of_file(clearing(entry), file));
                let early = !control.matrix_has(file);
                table.hit_if(early, Group::ClearKept, of_file(OF_UNPACKERS, file));
            }
            let needed = entry.class.needs(file) && self.banks[file][control.matrix_bank(file)];
            let zeroed = entry.class == Class::ZeroSrc
                && (0..BANKS).any(|bank| it.fills(control, file, bank) && self.banks[file][bank]);
            table.hit_if(needed || zeroed, Group::InKept, of_file(entry.name, file));
            let multiplied = needed && entry.class.is_multiply();
            table.hit_if(multiplied, Group::InKept, under_row(mode(control), file));
        }
        if SRC.into_iter().all(|file| it.clears(file)) {
            table.hit_tests(Group::ClearKept, both_cleared(control));
        }
    }

    /// Counts a field that is refused with 6 or 8.
    pub fn count_refused(
        &self,
        table: &mut Table,
        control: &Control,
        marks: &Marks,
        field: &Field,
        refusal: Refusal,
    ) {
        match *field {
            Field::LoadRows { file, .. } | Field::HandOver { file } => {
                let by_switch = self.off.is_some() && self.told_off(field).is_none();
                let row = of_file(field.tag().text(), file);
                table.hit_if(by_switch, Group::RefusedBySwitch, row);
            }
            Field::Issue { thread, word } => {
                let it = Instruction::of(word).expect("a known opcode");
                for file in SRC.into_iter().filter(|&file| it.entry.class.needs(file)) {
                    let here = control.matrix_bank(file);
                    let rows = reads(control, thread, it, file);
                    let [here, there] = [here, 1 - here].map(|bank| {
                        let owned = control.owner[file][bank] == Owner::Matrix;
                        let set = all_set(&marks.src[file][bank][rows.clone()]);
                        (owned, set, self.banks[file][bank])
                    });
                    let lacking = match refusal {
                        Refusal::OtherOwner => !here.0,
                        _ => !here.1,
                    };
                    let behind = lacking && there == (true, true, true);
                    let row = behind_row(refusal.number(), file);
                    table.hit_if(behind, Group::BehindKept, row);
                }
            }
            _ => {}
        }
    }
}
