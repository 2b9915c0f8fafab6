//! SHIFTXAs from the row that a legacy instruction left behind.

use super::table::{Group, Table, Test};
use crate::engine::{
    all_set, change_record, Class, Control, Field, Instruction, Marks, A, B, BLOCK, SRC, SRC_CARRY,
    SRC_CLEAR,
};

/// Refused and passing ones.
pub const GROUPS: [Group; 2] = [Group::UnsetAfterLegacy, Group::ShiftAfterLegacy];

/// The legacy instruction that set the last SrcA row.
#[derive(Default)]
pub struct Left {
    name: &'static str,
    thread: usize,
    /// Its slot's flags, and whether the slot moved SrcA's counter to another row.
    flags: u8,
    moved: bool,
    cleared: [bool; 2],
    /// How many fields stand after it, and the instructions among them that leave the row as it is
    /// though their own thread is at another one.
    fields: usize,
    between: Vec<&'static str>,
}

impl Left {
    fn new(control: &Control, thread: usize, it: Instruction) -> Left {
        let mut after = control.clone();
        change_record(&mut after, thread, it);
        let t = &control.threads[thread];
        let slot = it.slot().expect("a legacy instruction has a slot");
        Left {
            name: it.entry.name,
            thread,
            flags: t.slots[t.slot(slot)].flags,
            moved: after.a_row(thread) != control.a_row(thread),
            cleared: SRC.map(|file| it.clears(file)),
            ..Left::default()
        }
    }
}

/// Who set the last SrcA row, as far as a job has been walked.
#[derive(Default)]
pub struct Trail {
    /// Nothing where it was no legacy instruction.
    left: Option<Left>,
    /// The row of the last multiply, 0 before the first one.
    multiplied: usize,
}

/// A SHIFTXA on a thread after such an instruction; whether the last multiply's row is another one,
/// and whether the answer would be another one from there.
pub fn tests(left: &Left, thread: usize, other_row: bool, other_answer: bool) -> [Test; 9] {
    let clears = left.flags & SRC_CLEAR[A] != 0;
    let carries = left.flags & SRC_CARRY[A] != 0;
    [
        ("right after it", left.fields == 0),
        ("on another thread", thread != left.thread),
        ("its slot steps away", left.moved && !clears && !carries),
        ("its slot carries away", left.moved && !clears && carries),
        ("its slot clears", left.moved && clears),
        ("it clears SrcA's bank", left.cleared[A]),
        ("it clears SrcB's bank", left.cleared[B]),
        ("not the last multiply's row", other_row),
        ("answered otherwise from there", other_answer),
    ]
}

pub fn first_row(row: usize) -> String {
    format!("from row {row}")
}

impl Trail {
    /// Goes on past a field, under the record as the fields before it left it.
    pub fn follow(&mut self, control: &Control, field: &Field) {
        if let Some(left) = &mut self.left {
            left.fields += 1;
        }
        let Field::Issue { thread, word } = *field else {
            return;
        };
        let it = Instruction::of(word).expect("a word that breaks no rule");
        match (it.entry.class, &mut self.left) {
            (Class::Multiply { .. }, left) => {
                *left = None;
                self.multiplied = control.a_row(thread);
            }
            (Class::Legacy, left) => *left = Some(Left::new(control, thread, it)),
            (_, Some(left)) if control.a_row(thread) != control.last.into() => {
                left.between.push(it.entry.name);
            }
            _ => {}
        }
    }

    /// Counts a SHIFTXA after a legacy instruction, one that passes or one that reads unset rows.
    pub fn count(
        &self,
        table: &mut Table,
        control: &Control,
        marks: &Marks,
        field: &Field,
        passes: bool,
    ) {
        let (Some(left), Field::Issue { thread, word }) = (&self.left, *field) else {
            return;
        };
        if Instruction::of(word).is_none_or(|it| it.entry.class != Class::ShiftXa) {
            return;
        }
        let group = GROUPS[usize::from(passes)];
        let last = usize::from(control.last);
        let rows = &marks.src[A][control.matrix_bank(A)][self.multiplied..][..BLOCK];
        let (other_row, other_answer) = (self.multiplied != last, all_set(rows) != passes);
        table.hit(group, first_row(last));
        table.hit(group, left.name);
        table.hit_tests(group, tests(left, thread, other_row, other_answer));
        for name in left.between.iter().filter(|_| passes) {
            table.hit(Group::BetweenLegacy, name);
        }
    }
}
