//! Instructions of passing jobs.

use super::multiplies;
use super::table::{Group, Table, Test};
use crate::engine::{
    change_numbers, operands, register_at, Class, Control, Instruction, Owner, Scalar, Slot, State,
    Thread, A, B, BOTH_BANKS, CLEAR, CONSTANT, COUNTERS, COUNTER_D, D, DST_CARRY, DST_CLEAR,
    DST_COPY, DST_COUNTS, FIDELITY_CLEAR, FILES, PHASES, RESULT, ROW, SLOT_FLAGS, SRC, SRC_CARRY,
    SRC_CLEAR, SRC_COUNTS, SRC_ROWS, VALUE, WHICH, WRITE_MODE, ZEROED, ZERO_FILL,
};

/// An instruction, and what it meets.
#[derive(Clone, Copy)]
pub struct Issued<'a> {
    pub control: &'a Control,
    pub thread: usize,
    pub it: Instruction,
    pub state: &'a State,
}

impl Issued<'_> {
    pub fn thread(&self) -> &Thread {
        &self.control.threads[self.thread]
    }

    /// The lent numbers after it.
    pub fn after(&self) -> State {
        let mut after = self.state.clone();
        change_numbers(self.control, self.thread, self.it, &mut after);
        after
    }
}

pub fn count(table: &mut Table, issued: Issued) {
    let (it, t) = (issued.it, issued.thread());
    let name = it.entry.name;
    table.hit(Group::IssueThread, issued.thread);
    table.hit(Group::PassingOpcode, name);
    if it.entry.mode.is_some() {
        table.hit(Group::PassingMode, format!("{name} {}", it.mode()));
    }
    if let Some(number) = it.slot() {
        let slot = t.slot(number);
        table.hit(Group::SlotUsed, slot);
        table.hit_tests(Group::SlotFlag, slot_flags(&t.slots[slot]));
        table.hit_tests(Group::SlotWraps, slot_wraps(t, &t.slots[slot]));
    }
    for file in SRC.into_iter().filter(|&file| it.clears(file)) {
        let early = !issued.control.matrix_has(file);
        table.hit_if(early, Group::ClearedEarly, FILES[file]);
    }
    count_class(table, issued);
}

fn count_class(table: &mut Table, issued: Issued) {
    let (it, t) = (issued.it, issued.thread());
    match it.entry.class {
        Class::Multiply { .. } => multiplies::count(table, issued),
        Class::Legacy => table.hit(Group::LegacyClear, it.get(CLEAR)),
        Class::SetRwc => {
            table.hit(Group::SetrwcClear, it.get(CLEAR));
            table.hit(Group::SetrwcWhich, it.get(WHICH));
        }
        Class::IncRwc => table.hit_tests(Group::IncrwcWraps, counter_wraps(t, it)),
        Class::ZeroSrc => {
            let files = it.get(ZEROED[A]) + 2 * it.get(ZEROED[B]);
            table.hit(Group::ZerosrcFiles, files);
            table.hit_tests(Group::Zerosrc, zerosrc(issued.control, it));
        }
        Class::ShiftXa => table.hit(Group::ShiftxaLast, issued.control.last),
        Class::ShiftXb => table.hit_tests(Group::Shiftxb, shiftxb(t, it)),
        Class::Scalar(scalar) => {
            let (_, b) = operands(issued.thread, it, issued.state);
            table.hit_tests(Group::ScalarB, scalar_b(scalar, it, b));
            if scalar == Scalar::Compare {
                let result = register_at(issued.thread, it.get(RESULT) as usize);
                table.hit(Group::ScalarCompare, issued.after().registers[result]);
            }
        }
        Class::Nothing => {}
    }
}

pub fn slot_flags(slot: &Slot) -> Vec<Test> {
    let flags = slot.flags;
    let each = SLOT_FLAGS
        .iter()
        .map(|&(flag, name)| (name, flags & flag != 0));
    let clear_over_copy = flags & DST_CLEAR != 0 && flags & DST_COPY != 0;
    let copy_over_carry = flags & DST_COPY != 0 && flags & DST_CARRY != 0;
    let more = [
        ("none", flags == 0),
        ("Dst clear over copy", clear_over_copy),
        (
            "Dst copy over carry",
            copy_over_carry && flags & DST_CLEAR == 0,
        ),
    ];
    each.chain(more).collect()
}

/// Steps that are added plainly, and wrap.
pub fn slot_wraps(t: &Thread, slot: &Slot) -> [Test; 4] {
    let src = |file: usize| {
        let plain = slot.flags & (SRC_CLEAR[file] | SRC_CARRY[file]) == 0;
        (
            FILES[file],
            plain && t.src[file] + slot.src_step[file] >= SRC_COUNTS,
        )
    };
    let plain = slot.flags & (DST_CLEAR | DST_CARRY | DST_COPY) == 0;
    let dst = plain && t.dst + slot.dst_step >= DST_COUNTS;
    let phase = slot.flags & FIDELITY_CLEAR == 0 && t.phase + slot.fidelity_step >= PHASES;
    [src(A), src(B), (FILES[D], dst), ("phase", phase)]
}

pub fn counter_wraps(t: &Thread, it: Instruction) -> [Test; 3] {
    let src = |file: usize| t.src[file] + it.get(COUNTERS[file]) as u8 >= SRC_COUNTS;
    let [a, b] = SRC.map(|file| (FILES[file], src(file)));
    let dst = t.dst + it.get(COUNTER_D) as u16 >= DST_COUNTS;
    [a, b, (FILES[D], dst)]
}

pub fn zerosrc(control: &Control, it: Instruction) -> [Test; 6] {
    let both = it.on(BOTH_BANKS);
    let (mode, value) = (it.on(WRITE_MODE), it.get(VALUE));
    let a = it.on(ZEROED[A]);
    let high = mode && value != 0;
    let banks = [(A, 0), (A, 1), (B, 0), (B, 1)];
    let of_matrix = banks.iter().any(|&(file, bank)| {
        it.fills(control, file, bank) && control.owner[file][bank] == Owner::Matrix
    });
    [
        ("one bank", !both),
        ("both banks", both),
        ("fill 0", a && !high),
        ("fill 0x7FFFF", a && high),
        ("write mode 1, value 0", mode && value == 0),
        ("fills the matrix unit's bank", of_matrix),
    ]
}

pub fn shiftxb(t: &Thread, it: Instruction) -> [Test; 3] {
    let fill = it.on(ZERO_FILL);
    let row = it.get(ROW) as usize + usize::from(t.src[B]);
    [
        ("rotate", !fill),
        ("zero fill", fill),
        ("row wraps", row >= SRC_ROWS),
    ]
}

pub fn scalar_b(scalar: Scalar, it: Instruction, b: u32) -> [Test; 3] {
    let constant = it.on(CONSTANT);
    [
        ("constant", constant),
        ("register", !constant),
        ("shift by 32 or more", scalar == Scalar::Shift && b >= 32),
    ]
}
