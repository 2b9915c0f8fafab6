//! What an instruction does to the record.

use super::{
    Class, Control, Instruction, Owner, Slot, Thread, COUNTERS, COUNTER_D, DST_CARRY, DST_CLEAR,
    DST_COPY, DST_COUNTS, FIDELITY_CLEAR, PHASES, SRC, SRC_CARRY, SRC_CLEAR, SRC_COUNTS, WHICH,
};

/// SETRWC's bits for Dst and the phase; those for SrcA and SrcB are 0 and 1.
pub const WHICH_DST: u32 = 4;
const WHICH_PHASE: u32 = 8;

#[inline]
pub fn change_record(control: &mut Control, thread: usize, it: Instruction) {
    match it.entry.class {
        Class::Multiply { .. } | Class::Legacy => {
            // First, as the slot moves the counter that names the row.
            control.last = control.a_row(thread) as u8;
            clear(control, it);
            use_slot(control, thread, it);
        }
        Class::SetRwc => {
            clear(control, it);
            set_counters(&mut control.threads[thread], it);
        }
        Class::IncRwc => add_to_counters(&mut control.threads[thread], it),
        Class::ShiftXb => use_slot(control, thread, it),
        Class::ZeroSrc | Class::ShiftXa | Class::Nothing | Class::Scalar(_) => {}
    }
}

fn clear(control: &mut Control, it: Instruction) {
    for file in SRC {
        if it.clears(file) {
            if !control.keeps(file) {
                let bank = control.matrix_bank(file);
                control.owner[file][bank] = Owner::Unpackers;
            }
            control.matrix[file] = 1 - control.matrix[file];
        }
    }
}

fn use_slot(control: &mut Control, thread: usize, it: Instruction) {
    let t = &mut control.threads[thread];
    let number = it.slot().expect("an instruction with a slot");
    apply_slot(t, t.slots[t.slot(number)]);
}

fn apply_slot(thread: &mut Thread, slot: Slot) {
    for file in SRC {
        let (counter, carry) = (&mut thread.src[file], &mut thread.src_cr[file]);
        let step = slot.src_step[file];
        if slot.flags & SRC_CLEAR[file] != 0 {
            (*counter, *carry) = (0, 0);
        } else if slot.flags & SRC_CARRY[file] != 0 {
            *carry = (*carry + step) % SRC_COUNTS;
            *counter = *carry;
        } else {
            *counter = (*counter + step) % SRC_COUNTS;
        }
    }
    if slot.flags & DST_CLEAR != 0 {
        (thread.dst, thread.dst_cr) = (0, 0);
    } else if slot.flags & DST_COPY != 0 {
        thread.dst = (thread.dst + slot.dst_step) % DST_COUNTS;
        thread.dst_cr = thread.dst;
    } else if slot.flags & DST_CARRY != 0 {
        thread.dst_cr = (thread.dst_cr + slot.dst_step) % DST_COUNTS;
        thread.dst = thread.dst_cr;
    } else {
        thread.dst = (thread.dst + slot.dst_step) % DST_COUNTS;
    }
    if slot.flags & FIDELITY_CLEAR != 0 {
        thread.phase = 0;
    } else {
        thread.phase = (thread.phase + slot.fidelity_step) % PHASES;
    }
}

fn set_counters(thread: &mut Thread, it: Instruction) {
    let which = it.get(WHICH);
    for file in SRC {
        if (which >> file) & 1 == 1 {
            let value = it.get(COUNTERS[file]) as u8;
            (thread.src[file], thread.src_cr[file]) = (value, value);
        }
    }
    if which & WHICH_DST != 0 {
        let value = it.get(COUNTER_D) as u16;
        (thread.dst, thread.dst_cr) = (value, value);
    }
    if which & WHICH_PHASE != 0 {
        thread.phase = 0;
    }
}

fn add_to_counters(thread: &mut Thread, it: Instruction) {
    for file in SRC {
        let counter = &mut thread.src[file];
        *counter = (*counter + it.get(COUNTERS[file]) as u8) % SRC_COUNTS;
    }
    thread.dst = (thread.dst + it.get(COUNTER_D) as u16) % DST_COUNTS;
}
