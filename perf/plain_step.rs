//! The single step as plain Rust would have it for C: the numbers of include/vintrazzola.h become a
//! record, each of them checked for its range, the step is done, and the numbers are written back:
//! all of them, or all but the address slots', which no instruction changes.

use crate::engine::{
    change_record, rules, Control, Owner, Refusal, Slot, State, Thread, A, B, DST_CARRY, DST_CLEAR,
    DST_COPY, DST_COUNTS, FIDELITY_CLEAR, FORMATS, FP16A, FP32, INT8, KEEP, PHASES, SLOTS,
    SRC_CARRY, SRC_CLEAR, SRC_COUNTS, SRC_ROWS, THREADS,
};
use crate::run_tuned::tuned_numbers;

/// Numbers before the threads', of a thread before its slots', of a slot, of a thread, and all.
const HEAD: usize = 16;
const OWN: usize = 10;
const SLOT: usize = 12;
const THREAD: usize = OWN + SLOTS * SLOT;
pub const NUMBERS: usize = HEAD + THREADS * THREAD;

fn byte(number: u32, end: u8) -> Option<u8> {
    (number < end.into()).then_some(number as u8)
}

fn pair(number: u32, end: u16) -> Option<u16> {
    (number < end.into()).then_some(number as u16)
}

/// A flag as this bit.
fn flag(number: u32, bit: u8) -> Option<u8> {
    Some(byte(number, 2)? * bit)
}

fn owner(number: u32) -> Option<Owner> {
    match number {
        0 => Some(Owner::Unpackers),
        1 => Some(Owner::Matrix),
        _ => None,
    }
}

fn last_row(number: u32) -> Option<u8> {
    byte(number, SRC_ROWS as u8).filter(|row| row % 16 == 0)
}

fn read_slot(n: &[u32]) -> Option<Slot> {
    Some(Slot {
        src_step: [byte(n[0], SRC_COUNTS)?, byte(n[3], SRC_COUNTS)?],
        dst_step: pair(n[6], DST_COUNTS)?,
        fidelity_step: byte(n[10], PHASES)?,
        flags: flag(n[1], SRC_CLEAR[A])?
            | flag(n[2], SRC_CARRY[A])?
            | flag(n[4], SRC_CLEAR[B])?
            | flag(n[5], SRC_CARRY[B])?
            | flag(n[7], DST_CLEAR)?
            | flag(n[8], DST_CARRY)?
            | flag(n[9], DST_COPY)?
            | flag(n[11], FIDELITY_CLEAR)?,
    })
}

fn write_slot(s: &Slot, n: &mut [u32]) {
    let flag = |bit: u8| u32::from(s.flags & bit != 0);
    n.copy_from_slice(&[
        s.src_step[A].into(),
        flag(SRC_CLEAR[A]),
        flag(SRC_CARRY[A]),
        s.src_step[B].into(),
        flag(SRC_CLEAR[B]),
        flag(SRC_CARRY[B]),
        s.dst_step.into(),
        flag(DST_CLEAR),
        flag(DST_CARRY),
        flag(DST_COPY),
        s.fidelity_step.into(),
        flag(FIDELITY_CLEAR),
    ]);
}

fn read_thread(n: &[u32]) -> Option<Thread> {
    let mut thread = Thread {
        dst: pair(n[0], DST_COUNTS)?,
        dst_cr: pair(n[1], DST_COUNTS)?,
        src: [byte(n[2], SRC_COUNTS)?, byte(n[4], SRC_COUNTS)?],
        src_cr: [byte(n[3], SRC_COUNTS)?, byte(n[5], SRC_COUNTS)?],
        phase: byte(n[6], PHASES)?,
        extra: byte(n[7], 2)?,
        offset: pair(n[8], DST_COUNTS)?,
        fidelity_base: byte(n[9], PHASES)?,
        slots: [Slot::default(); SLOTS],
    };
    for (s, slot) in thread.slots.iter_mut().enumerate() {
        *slot = read_slot(&n[OWN + s * SLOT..][..SLOT])?;
    }
    Some(thread)
}

fn write_own(t: &Thread, n: &mut [u32]) {
    n[..OWN].copy_from_slice(&[
        t.dst.into(),
        t.dst_cr.into(),
        t.src[A].into(),
        t.src_cr[A].into(),
        t.src[B].into(),
        t.src_cr[B].into(),
        t.phase.into(),
        t.extra.into(),
        t.offset.into(),
        t.fidelity_base.into(),
    ]);
}

fn write_slots(t: &Thread, n: &mut [u32]) {
    for (s, slot) in t.slots.iter().enumerate() {
        write_slot(slot, &mut n[OWN + s * SLOT..][..SLOT]);
    }
}

/// The record of the numbers, where each is in its range.
fn read(n: &[u32]) -> Option<Control> {
    if n.len() != NUMBERS {
        return None;
    }
    let mut control = Control {
        format: byte(n[0], FORMATS)?,
        flags: flag(n[1], FP32)?
            | flag(n[2], INT8)?
            | flag(n[3], FP16A)?
            | flag(n[5], KEEP[A])?
            | flag(n[6], KEEP[B])?,
        base: pair(n[4], DST_COUNTS)?,
        threads: [Thread::default(); THREADS],
        matrix: [byte(n[7], 2)?, byte(n[11], 2)?],
        unpackers: [byte(n[8], 2)?, byte(n[12], 2)?],
        owner: [
            [owner(n[9])?, owner(n[10])?],
            [owner(n[13])?, owner(n[14])?],
        ],
        last: last_row(n[15])?,
    };
    for (t, thread) in control.threads.iter_mut().enumerate() {
        *thread = read_thread(&n[HEAD + t * THREAD..][..THREAD])?;
    }
    Some(control)
}

/// A record's numbers.
pub fn write(control: &Control, n: &mut [u32]) {
    write_but_slots(control, n);
    for (t, thread) in control.threads.iter().enumerate() {
        write_slots(thread, &mut n[HEAD + t * THREAD..][..THREAD]);
    }
}

/// The same but for the address slots' numbers.
pub fn write_but_slots(control: &Control, n: &mut [u32]) {
    let flag = |bit: u8| u32::from(control.flags & bit != 0);
    let of_matrix =
        |file: usize, bank: usize| u32::from(control.owner[file][bank] == Owner::Matrix);
    n[..HEAD].copy_from_slice(&[
        control.format.into(),
        flag(FP32),
        flag(INT8),
        flag(FP16A),
        control.base.into(),
        flag(KEEP[A]),
        flag(KEEP[B]),
        control.matrix[A].into(),
        control.unpackers[A].into(),
        of_matrix(A, 0),
        of_matrix(A, 1),
        control.matrix[B].into(),
        control.unpackers[B].into(),
        of_matrix(B, 0),
        of_matrix(B, 1),
        control.last.into(),
    ]);
    for (t, thread) in control.threads.iter().enumerate() {
        write_own(thread, &mut n[HEAD + t * THREAD..][..THREAD]);
    }
}

/// How the record after a step is written back.
pub type Write = fn(&Control, &mut [u32]);

/// Nothing when done, else what it is refused with.
pub fn step(
    record: &mut [u32],
    thread: usize,
    word: u32,
    state: &mut State,
    write: Write,
) -> Option<Refusal> {
    if !state.fits() {
        return Some(Refusal::LentLength);
    }
    let Some(mut control) = read(record).filter(|_| thread < THREADS) else {
        return Some(Refusal::Shape);
    };
    match rules(&control, thread, word) {
        Err(refusal) => Some(refusal),
        Ok(it) => {
            tuned_numbers(&control, thread, it, state);
            change_record(&mut control, thread, it);
            write(&control, record);
            None
        }
    }
}
