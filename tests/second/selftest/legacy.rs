//! The row that legacy instructions leave for SHIFTXA: order 3.

use super::steps::{matrix_record, places};
use super::{prints, same, Case, Verdict};
use crate::engine::{
    step, Class, Control, Entry, Name, Owner, Refusal, State, A, BLOCK, CONV3S1, GAPOOL, MVMUL,
    SHIFTXA, SRC, SRC_CARRY, SRC_CLEAR, SRC_COUNTS, SRC_ROWS, TABLE, THREADS,
};
use crate::worked::{
    shift_after_clear, shift_after_conv, shift_after_other_thread, shift_after_others, Written,
};

pub const CASES: &[Case] = &[
    ("CONV3S1 at 16 leaves row 16", || {
        same(leaves(&CONV3S1, 16), (None, 16))
    }),
    ("then SHIFTXA moves rows 16 to 31", shifts_from_16),
    (
        "each legacy instruction leaves its row",
        each_leaves_its_row,
    ),
    ("at 63 they leave row 48", || {
        legacy().try_for_each(|entry| same(leaves(entry, 63), (None, 48)))
    }),
    ("a slot's clear and carry come after", || {
        same(slot_acts(SRC_CLEAR[A], 9), (16, 0))?;
        same(slot_acts(SRC_CARRY[A], 9), (16, 41))?;
        same(slot_acts(0, 63), (16, 15))
    }),
    ("what every entry leaves", each_entry),
    ("the last one counts", last_one_counts),
    ("a refused one leaves no row", refused_leaves_none),
    ("SHIFTXA shows rows 16 to 31", || {
        shows_rows_16(6, &shift_after_conv(0..32))
    }),
    ("rows 0 to 15 alone", || {
        same(prints(&shift_after_conv(0..16)), "refused 8 at 1750\n")
    }),
    ("rows 16 to 31 alone", || {
        shows_rows_16(6, &shift_after_conv(16..32))
    }),
    ("a clear leaves the row to the other bank", || {
        shows_rows_16(6, &shift_after_clear(16..32))?;
        same(prints(&shift_after_clear(0..16)), "refused 8 at 3808\n")
    }),
    ("the row of the thread that issues it", || {
        shows_rows_16(6, &shift_after_other_thread(0..32))
    }),
    ("all others leave the row", || {
        shows_rows_16(17, &shift_after_others(16..32))
    }),
];

/// The slot of the cases.
const SLOT: u32 = 1;

fn legacy() -> impl Iterator<Item = &'static Entry> {
    let entries = TABLE.iter().copied();
    entries.filter(|entry| entry.class == Class::Legacy)
}

/// A record in which the slot adds 16 to SrcA, and every thread has this SrcA counter.
fn record_at(counter: u8) -> Control {
    let mut record = matrix_record();
    for thread in &mut record.threads {
        thread.src[A] = counter;
        thread.slots[SLOT as usize].src_step[A] = BLOCK as u8;
    }
    record
}

/// What a word of an entry is refused with at a counter, and the last row after it, 32 before.
fn leaves(entry: &Entry, counter: u8) -> (Option<Refusal>, u8) {
    let mut record = record_at(counter);
    record.last = 32;
    let modes = entry.find(Name::Mode);
    let mode = modes.map(|bits| (Name::Mode, bits.defined.0));
    let slot = entry.find(Name::Slot).map(|_| (Name::Slot, SLOT));
    let fields: Vec<(Name, u32)> = mode.into_iter().chain(slot).collect();
    let refusal = step(&mut record, 0, entry.word(&fields), &mut State::zero());
    (refusal, record.last)
}

/// A CONV3S1 at 16 whose slot adds 16, and a SHIFTXA to the right in a bank that holds its places.
fn shifts_from_16() -> Verdict {
    let (mut record, mut state) = (record_at(16), places());
    let conv = CONV3S1.word(&[(Name::Slot, SLOT)]);
    let right = SHIFTXA.word(&[(Name::Mode, 2)]);
    same(step(&mut record, 0, conv, &mut state), None)?;
    same(record.threads[0].src[A], 32)?;
    same(&state, &places())?;
    same(step(&mut record, 0, right, &mut state), None)?;
    for row in 0..SRC_ROWS as u32 {
        let first = if row < 16 { 256 } else { 0 } + row * 16;
        let wanted: Vec<u32> = match row {
            0..16 => [0].into_iter().chain(first..first + 15).collect(),
            _ => (first..first + 16).collect(),
        };
        let got = &state.srca[row as usize * 16..][..16];
        same((row, got), (row, &wanted[..]))?;
    }
    same(record.last, 16)
}

/// By every counter of the thread that issues it and every clear; the other threads have others.
fn each_leaves_its_row() -> Verdict {
    same(legacy().count(), 6)?;
    let mut state = State::zero();
    for entry in legacy() {
        for n in 0..SRC_COUNTS as usize * THREADS * 4 {
            let (counter, thread, clear) = ((n / 12) as u8, n / 4 % 3, n as u32 % 4);
            let mut record = record_at((counter + 16) % 64);
            record.threads[thread].src[A] = counter;
            record.last = (counter / 16 * 16 + 32) % 64;
            let word = entry.word(&[(Name::Clear, clear), (Name::Slot, SLOT)]);
            let refusal = step(&mut record, thread, word, &mut state);
            let told = (refusal, record.last, record.matrix[A]);
            let wanted = (
                None,
                [0, 16, 32, 48][counter as usize / 16],
                clear as u8 % 2,
            );
            same((entry.name, n, told), (entry.name, n, wanted))?;
        }
    }
    Ok(())
}

/// The last row and the counter after a CONV3S1 at 16, its slot with these flags and step and the
/// carry at 32.
fn slot_acts(flags: u8, src_step: u8) -> (u8, u8) {
    let mut record = record_at(16);
    let thread = &mut record.threads[0];
    thread.src_cr[A] = 32;
    thread.slots[SLOT as usize].flags = flags;
    thread.slots[SLOT as usize].src_step[A] = src_step;
    let conv = CONV3S1.word(&[(Name::Slot, SLOT)]);
    step(&mut record, 0, conv, &mut State::zero());
    (record.last, record.threads[0].src[A])
}

/// From row 32 and at 16: three multiplies and six legacy instructions leave 16, all others 32.
fn each_entry() -> Verdict {
    let multiplies = ["MVMUL", "DOTPV", "GAPOOL"];
    let legacy = [
        "CONV3S1", "CONV3S2", "MPOOL3S1", "APOOL3S1", "MPOOL3S2", "APOOL3S2",
    ];
    for entry in TABLE {
        let sets = multiplies.contains(&entry.name) || legacy.contains(&entry.name);
        let wanted = (None, if sets { 16 } else { 32 });
        same((entry.name, leaves(entry, 16)), (entry.name, wanted))?;
    }
    same(TABLE.len(), 20)
}

/// Multiplies and legacy instructions in turn, each at the row to which a slot before it led.
fn last_one_counts() -> Verdict {
    let (mut record, mut state) = (record_at(0), State::zero());
    let rows = [
        (&MVMUL, 0),
        (&CONV3S1, 16),
        (&GAPOOL, 32),
        (&CONV3S1, 48),
        (&CONV3S1, 0),
    ];
    for (entry, row) in rows {
        let word = entry.word(&[(Name::Slot, SLOT)]);
        same(step(&mut record, 0, word, &mut state), None)?;
        same(record.last, row)?;
    }
    Ok(())
}

/// With a bank that is the unpackers', with an unnamed bit and on no thread.
fn refused_leaves_none() -> Verdict {
    for entry in legacy() {
        let word = entry.word(&[(Name::Slot, SLOT)]);
        let refuses = |before: &Control, thread: usize, word: u32, wanted: Refusal| {
            let mut record = before.clone();
            let refusal = step(&mut record, thread, word, &mut State::zero());
            same((entry.name, refusal), (entry.name, Some(wanted)))?;
            same(&record, before)
        };
        let before = Control {
            last: 48,
            ..record_at(16)
        };
        for file in SRC {
            let mut before = before.clone();
            before.owner[file][0] = Owner::Unpackers;
            refuses(&before, 0, word, Refusal::OtherOwner)?;
        }
        for bit in [16, 18, 21] {
            refuses(&before, 0, word | 1 << bit, Refusal::UnnamedBit { bit })?;
        }
        refuses(&before, THREADS, word, Refusal::Shape)?;
    }
    Ok(())
}

/// Rows 16 to 31 moved to the right: nothing in column 0, in column 1 the sum of (17 + k) times
/// (1 + k), which is 3672, and then in each column twice the number before it.
pub fn shows_rows_16(issued: u64, job: &[Written]) -> Verdict {
    let doubled = (0..15).map(|n| format!(" {:08x}", 0x4565_8000 + n * 0x80_0000));
    let row = format!("D 0 00000000{}", doubled.collect::<String>());
    same(prints(job), format!("finished {issued}\n{row}\n"))
}
