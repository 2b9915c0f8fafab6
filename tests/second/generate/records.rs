//! Settings of jobs, and records for single steps.

use super::rng::Rng;
use crate::engine::{
    Control, Owner, Slot, A, B, BANKS, BF16, BLOCK, DST_CLEAR, DST_COUNTS, DST_ROWS,
    FIDELITY_CLEAR, FLAGS, FORMATS, FP32, KEEP, KIND_FLAGS, PHASES, SLOTS, SRC, SRC_CLEAR,
    SRC_COUNTS, SRC_ROWS, TF32, THREADS,
};

const SLOT_CLEARS: u8 = SRC_CLEAR[0] | SRC_CLEAR[1] | DST_CLEAR | FIDELITY_CLEAR;

fn slot_flags(rng: &mut Rng) -> u8 {
    match rng.below(4) {
        0 => 0,
        1 => rng.word() as u8,
        2 => 1 << rng.below(8),
        // No clear: carries and copies show only when more follow.
        _ => rng.word() as u8 & !SLOT_CLEARS,
    }
}

fn slot(rng: &mut Rng) -> Slot {
    let steps = [0; 2].map(|_| rng.under(SRC_COUNTS) as u8);
    // Often a step to the next rows that a multiply takes.
    let src_step = [rng.pick(&[steps[0], 16]), rng.pick(&[steps[1], 8])];
    let dst_step = rng.under(DST_COUNTS) as u16;
    let flags = slot_flags(rng);
    Slot {
        src_step,
        dst_step,
        fidelity_step: rng.under(PHASES) as u8,
        flags,
    }
}

/// Any flags of what is modelled but Fp32 alone.
fn other_kinds() -> Vec<u8> {
    (0..=KIND_FLAGS).filter(|&kind| kind != FP32).collect()
}

/// One switch, both or none, which is as often as the others together.
fn switches(rng: &mut Rng) -> u8 {
    rng.pick(&[0, 0, 0, KEEP[A], KEEP[B], KEEP[A] | KEEP[B]])
}

/// The start record with settings in it.
pub fn settings(rng: &mut Rng) -> Control {
    let (format, kind) = match rng.below(16) {
        0 => (
            rng.under(FORMATS) as u8,
            rng.below(u32::from(KIND_FLAGS) + 1) as u8,
        ),
        // Not far from the settings that are modelled.
        1 => (rng.under(FORMATS) as u8, rng.pick(&[0, FP32])),
        2 => (rng.pick(&[BF16, TF32]), rng.pick(&other_kinds())),
        3..=7 => (rng.pick(&[BF16, TF32]), FP32),
        // 16-bit rows of Dst.
        _ => (BF16, 0),
    };
    let mut record = Control::under(format, kind | switches(rng));
    let base = rng.under(DST_COUNTS) as u16;
    record.base = rng.pick(&[0, DST_ROWS as u16, base]);
    for thread in &mut record.threads {
        thread.offset = rng.under(DST_COUNTS) as u16;
        thread.fidelity_base = rng.under(PHASES) as u8;
        thread.extra = rng.below(2) as u8;
        for s in &mut thread.slots {
            *s = slot(rng);
        }
    }
    record
}

/// A record for single steps, sometimes out of range by one number.
pub fn record(rng: &mut Rng) -> Control {
    let mut record = settings(rng);
    for t in &mut record.threads {
        t.src = [0; 2].map(|_| rng.under(SRC_COUNTS) as u8);
        t.src_cr = [0; 2].map(|_| rng.under(SRC_COUNTS) as u8);
        t.dst = rng.under(DST_COUNTS) as u16;
        t.dst_cr = rng.under(DST_COUNTS) as u16;
        t.phase = rng.below(PHASES.into()) as u8;
    }
    for file in SRC {
        record.matrix[file] = rng.index(BANKS) as u8;
        record.unpackers[file] = rng.index(BANKS) as u8;
        for owner in &mut record.owner[file] {
            let matrix = !rng.one_in(3);
            *owner = if matrix {
                Owner::Matrix
            } else {
                Owner::Unpackers
            };
        }
    }
    record.last = (BLOCK * rng.index(SRC_ROWS / BLOCK)) as u8;
    if rng.one_in(12) {
        put_out_of_range(rng, &mut record);
    }
    record
}

/// One number past its end.
fn put_out_of_range(rng: &mut Rng, record: &mut Control) {
    let file = rng.index(2);
    let t = &mut record.threads[rng.index(THREADS)];
    let s = &mut t.slots[rng.index(SLOTS)];
    match rng.below(17) {
        0 => t.dst = DST_COUNTS,
        1 => t.dst_cr = DST_COUNTS,
        2 => t.src[file] = SRC_COUNTS,
        3 => t.src_cr[file] = SRC_COUNTS,
        4 => t.phase = PHASES,
        5 => t.extra = 2,
        6 => t.offset = DST_COUNTS,
        7 => t.fidelity_base = PHASES,
        8 => s.src_step[file] = SRC_COUNTS,
        9 => s.dst_step = DST_COUNTS,
        10 => s.fidelity_step = PHASES,
        11 => record.format = FORMATS,
        12 => record.flags = FLAGS + 1,
        13 => record.base = DST_COUNTS,
        14 => record.matrix[file] = BANKS as u8,
        15 => record.unpackers[file] = BANKS as u8,
        _ => record.last = rng.pick(&[1, 15, 17, 47, 64]),
    }
}
