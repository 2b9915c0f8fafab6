//! What single steps leave, for cases to look at.

use crate::engine::{
    rules, step, Control, Owner, Refusal, State, BANK_NUMBERS, COLUMNS, FP32, MVMUL, TF32,
};

/// A record with both first banks handed over.
pub fn record_of(format: u8, flags: u8) -> Control {
    Control {
        owner: [[Owner::Matrix, Owner::Unpackers]; 2],
        ..Control::under(format, flags)
    }
}

/// One under which a multiply is modelled.
pub fn matrix_record() -> Control {
    record_of(TF32, FP32)
}

/// What a word is refused with on thread 0 over zeros.
pub fn refusal(mut control: Control, word: u32) -> Option<Refusal> {
    step(&mut control, 0, word, &mut State::zero())
}

/// Register `result` after one word on thread 0, register n holding the n-th number given.
pub fn scalar(word: u32, registers: &[u32], result: usize) -> u32 {
    let mut state = State::zero();
    state.registers[..registers.len()].copy_from_slice(registers);
    step(&mut Control::start(), 0, word, &mut state);
    state.registers[result]
}

/// A multiply's first Dst row, or what it is refused with.
pub fn first_row(mut control: Control, word: u32, base: u16) -> Result<usize, Refusal> {
    control.base = base;
    let rows = rules(&control, 0, word)?.dst_rows(&control, 0);
    Ok(rows.expect("a multiply").start)
}

/// SrcB's first row of 1 to 16 after a word.
pub fn shifted_b(word: u32) -> Vec<u32> {
    let mut state = State::zero();
    for n in 0..COLUMNS {
        state.srcb[n] = n as u32 + 1;
    }
    step(&mut matrix_record(), 0, word, &mut state);
    state.srcb[..COLUMNS].to_vec()
}

/// Zeros, but for a bank of SrcA that holds its places.
pub fn places() -> State {
    let mut state = State::zero();
    for n in 0..BANK_NUMBERS {
        state.srca[n] = n as u32;
    }
    state
}

/// Such a bank after a word with a last row.
pub fn shifted_a(last: u8, word: u32) -> Result<Vec<u32>, Refusal> {
    let mut state = places();
    let mut control = matrix_record();
    control.last = last;
    let refusal = step(&mut control, 0, word, &mut state);
    refusal.map_or(Ok(state.srca), Err)
}

/// Dst number 0 after MVMUL, SrcA column 0 and SrcB row 0 given, under a phase.
pub fn product(a: &[u32], b: &[u32], old: u32, format: u8, phase: u8) -> u32 {
    let mut control = record_of(format, FP32);
    control.threads[0].phase = phase;
    product_of(control, MVMUL.word(&[]), a, b, old)
}

/// The lent Dst number 0 after a word.
pub fn product_of(mut control: Control, word: u32, a: &[u32], b: &[u32], old: u32) -> u32 {
    let mut state = State::zero();
    for (k, (a, b)) in a.iter().zip(b).enumerate() {
        state.srca[k * COLUMNS] = *a;
        state.srcb[k] = *b;
    }
    state.dst[0] = old;
    step(&mut control, 0, word, &mut state);
    state.dst[0]
}
