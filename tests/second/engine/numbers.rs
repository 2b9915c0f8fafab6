//! What an instruction does to the lent numbers.

use super::{
    parts, register_at, src_at, takes_low, Class, Control, Instruction, Scalar, State, A, B, BANKS,
    BANK_NUMBERS, BLOCK, BLOCK_NUMBERS, COLUMNS, CONSTANT, REGISTER_A, REGISTER_B, RESULT, SRC,
    VALUE, WRITE_MODE, ZERO_FILL,
};

/// What ZEROSRC fills SrcA with under write mode 1 and a value.
const HIGH_FILL: u32 = 0x7FFFF;
/// The mode in which SHIFTXA moves to column 15.
const RIGHT: u32 = 2;

/// Under the record as it stands before the instruction.
#[inline]
pub fn change_numbers(control: &Control, thread: usize, it: Instruction, state: &mut State) {
    match it.entry.class {
        Class::Multiply { .. } => multiply(control, thread, it, state),
        Class::ZeroSrc => zero(control, it, state),
        Class::ShiftXa => shift_a(control, it, state),
        Class::ShiftXb => shift_b(control, thread, it, state),
        Class::Scalar(scalar) => {
            let (a, b) = operands(thread, it, state);
            let result = register_at(thread, it.get(RESULT) as usize);
            state.registers[result] = compute(scalar, it.mode(), a, b);
        }
        Class::Legacy | Class::SetRwc | Class::IncRwc | Class::Nothing => {}
    }
}

fn multiply(control: &Control, thread: usize, it: Instruction, state: &mut State) {
    let (width, phase) = (control.width(), control.phase(thread));
    let [a_low, b_low] = [A, B].map(|file| usize::from(takes_low(phase, file)));
    let a = src_at(control.matrix_bank(A), control.a_row(thread));
    let b = src_at(control.matrix_bank(B), control.b_row(thread));
    let rows = it.dst_rows(control, thread).expect("a multiply");
    for (i, row) in rows.enumerate() {
        for j in 0..COLUMNS {
            let mut sum = 0.0f32;
            for k in 0..BLOCK {
                let x = parts(A, control.format, state.srca[a + k * COLUMNS + j])[a_low];
                let y = parts(B, control.format, state.srcb[b + i * COLUMNS + k])[b_low];
                sum += x * y;
            }
            let at = row * COLUMNS + j;
            let result = width.widen(width.get(&state.dst, at)) + sum;
            width.put(&mut state.dst, at, width.narrow(result));
        }
    }
}

fn zero(control: &Control, it: Instruction, state: &mut State) {
    let high = it.on(WRITE_MODE) && it.get(VALUE) != 0;
    for file in SRC {
        let number = if file == A && high { HIGH_FILL } else { 0 };
        for bank in 0..BANKS {
            if it.fills(control, file, bank) {
                state.src_mut(file)[src_at(bank, 0)..][..BANK_NUMBERS].fill(number);
            }
        }
    }
}

fn shift_a(control: &Control, it: Instruction, state: &mut State) {
    let bank = &mut state.srca[src_at(control.matrix_bank(A), 0)..][..BANK_NUMBERS];
    // A copy, as source and target overlap where the last row is 0.
    let mut old = [0; BLOCK_NUMBERS];
    old.copy_from_slice(&bank[src_at(0, control.last.into())..][..BLOCK_NUMBERS]);
    let right = it.mode() == RIGHT;
    for (n, number) in bank[..BLOCK_NUMBERS].iter_mut().enumerate() {
        *number = match (right, n % COLUMNS) {
            (true, 0) => 0,
            (true, _) => old[n - 1],
            (false, column) if column == COLUMNS - 1 => 0,
            (false, _) => old[n + 1],
        };
    }
}

fn shift_b(control: &Control, thread: usize, it: Instruction, state: &mut State) {
    let at = src_at(control.matrix_bank(B), it.shifted_row(control, thread));
    let numbers = &mut state.srcb[at..][..COLUMNS];
    numbers.rotate_left(1);
    if it.on(ZERO_FILL) {
        numbers[COLUMNS - 1] = 0;
    }
}

/// A scalar instruction's A, and its B: a register or a constant.
pub fn operands(thread: usize, it: Instruction, state: &State) -> (u32, u32) {
    let register = |number: u32| state.registers[register_at(thread, number as usize)];
    let b = it.get(REGISTER_B);
    let b = if it.on(CONSTANT) { b } else { register(b) };
    (register(it.get(REGISTER_A)), b)
}

fn compute(scalar: Scalar, mode: u32, a: u32, b: u32) -> u32 {
    match (scalar, mode) {
        (Scalar::Bitwise, 0) => a & b,
        (Scalar::Bitwise, 1) => a | b,
        (Scalar::Bitwise, _) => a ^ b,
        (Scalar::Shift, 0) => a << (b % 32),
        (Scalar::Shift, _) => a >> (b % 32),
        (Scalar::Compare, 0) => u32::from(a > b),
        (Scalar::Compare, 1) => u32::from(a < b),
        (Scalar::Compare, _) => u32::from(a == b),
    }
}
