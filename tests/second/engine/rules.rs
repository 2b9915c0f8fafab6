//! The rules that an instruction may break.

use super::{
    all_set, decode, Class, Control, Instruction, Marks, Refusal, A, B, BLOCK, CONSTANT,
    REGISTER_A, REGISTER_B, SRC,
};

/// The rules 2 to 7, the lowest number first.
#[inline]
pub fn rules(control: &Control, thread: usize, word: u32) -> Result<Instruction, Refusal> {
    let it = decode(word)?;
    let class = it.entry.class;
    if class.is_multiply() && !control.modelled() {
        return Err(Refusal::Unmodelled);
    }
    for file in SRC {
        if class.needs(file) && !control.matrix_has(file) {
            return Err(Refusal::OtherOwner);
        }
    }
    match it.dst_rows(control, thread) {
        Some(rows) if rows.start >= control.width().rows() => Err(Refusal::DstRow),
        _ => Ok(it),
    }
}

/// Is all set that an instruction reads?
#[inline]
pub fn reads_set(control: &Control, marks: &Marks, thread: usize, it: Instruction) -> bool {
    let a = &marks.src[A][control.matrix_bank(A)];
    let b = &marks.src[B][control.matrix_bank(B)];
    match it.entry.class {
        Class::Multiply { rows, .. } => {
            let dst = it.dst_rows(control, thread).expect("a multiply");
            all_set(&a[control.a_row(thread)..][..BLOCK])
                && all_set(&b[control.b_row(thread)..][..rows])
                && all_set(&marks.dst[dst])
        }
        Class::ShiftXa => all_set(&a[control.last.into()..][..BLOCK]),
        Class::ShiftXb => b[it.shifted_row(control, thread)],
        Class::Scalar(_) => {
            let registers = &marks.registers[thread];
            registers[it.get(REGISTER_A) as usize]
                && (it.on(CONSTANT) || registers[it.get(REGISTER_B) as usize])
        }
        Class::Legacy | Class::SetRwc | Class::IncRwc => true,
        Class::ZeroSrc | Class::Nothing => true,
    }
}
