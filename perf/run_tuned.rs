//! The second program's run with the tuned multiply in place of its own.

use crate::engine::{
    change_numbers, follow_record, run_with, shape, Answer, Control, Field, Instruction, State,
    Width, A, B, SRC_ROWS,
};
use crate::tuned::{multiply, Product};

/// A multiply as the tuned version is given it.
fn product(control: &Control, thread: usize, it: Instruction) -> Option<Product> {
    let rows = it.dst_rows(control, thread)?;
    Some(Product {
        halves: control.width() == Width::Bits16,
        format: control.format,
        phase: control.phase(thread),
        a: control.matrix_bank(A) * SRC_ROWS + control.a_row(thread),
        b: control.matrix_bank(B) * SRC_ROWS + control.b_row(thread),
        dst: rows.start,
        rows: rows.len(),
    })
}

/// What an instruction does to the lent numbers, a multiply in the tuned way.
pub fn tuned_numbers(control: &Control, thread: usize, it: Instruction, state: &mut State) {
    match product(control, thread, it) {
        Some(p) => multiply(&p, &state.srca, &state.srcb, &mut state.dst),
        None => change_numbers(control, thread, it, state),
    }
}

pub fn run_tuned(job: &[u8], state: &mut State) -> Answer {
    run_with(job, state, tuned_numbers)
}

/// The multiplies of a job in their order.
pub fn products(job: &[u8]) -> Vec<Product> {
    let mut control = Control::start();
    let mut products = Vec::new();
    for (_, field) in shape(job).0 {
        if let Field::Issue { thread, word } = field {
            let it = Instruction::of(word).expect("a word of the table");
            products.extend(product(&control, thread, it));
        }
        follow_record(&mut control, &field);
    }
    products
}
