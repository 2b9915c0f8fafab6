//! The single step.

use super::{change_numbers, change_record, rules, Control, Refusal, State, THREADS};

/// Nothing when done, else 9, 1 or the lowest of 2 to 7, with nothing changed.
pub fn step(control: &mut Control, thread: usize, word: u32, state: &mut State) -> Option<Refusal> {
    if !state.fits() {
        return Some(Refusal::LentLength);
    }
    if thread >= THREADS || !control.in_range() {
        return Some(Refusal::Shape);
    }
    match rules(control, thread, word) {
        Err(refusal) => Some(refusal),
        Ok(it) => {
            change_numbers(control, thread, it, state);
            change_record(control, thread, it);
            None
        }
    }
}
