//! Small named cases: the papers' worked numbers, and more. A failing one tells what it got.

mod bits;
mod halves;
mod keep;
mod legacy;
mod numbers;
mod papers;
mod parts;
mod steps;

use std::fmt::Debug;
use std::panic::catch_unwind;

use crate::engine::{output, State};
use crate::worked::{bytes, Written};

type Verdict = Result<(), String>;
type Case = (&'static str, fn() -> Verdict);

/// Numbers are told in hexadecimal, as most are bits.
fn same<G: Debug + PartialEq<W>, W: Debug>(got: G, wanted: W) -> Verdict {
    if got == wanted {
        Ok(())
    } else {
        Err(format!("got {got:x?}, not {wanted:x?}"))
    }
}

/// What a job prints over zeros.
fn prints(fields: &[Written]) -> String {
    output(&bytes(fields), &mut State::zero())
}

/// What came of all cases, and whether they passed.
pub fn selftest() -> (String, bool) {
    let cases = [
        papers::CASES,
        halves::CASES,
        legacy::CASES,
        parts::CASES,
        bits::CASES,
        numbers::CASES,
        keep::CASES,
    ]
    .concat();
    let (mut text, mut failed) = (String::new(), 0);
    for (name, test) in &cases {
        // A defect that ends in a panic tells its place by itself, and here the case that met it.
        let verdict = catch_unwind(test).unwrap_or_else(|_| Err("a panic".to_string()));
        if let Err(what) = verdict {
            failed += 1;
            text += &format!("failed: {name}: {what}\n");
        }
    }
    text += &format!("{} passed, {failed} failed\n", cases.len() - failed);
    (text, failed == 0)
}
