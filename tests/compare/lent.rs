//! Lent files: wrong lengths, and where two states differ.

use crate::engine::State;
use crate::generate::rng::Rng;

/// A number too few, a number too many, or none at all.
pub fn resize(rng: &mut Rng, numbers: &mut Vec<u32>) {
    match rng.below(5) {
        0 => numbers.clear(),
        1 | 2 => numbers.push(rng.word()),
        _ => {
            numbers.pop();
        }
    }
}

/// One of the four files with a wrong length.
pub fn missize(rng: &mut Rng, state: &mut State) {
    let file = match rng.below(4) {
        0 => &mut state.srca,
        1 => &mut state.srcb,
        2 => &mut state.dst,
        _ => &mut state.registers,
    };
    resize(rng, file);
}

/// The first number in which the two programs' files differ.
pub fn difference(proved: &State, second: &State) -> Result<(), String> {
    for (name, one, two) in [
        ("SrcA", &proved.srca, &second.srca),
        ("SrcB", &proved.srcb, &second.srcb),
        ("Dst", &proved.dst, &second.dst),
        ("register", &proved.registers, &second.registers),
    ] {
        if let Some(at) = (0..two.len()).find(|&at| one[at] != two[at]) {
            let (one, two) = (one[at], two[at]);
            return Err(format!("{name} number {at} is {one:08x}, not {two:08x}"));
        }
    }
    Ok(())
}
