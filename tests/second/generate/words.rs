//! Words, right and wrong ones.

use super::rng::Rng;
use crate::engine::{
    Class, Entry, Name, BELOW_OPCODE, INCRWC, SETRWC, SHIFTXA, TABLE, WHICH, WHICH_DST,
};

pub fn pick_entry(rng: &mut Rng) -> &'static Entry {
    rng.pick(TABLE)
}

/// An entry among those of which something holds.
pub fn pick_where(rng: &mut Rng, holds: impl Fn(&Entry) -> bool) -> &'static Entry {
    loop {
        let entry = pick_entry(rng);
        if holds(entry) {
            return entry;
        }
    }
}

pub fn pick_multiply(rng: &mut Rng) -> &'static Entry {
    pick_where(rng, |entry| entry.class.is_multiply())
}

pub fn pick_scalar(rng: &mut Rng) -> &'static Entry {
    pick_where(rng, |entry| entry.class.is_scalar())
}

/// An instruction that needs a bank.
pub fn pick_needy(rng: &mut Rng) -> &'static Entry {
    pick_where(rng, |entry| entry.class.needs_a_bank())
}

/// A word of an entry with no unnamed bit and a defined mode.
pub fn compose(rng: &mut Rng, entry: &Entry) -> u32 {
    let mut word = entry.word(&[]);
    for bits in entry.bits {
        let (low, high) = bits.defined;
        word = bits.put(word, rng.within(low, high));
    }
    word
}

/// A word that moves counters, Dst's among them, and gives no bank back.
pub fn moving_word(rng: &mut Rng) -> u32 {
    let entry = match rng.below(4) {
        0 => &SETRWC,
        1 => &INCRWC,
        _ => pick_where(rng, |entry| entry.slot.is_some()),
    };
    let word = compose(rng, entry);
    match entry.class {
        Class::IncRwc | Class::ShiftXb => word,
        Class::SetRwc => {
            let which = WHICH.get(word) | WHICH_DST;
            entry.put(WHICH.put(word, which), Name::Clear, 0)
        }
        _ => entry.put(word, Name::Clear, 0),
    }
}

/// A word of an entry with any bits.
pub fn any_bits(rng: &mut Rng, entry: &Entry) -> u32 {
    entry.word(&[]) | (rng.word() & BELOW_OPCODE)
}

/// A word for single steps: mostly of the table, sometimes with a bit flipped or a rule broken,
/// sometimes anything.
pub fn word(rng: &mut Rng) -> u32 {
    let entry = match rng.below(12) {
        0..=2 => pick_multiply(rng),
        // It shows the row that a step before it left behind.
        3 => &SHIFTXA,
        _ => pick_entry(rng),
    };
    match rng.below(15) {
        0 => rng.word(),
        1 => any_bits(rng, entry),
        2 => compose(rng, entry) ^ (1 << rng.below(32)),
        3..=5 => bad_word(rng),
        _ => compose(rng, entry),
    }
}

/// None of these bits, all of them or any.
fn some_of(rng: &mut Rng, bits: u32) -> u32 {
    match rng.below(4) {
        0 => 0,
        1 => bits,
        _ => bits & rng.word(),
    }
}

fn unknown_opcode(rng: &mut Rng) -> u32 {
    loop {
        let word = rng.below(256) << 24;
        if Entry::of(word).is_none() {
            return word | some_of(rng, BELOW_OPCODE);
        }
    }
}

/// The word of an entry with an unnamed bit, and none, all or some of those above it.
pub fn with_unnamed(rng: &mut Rng, entry: &Entry, word: u32, lowest: u8) -> u32 {
    let above = !entry.named & (u32::MAX << (lowest + 1));
    word | 1 << lowest | some_of(rng, above)
}

/// A word with unnamed bits, and its entry. Each unnamed bit of each entry is the lowest one
/// equally often.
fn unnamed_bits(rng: &mut Rng) -> (&'static Entry, u32) {
    let pairs = TABLE.iter().flat_map(|&entry| {
        let bits = entry.unnamed();
        bits.map(move |bit| (entry, bit))
    });
    let pairs: Vec<(&'static Entry, u8)> = pairs.collect();
    let (entry, lowest) = rng.pick(&pairs);
    let word = compose(rng, entry);
    (entry, with_unnamed(rng, entry, word, lowest))
}

/// The word with an undefined mode, where its entry has modes.
fn undefined_mode(rng: &mut Rng, entry: &Entry, word: u32) -> u32 {
    let Some(bits) = entry.find(Name::Mode) else {
        return word;
    };
    loop {
        let mode = rng.below(1 << bits.count());
        if !bits.defines(mode) {
            return bits.put(word, mode);
        }
    }
}

/// A word that breaks one of the rules 2 to 4, or two of them at once.
pub fn bad_word(rng: &mut Rng) -> u32 {
    match rng.below(20) {
        0 | 1 => unknown_opcode(rng),
        2..=9 => unnamed_bits(rng).1,
        10..=13 => {
            let (entry, word) = unnamed_bits(rng);
            undefined_mode(rng, entry, word)
        }
        _ => {
            let entry = pick_where(rng, |e| e.find(Name::Mode).is_some());
            let word = compose(rng, entry);
            undefined_mode(rng, entry, word)
        }
    }
}
