//! The bit that a refusal 3 tells: order 4.

use super::steps::{matrix_record, refusal};
use super::{prints, same, Case, Verdict};
use crate::engine::{
    precheck, rules, run, step, Control, Entry, Name, Refusal, State, CLREXPHIST, DOTPV, MVMUL,
    SHIFTXB, TABLE, THREADS,
};
use crate::worked::{bytes, with_words, TOLD};

pub const CASES: &[Case] = &[
    ("document 02's line", || {
        let job = with_words(&[0x2601_0000]);
        same(prints(&job), "refused 3 at 172 bit 16\n")?;
        let line = precheck(&bytes(&job)).line("passed");
        same(line, "refused 3 at 172 bit 16")
    }),
    ("bits: the stored jobs", || {
        for (words, told) in TOLD {
            let wanted = format!("{told}\n");
            same((words, prints(&with_words(words))), (words, wanted))?;
        }
        Ok(())
    }),
    ("bits: pre-check, run and step tell the same", tell_the_same),
    ("bits: those of the paper's rows", rows_are_the_papers),
    ("bits: each alone", || told_with(|_| vec![0])),
    ("bits: with one above it", || told_with(|it| each(it.above))),
    ("bits: with all above it", || told_with(|it| vec![it.above])),
    ("bits: with one named bit", || {
        told_with(|it| each(it.named))
    }),
    ("bits: with all named bits", || {
        told_with(|it| vec![it.named, it.named | it.above])
    }),
    ("bits: every word of CLREXPHIST", || {
        let (opcode, record) = (CLREXPHIST.word(&[]), Control::start());
        for bits in 1..=ALL {
            let told = rules(&record, 0, opcode | bits).err();
            let bit = bits.trailing_zeros() as u8;
            same((bits, told), (bits, Some(Refusal::UnnamedBit { bit })))?;
        }
        Ok(())
    }),
    ("bits: a named one is never told", named_are_not_told),
    ("bits: each undefined mode is 4", each_undefined_mode),
    ("bits: an undefined mode beside it", undefined_mode_beside),
    ("bits: an unknown opcode with any", unknown_with_any),
    ("bits: 3 before 5, 6 and 7", || {
        // A start record models nothing and has no bank handed over.
        for record in [Control::start(), matrix_record()] {
            for entry in [&MVMUL, &DOTPV] {
                let word = entry.word(&[(Name::Dst, 512)]) | 1 << 17;
                let told = refusal(record.clone(), word);
                same(told, Some(Refusal::UnnamedBit { bit: 17 }))?;
            }
        }
        let word = SHIFTXB.word(&[]) | 1 << 12;
        let told = refusal(Control::start(), word);
        same(told, Some(Refusal::UnnamedBit { bit: 12 }))
    }),
    ("bits: 1 and 9 before 3", one_and_nine_first),
    ("bits: no other line changes", || {
        let others = [
            (Refusal::Shape, "refused 1 at 172"),
            (Refusal::UnknownOpcode, "refused 2 at 172"),
            (Refusal::UndefinedMode, "refused 4 at 172"),
            (Refusal::Unmodelled, "refused 5 at 172"),
            (Refusal::OtherOwner, "refused 6 at 172"),
            (Refusal::DstRow, "refused 7 at 172"),
            (Refusal::Unset, "refused 8 at 172"),
            (Refusal::LentLength, "refused 9 at 172"),
        ];
        let mut others = others.into_iter();
        others.try_for_each(|(refusal, line)| same(refusal.at(172).line("finished"), line))
    }),
];

/// All bits below the opcode.
const ALL: u32 = 0xFF_FFFF;

/// Document 01's rows in its order: opcodes, and the bits that they do not name, from a first to a
/// last one.
type Row = (&'static [u32], &'static [(u8, u8)]);
const ROWS: [Row; 12] = [
    (&[0x26, 0x29], &[(16, 18)]),
    (&[0x34], &[(14, 14), (17, 18)]),
    (&[0x22, 0x23, 0x24, 0x25, 0x31, 0x32], &[(16, 16), (18, 21)]),
    (&[0x37], &[(4, 5)]),
    (&[0x38], &[(0, 5)]),
    (&[0x11], &[]),
    (&[0x17], &[(2, 23)]),
    (&[0x18], &[(11, 13), (16, 23)]),
    (&[0x35], &[(2, 23)]),
    (&[0x21], &[(0, 23)]),
    (&[0x46], &[(4, 23)]),
    (&[0x5B, 0x5C, 0x5D], &[(21, 22)]),
];

/// An unnamed bit of an opcode, the other unnamed bits above it, and the bits that its row names.
struct Unnamed {
    opcode: u32,
    bit: u8,
    above: u32,
    named: u32,
}

/// Each opcode in its place in a word, with its unnamed bits.
fn opcodes() -> Vec<(u32, u32)> {
    let of = |&(first, last): &(u8, u8)| (first..=last).fold(0, |bits, bit| bits | 1 << bit);
    let mut all = Vec::new();
    for (opcodes, ranges) in ROWS {
        let bits = ranges.iter().map(of).sum();
        all.extend(opcodes.iter().map(|opcode| (opcode << 24, bits)));
    }
    all
}

fn unnamed() -> Vec<Unnamed> {
    let mut all = Vec::new();
    for (opcode, bits) in opcodes() {
        for bit in (0..24).filter(|bit| (bits >> bit) & 1 == 1) {
            all.push(Unnamed {
                opcode,
                bit,
                above: bits & (ALL << (bit + 1)),
                named: ALL & !bits,
            });
        }
    }
    all
}

/// Each of these bits by itself.
fn each(bits: u32) -> Vec<u32> {
    let alone = (0..24).map(|bit| bits & 1 << bit);
    alone.filter(|&bit| bit != 0).collect()
}

fn is_told(word: u32, bit: u8) -> Verdict {
    let told = refusal(matrix_record(), word);
    same((word, told), (word, Some(Refusal::UnnamedBit { bit })))
}

/// Each unnamed bit is told, with any of these bits beside it.
fn told_with(beside: impl Fn(&Unnamed) -> Vec<u32>) -> Verdict {
    for it in unnamed() {
        let word = it.opcode | 1 << it.bit;
        let mut words = beside(&it).into_iter().map(|bits| word | bits);
        words.try_for_each(|word| is_told(word, it.bit))?;
    }
    Ok(())
}

/// Each of them, on each thread; refused, a step leaves record and numbers as they came.
fn tell_the_same() -> Verdict {
    for Unnamed { opcode, bit, .. } in unnamed() {
        let (word, wanted) = (opcode | 1 << bit, Refusal::UnnamedBit { bit });
        for thread in 0..THREADS {
            let mut words = vec![CLREXPHIST.word(&[]); thread];
            words.push(word);
            let job = bytes(&with_words(&words));
            let (mut record, mut state) = (matrix_record(), State::zero());
            let answers = [precheck(&job), run(&job, &mut state)];
            let answer = wanted.at(172 + 8 * thread);
            same((word, answers), (word, [answer.clone(), answer]))?;
            let told = step(&mut record, thread, word, &mut state);
            same((word, told), (word, Some(wanted)))?;
            let kept = record == matrix_record() && state == State::zero();
            same((word, kept), (word, true))?;
        }
    }
    Ok(())
}

/// The engine's table has the same unnamed bits, 152 in twenty rows.
fn rows_are_the_papers() -> Verdict {
    let bits = |entry: &Entry| entry.unnamed().fold(0, |bits, bit| bits | 1 << bit);
    let of_table = TABLE.iter().map(|entry| (entry.word(&[]), bits(entry)));
    let of_table: Vec<(u32, u32)> = of_table.collect();
    same(&of_table, &opcodes())?;
    same((opcodes().len(), unnamed().len()), (20, 152))
}

/// Alone, by twos and all at once: it may be a mode, never an unnamed bit.
fn named_are_not_told() -> Verdict {
    for (opcode, bits) in opcodes() {
        let named = ALL & !bits;
        let mut words = vec![opcode, opcode | named];
        for bit in each(named) {
            words.extend(each(named).iter().map(|other| opcode | bit | other));
        }
        for word in words {
            let told = refusal(matrix_record(), word);
            let is_3 = told.is_some_and(|refusal| refusal.number() == 3);
            same((word, is_3), (word, false))?;
        }
    }
    Ok(())
}

/// Opcodes with the place of their mode, its bits and its defined ones.
type Modes = (&'static [u32], u32, u32, &'static [u32]);
const MODES: [Modes; 7] = [
    (&[0x26, 0x29], 19, 3, &[0]),
    (&[0x34], 19, 3, &[0, 1]),
    (&[0x37], 18, 4, &[0]),
    (&[0x38], 18, 6, &[0]),
    (&[0x17], 0, 2, &[2, 3]),
    (&[0x5B, 0x5D], 18, 3, &[0, 1, 2]),
    (&[0x5C], 18, 3, &[0, 1]),
];

/// What holds of each undefined mode's word, with no other bit.
fn each_mode(holds: impl Fn(u32) -> Verdict) -> Verdict {
    for (opcodes, place, bits, defined) in MODES {
        for opcode in opcodes {
            let modes = (0..1 << bits).filter(|mode| !defined.contains(mode));
            let mut words = modes.map(|mode| (opcode << 24) | (mode << place));
            words.try_for_each(&holds)?;
        }
    }
    Ok(())
}

fn each_undefined_mode() -> Verdict {
    each_mode(|word| {
        let told = refusal(matrix_record(), word);
        same((word, told), (word, Some(Refusal::UndefinedMode)))
    })
}

/// Each undefined mode with each unnamed bit of its row, above the mode or below it.
fn undefined_mode_beside() -> Verdict {
    let unnamed = unnamed();
    each_mode(|mode| {
        let mut of_row = unnamed.iter().filter(|it| it.opcode == mode & !ALL);
        of_row.try_for_each(|it| is_told(mode | 1 << it.bit, it.bit))
    })
}

/// None, all and each alone.
fn unknown_with_any() -> Verdict {
    let known: Vec<u32> = opcodes().iter().map(|(opcode, _)| *opcode).collect();
    let all = (0..256).map(|opcode| opcode << 24);
    let unknown: Vec<u32> = all.filter(|opcode| !known.contains(opcode)).collect();
    same(unknown.len(), 236)?;
    for opcode in unknown {
        for bits in [&[0, ALL], &each(ALL)[..]].concat() {
            let (word, wanted) = (opcode | bits, Some(Refusal::UnknownOpcode));
            let told = rules(&matrix_record(), 0, word).err();
            same((word, told), (word, wanted))?;
        }
    }
    Ok(())
}

/// A job's shape, a step's record and thread, and lent files of a wrong length.
fn one_and_nine_first() -> Verdict {
    let word = 0x2100_0001;
    let mut job = with_words(&[word]);
    job.pop();
    same(prints(&job), "refused 1 at 180\n")?;
    let mut out_of_range = matrix_record();
    out_of_range.last = 1;
    same(refusal(out_of_range, word), Some(Refusal::Shape))?;
    let told = step(&mut matrix_record(), THREADS, word, &mut State::zero());
    same(told, Some(Refusal::Shape))?;
    let mut short = State::zero();
    short.registers.pop();
    let told = step(&mut matrix_record(), 0, word, &mut short);
    same(told, Some(Refusal::LentLength))?;
    let answer = run(&bytes(&with_words(&[word])), &mut short);
    same(answer, Refusal::LentLength.at(0))
}
