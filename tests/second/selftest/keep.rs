//! Banks that a clear keeps: order 6.

use super::legacy::shows_rows_16;
use super::numbers::printed;
use super::steps::{places, record_of, refusal};
use super::{prints, same, Case, Verdict};
use crate::engine::{
    fields, follow, precheck, settings, settings_bytes, step, Class, Control, Entry, Field,
    Instruction, Marks, Name, Owner, Refusal, State, A, B, BANKS, BF16, CLREXPHIST, FORMATS, FP32,
    HEADER, JOB_BYTES, MVMUL, SHIFTXA, SRC, SRC_ROWS, TABLE, TF32, ZEROSRC,
};
use crate::generate::job;
use crate::generate::rng::Rng;
use crate::worked::{
    all_four_banks, cleared_early, kept, kept_in_halves, shift_in_kept, with_flags, Next, AT_BASE,
    CLEAR_A, KEPT, SHIFT_A,
};

pub const CASES: &[Case] = &[
    ("kept: the stored jobs", || {
        KEPT.iter()
            .try_for_each(|&(switches, fields, line, number)| {
                let job = (switches, fields);
                let printed = printed(line, number);
                same((job, prints(&kept(switches, fields))), (job, printed))
            })
    }),
    ("kept: from bank to bank and back", || {
        let wanted = printed("finished 5", "43810000");
        same(prints(&all_four_banks(24)), wanted)?;
        same(prints(&all_four_banks(8)), "refused 6 at 3314\n")?;
        same(prints(&all_four_banks(16)), "refused 6 at 3306\n")?;
        same(prints(&all_four_banks(0)), "refused 6 at 3306\n")
    }),
    ("kept: cleared while the unpackers'", || {
        let wanted = printed("finished 3", "40400000");
        same(prints(&cleared_early(8)), wanted)?;
        same(prints(&cleared_early(16)), "refused 8 at 1742\n")?;
        same(prints(&cleared_early(0)), "refused 8 at 1742\n")
    }),
    ("kept: SHIFTXA in a kept bank", || {
        shows_rows_16(7, &shift_in_kept(8))?;
        same(prints(&shift_in_kept(0)), "refused 6 at 2782\n")
    }),
    ("kept: what SHIFTXA wrote stays too", || {
        let words = [SHIFT_A, CLEAR_A, CLEAR_A, AT_BASE];
        let printed = prints(&kept(8, &words.map(Next::Word)));
        let zeros = " 00000000".repeat(14);
        same(
            printed,
            format!("finished 4\nD 0 00000000 40400000{zeros}\n"),
        )
    }),
    ("kept: 16 bits", || {
        let row = format!("D 512 40c0{}\n", " 0000".repeat(15));
        same(prints(&kept_in_halves(24)), format!("finished 3\n{row}"))?;
        for switches in [0, 8, 16] {
            let printed = prints(&kept_in_halves(switches));
            same(
                (switches, printed),
                (switches, "refused 6 at 1742\n".to_string()),
            )?;
        }
        Ok(())
    }),
    ("kept: flags of every byte", every_flags_byte),
    ("kept: bits 5 to 7 before all else", high_bits_first),
    ("kept: a record's switches are 0 or 1", switches_of_a_record),
    ("kept: the mode reads no switch", mode_reads_no_switch),
    ("kept: what every clear leaves of the record", each_clear),
    (
        "kept: what every clear leaves of the marks",
        each_clears_marks,
    ),
    (
        "kept: no other instruction reads a switch",
        others_read_none,
    ),
    (
        "kept: a switch shows in clears alone",
        shows_in_clears_alone,
    ),
];

/// Each choice of switches.
const SWITCHES: [u8; 4] = [0, 8, 16, 24];

/// Document 02's bits again: 3 for SrcA, 4 for SrcB.
fn on(switches: u8, file: usize) -> bool {
    (switches >> (3 + file)) & 1 == 1
}

/// Below 32 they are right, and say nothing of a register.
fn every_flags_byte() -> Verdict {
    for flags in 0..=255 {
        let wanted = match flags {
            0..32 => "finished 0\nG 0 1 0000000c\n",
            _ => "refused 1 at 0\n",
        };
        same(
            (flags, prints(&with_flags(flags))),
            (flags, wanted.to_string()),
        )?;
    }
    Ok(())
}

/// Generated jobs, whatever their number is: with such a bit it is 1 at 0.
fn high_bits_first() -> Verdict {
    let mut rng = Rng(6);
    for n in 0..200 {
        let mut job = job(&mut rng);
        if job.len() > HEADER + 1 {
            job[HEADER + 1] |= [32, 64, 128][n % 3];
        }
        same((n, precheck(&job)), (n, Refusal::Shape.at(0)))?;
    }
    Ok(())
}

/// The start record has them off; other bits put a record out of range.
fn switches_of_a_record() -> Verdict {
    let start = Control::start();
    same(
        (start.flags, SRC.map(|file| start.keeps(file))),
        (0, [false; 2]),
    )?;
    for flags in 0..=255 {
        let record = record_of(TF32, flags);
        let told = (
            record.in_range(),
            refusal(record.clone(), CLREXPHIST.word(&[])),
        );
        let wanted = match flags {
            0..32 => (true, None),
            _ => (false, Some(Refusal::Shape)),
        };
        same((flags, told), (flags, wanted))?;
        let bytes = settings_bytes(&record);
        same((bytes[0], bytes[1]), (TF32, flags))?;
        same(settings(&bytes).flags, flags)?;
        let keeps = SRC.map(|file| record.keeps(file));
        same((flags, keeps), (flags, SRC.map(|file| on(flags, file))))?;
    }
    Ok(())
}

/// Under all formats and the three other flags: a multiply's answer, and Dst's rows.
fn mode_reads_no_switch() -> Verdict {
    for format in 0..FORMATS {
        for kind in 0..8 {
            let told = |switches: u8| {
                let record = record_of(format, kind | switches);
                let rows = record.width().rows();
                (rows, refusal(record, MVMUL.word(&[])))
            };
            let halves = format == BF16 && kind == 0;
            let modelled = halves || kind == FP32 && (format == BF16 || format == TF32);
            let rows = if halves { 1024 } else { 512 };
            let wanted = (rows, (!modelled).then_some(Refusal::Unmodelled));
            for switches in SWITCHES {
                let place = (format, kind, switches);
                same((place, told(switches)), (place, wanted))?;
            }
        }
    }
    Ok(())
}

/// The three multiplies, the six legacy instructions and SETRWC.
fn clearing() -> impl Iterator<Item = &'static Entry> {
    let entries = TABLE.iter().copied();
    entries.filter(|entry| entry.find(Name::Clear).is_some())
}

/// Records with all switches, matrix pointers and owners.
fn records() -> Vec<Control> {
    let owner = |bit: usize| [Owner::Unpackers, Owner::Matrix][bit % 2];
    let record = |n: usize| Control {
        matrix: [n as u8 % 2, n as u8 / 2 % 2],
        owner: [[owner(n / 4), owner(n / 8)], [owner(n / 16), owner(n / 32)]],
        ..record_of(TF32, FP32 | SWITCHES[n / 64])
    };
    (0..256).map(record).collect()
}

/// Every clear of every instruction on such records: the cleared file's pointer moves, and its old
/// bank becomes the unpackers' where the switch is off. All else is as an instruction without a clear
/// leaves it. Those that need banks are refused without them, switch or not.
fn each_clear() -> Verdict {
    same(clearing().count(), 10)?;
    let mut state = State::zero();
    for entry in clearing() {
        for (n, before) in records().into_iter().enumerate() {
            for clear in 0..4 {
                let [mut record, mut wanted] = [before.clone(), before.clone()];
                let word = entry.word(&[(Name::Clear, clear)]);
                let refusal = step(&mut record, 1, word, &mut state);
                let has = |file: usize| before.owner[file][before.matrix_bank(file)];
                let banks = SRC.map(has) == [Owner::Matrix; 2];
                if entry.class != Class::SetRwc && !banks {
                    let told = (refusal, record == before);
                    same(
                        (word, n, told),
                        (word, n, (Some(Refusal::OtherOwner), true)),
                    )?;
                    continue;
                }
                for file in SRC.into_iter().filter(|file| (clear >> file) & 1 == 1) {
                    let bank = before.matrix_bank(file);
                    wanted.matrix[file] = 1 - before.matrix[file];
                    if !on(before.flags, file) {
                        wanted.owner[file][bank] = Owner::Unpackers;
                    }
                }
                same((word, n, refusal), (word, n, None))?;
                same((word, n, record), (word, n, wanted))?;
            }
        }
    }
    Ok(())
}

/// The same of the marks, of which all are set, or every third of a bank.
fn each_clears_marks() -> Verdict {
    for entry in clearing() {
        for (n, before) in records().into_iter().enumerate() {
            for clear in 0..4 {
                let word = entry.word(&[(Name::Clear, clear)]);
                let mut marks = Marks::start();
                for (at, mark) in marks.src.iter_mut().flatten().flatten().enumerate() {
                    *mark = n % 2 == 0 || at % 3 == 0;
                }
                let mut wanted = marks.clone();
                for file in SRC.into_iter().filter(|file| (clear >> file) & 1 == 1) {
                    if !on(before.flags, file) {
                        wanted.src[file][before.matrix_bank(file)] = [false; SRC_ROWS];
                    }
                }
                let field = Field::Issue { thread: 0, word };
                follow(&mut before.clone(), &mut marks, &field);
                same((word, n, marks == wanted), (word, n, true))?;
            }
        }
    }
    Ok(())
}

/// A step of any other entry leaves record and numbers the same under all switches, the flags apart;
/// ZEROSRC and SHIFTXA set their marks.
fn others_read_none() -> Verdict {
    let word = |entry: &Entry| {
        let modes = entry.find(Name::Mode);
        let mode = modes.map(|bits| (Name::Mode, bits.defined.0));
        entry.word(&mode.into_iter().collect::<Vec<(Name, u32)>>())
    };
    let clears = |entry: &Entry| entry.find(Name::Clear).is_some();
    for entry in TABLE.iter().filter(|entry| !clears(entry)) {
        let after = |switches: u8| {
            let (mut record, mut state) = (record_of(TF32, FP32 | switches), places());
            let refusal = step(&mut record, 0, word(entry), &mut state);
            let flags = std::mem::replace(&mut record.flags, 0);
            (refusal, flags == FP32 | switches, record, state)
        };
        for switches in SWITCHES {
            let same_as_off = after(switches) == after(0) && after(switches).1;
            same(
                (entry.name, switches, same_as_off),
                (entry.name, switches, true),
            )?;
        }
    }
    let (mut record, mut marks) = (record_of(TF32, FP32 | 24), Marks::start());
    let both = [(Name::BothBanks, 1), (Name::FileB, 1)];
    for word in [ZEROSRC.word(&both), SHIFTXA.word(&[(Name::Mode, 2)])] {
        follow(&mut record, &mut marks, &Field::Issue { thread: 0, word });
    }
    let set = |file: usize, bank: usize| {
        let marks = marks.src[file][bank].iter();
        marks.filter(|mark| **mark).count()
    };
    let sets = SRC.map(|file| [0, 1].map(|bank| set(file, bank)));
    same(sets, [[16, 0], [SRC_ROWS; BANKS]])
}

/// Does a job clear a file?
fn clears(job: &[u8], file: usize) -> bool {
    let mut words = fields(job).filter_map(|(_, field)| match field {
        Field::Issue { word, .. } => Instruction::of(word),
        _ => None,
    });
    words.any(|it| it.clears(file))
}

/// Generated jobs: a file's switch changes nothing where the job never clears it; where it does, it
/// sometimes does.
fn shows_in_clears_alone() -> Verdict {
    let (mut rng, mut shown, mut without) = (Rng(66), [0; 2], [0; 2]);
    for n in 0..1500 {
        let job = job(&mut rng);
        // Too short, too long, or no settings first: all such jobs are refused for it.
        if job.len() <= HEADER + 1 || job.len() > JOB_BYTES || job[0] != 1 {
            continue;
        }
        for file in SRC {
            let mut turned = job.clone();
            turned[HEADER + 1] ^= 8 << file;
            let differs = precheck(&job) != precheck(&turned);
            if !clears(&job, file) {
                same((n, file, differs), (n, file, false))?;
                without[file] += 1;
            }
            shown[file] += usize::from(differs);
        }
    }
    let many = [A, B].map(|file| (shown[file] > 20, without[file] > 100));
    same(many, [(true, true); 2])
}
