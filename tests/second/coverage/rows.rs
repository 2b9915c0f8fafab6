//! The rows that are counted.

use super::multiplies::{AFTER, BEFORE, DATUM, ROUNDING};
use super::table::{Group, Table};
use super::{bits, data, issues, kept, left, parts, passing, refused, skipped, Mode, MULTIPLY};
use crate::engine::{
    Class, Control, Entry, Field, Instruction, Name, Refusal, Scalar, Slot, Tag, Thread, What,
    Width, A, BANKS, BF16, BITWOPDMAREG, BLOCK, CLREXPHIST, CONV3S1, FILES, INCRWC, MVMUL, PHASES,
    SETRWC, SHIFTXB, SLOTS, SRC, SRC_ROWS, TABLE, TF32, THREADS, ZEROSRC,
};
use crate::explain::Reason;

/// The fields that name Dst rows.
const OF_ROWS: [Tag; 3] = [Tag::LoadRows, Tag::OutputRows, Tag::ZeroRows];

fn names(holds: impl Fn(&Entry) -> bool) -> Vec<&'static str> {
    let entries = TABLE.iter().filter(|entry| holds(entry));
    entries.map(|entry| entry.name).collect()
}

fn multiplies() -> Vec<&'static str> {
    names(|entry| entry.class.is_multiply())
}

/// A word with no field, for the names of its tests.
fn plain(entry: &'static Entry) -> Instruction {
    let word = entry.word(&[]);
    Instruction { entry, word }
}

pub fn table() -> Table {
    let mut table = Table::empty();
    enter_jobs(&mut table);
    enter_modes(&mut table);
    enter_bits(&mut table);
    enter_refusals(&mut table);
    enter_halves(&mut table);
    enter_multiplies(&mut table);
    enter_banks(&mut table);
    enter_classes(&mut table);
    enter_left(&mut table);
    enter_skipped(&mut table);
    enter_kept(&mut table);
    enter_data(&mut table);
    enter_ranges(&mut table);
    table
}

fn enter_jobs(table: &mut Table) {
    let modes = || Mode::ALL.iter().map(|mode| mode.text());
    table.enter(Group::Jobs, ["passing", "refused"]);
    table.enter(Group::PassingSettings, modes());
    table.enter(Group::RefusedSettings, modes());
    table.enter(Group::RefusalNumber, Refusal::OF_PRECHECK);
    table.enter(Group::Size, [passing::size_row(), refused::size_row()]);
    let reasons = Reason::ALL.iter().map(|reason| reason.text());
    table.enter(Group::WrongShape, reasons);
    table.enter(Group::PassingField, Tag::ALL.iter().map(|tag| tag.text()));
    table.enter(Group::IssueThread, 0..THREADS);
    table.enter(Group::PassingOpcode, names(|_| true));
}

fn enter_modes(table: &mut Table) {
    for entry in TABLE {
        let Some(bits) = entry.find(Name::Mode) else {
            continue;
        };
        let (name, count) = (entry.name, bits.count());
        let (low, high) = bits.defined;
        let defined = (low..=high).map(|mode| format!("{name} {mode}"));
        table.enter(Group::PassingMode, defined);
        // All bits at once give a row for each bit, where there are such rows.
        let all = (1 << count) - 1;
        let modes = if count > 3 { all..=all } else { 0..=all };
        for mode in modes.filter(|&mode| !bits.defines(mode)) {
            table.enter(Group::UndefinedMode, refused::mode_rows(name, count, mode));
        }
    }
}

/// Words with an unknown opcode or an unnamed bit.
fn enter_bits(table: &mut Table) {
    for group in bits::UNKNOWN {
        table.enter_tests(group, bits::unknown(0));
    }
    for group in bits::LOWEST {
        table.enter(group, bits::lowest_rows());
    }
    let group = Group::BesideUnnamed;
    table.enter_tests(group, bits::beside(plain(&CLREXPHIST), 0));
    table.enter(group, bits::Place::ALL.iter().map(|place| place.text()));
    table.enter(group, (0..THREADS).map(bits::thread_row));
    let numbers = [None, Some(4), Some(5), Some(6), Some(7), Some(8)];
    table.enter(group, numbers.map(bits::otherwise_row));
}

fn enter_refusals(table: &mut Table) {
    table.enter(Group::Unmodelled, multiplies());
    table.enter_tests(Group::Unmodelled, refused::unmodelled(&Control::start()));
    table.enter(Group::OtherOwner, names(|entry| entry.class.needs_a_bank()));
    for tag in [Tag::LoadRows, Tag::HandOver] {
        let rows = SRC.map(|file| refused::owner_row(tag, file));
        table.enter(Group::OtherOwner, rows);
    }
    table.enter(Group::DstRow, multiplies());
    let unset = refused::Unset::ALL.iter().map(|unset| unset.text());
    table.enter(Group::Unset, unset);
}

fn enter_halves(table: &mut Table) {
    table.enter(Group::UnsetHalf, [MULTIPLY, Tag::OutputRows.text()]);
    for tag in OF_ROWS.map(Tag::text) {
        let places = passing::Place::ALL.iter().map(|place| place.text());
        table.enter(
            Group::HalfRows,
            places.map(|place| format!("{tag} {place}")),
        );
        let modes = [Mode::Fp32, Mode::Neither].map(Mode::text);
        table.enter(
            Group::RightWith16,
            modes.map(|mode| format!("{mode}, {tag}")),
        );
    }
    table.enter(Group::RightWith32, [Tag::LoadRows.text()]);
    for name in multiplies() {
        let halves = ["low", "high"].map(|half| format!("{name} into {half} halves"));
        table.enter(Group::HalfMultiply, halves);
    }
    table.enter(Group::HalfMultiply, ["into the last rows"]);
    let written = [Tag::LoadRows.text(), Tag::ZeroRows.text(), MULTIPLY];
    table.enter(Group::WrittenHalf, written);
    let neither = passing::neither_tests(&Field::HandOver { file: A });
    table.enter_tests(Group::NeitherMode, neither);
}

fn enter_multiplies(table: &mut Table) {
    table.enter(Group::MultiplyFormat, [BF16, TF32]);
    for name in multiplies() {
        let phases = (0..PHASES).map(|phase| format!("{name} {phase}"));
        table.enter(Group::MultiplyPhase, phases);
        let clears = (0..4).map(|clear| format!("{name} {clear}"));
        table.enter(Group::MultiplyClear, clears);
    }
}

fn enter_banks(table: &mut Table) {
    for file in SRC.map(|file| FILES[file]) {
        let banks = || (0..BANKS).map(|bank| format!("{file} {bank}"));
        table.enter(Group::MultiplyBank, banks());
        table.enter(Group::LoadBank, banks());
        table.enter(Group::ClearedEarly, [file]);
        let rows = [format!("{file} 0"), format!("{file} other")];
        table.enter(Group::MultiplyRow, rows);
    }
}

fn enter_classes(table: &mut Table) {
    table.enter(Group::LegacyClear, 0..4);
    table.enter(Group::SetrwcClear, 0..4);
    table.enter(Group::SetrwcWhich, 0..16);
    let (thread, slot) = (Thread::default(), Slot::default());
    table.enter(Group::SlotUsed, 0..SLOTS);
    table.enter_tests(Group::SlotFlag, issues::slot_flags(&slot));
    table.enter_tests(Group::SlotWraps, issues::slot_wraps(&thread, &slot));
    let wraps = issues::counter_wraps(&thread, plain(&INCRWC));
    table.enter_tests(Group::IncrwcWraps, wraps);
    table.enter(Group::ZerosrcFiles, 0..4);
    let zerosrc = issues::zerosrc(&Control::start(), plain(&ZEROSRC));
    table.enter_tests(Group::Zerosrc, zerosrc);
    table.enter(Group::ShiftxaLast, (0..SRC_ROWS).step_by(BLOCK));
    table.enter_tests(Group::Shiftxb, issues::shiftxb(&thread, plain(&SHIFTXB)));
    let scalar = issues::scalar_b(Scalar::Bitwise, plain(&BITWOPDMAREG), 0);
    table.enter_tests(Group::ScalarB, scalar);
    table.enter(Group::ScalarCompare, 0..2);
}

/// Passing and refused SHIFTXAs after legacy instructions.
fn enter_left(table: &mut Table) {
    for group in left::GROUPS {
        let rows = (0..SRC_ROWS).step_by(BLOCK);
        table.enter(group, rows.map(left::first_row));
        table.enter(group, names(|entry| entry.class == Class::Legacy));
        let left = left::Left::default();
        table.enter_tests(group, left::tests(&left, 0, false, false));
    }
    let sets = |class: Class| class.is_multiply() || class == Class::Legacy;
    table.enter(Group::BetweenLegacy, names(|entry| !sets(entry.class)));
}

/// Instructions that are done or refused only by the one before them.
fn enter_skipped(table: &mut Table) {
    table.enter(
        Group::DoneByClear,
        names(|entry| entry.class.needs_a_bank()),
    );
    let clears = names(|entry| entry.find(Name::Clear).is_some());
    table.enter(Group::RefusedByClear, clears);
    let group = Group::DoneByCounter;
    table.enter(group, [skipped::NOT_FROM_0]);
    let own = [Class::SetRwc, Class::IncRwc];
    let moves = names(|entry| entry.slot.is_some() || own.contains(&entry.class));
    table.enter(group, moves.into_iter().map(skipped::moved_by));
    table.enter(group, multiplies().into_iter().map(skipped::then));
    let kinds = [&SHIFTXB, &SETRWC, &INCRWC].map(skipped::kind);
    table.enter(Group::RefusedByCounter, kinds);
}

/// Banks that a switch keeps.
fn enter_kept(table: &mut Table) {
    for group in [Group::PassingSwitches, Group::RefusedSwitches] {
        table.enter(group, kept::switches_rows());
    }
    let moved = [Tag::LoadRows, Tag::HandOver].map(Tag::text);
    for file in SRC {
        let of_file = |name: &str| kept::of_file(name, file);
        let needing = names(|entry| entry.class.needs(file));
        let in_kept = [&needing[..], &moved, &[ZEROSRC.name]].concat();
        table.enter(Group::InKept, in_kept.into_iter().map(of_file));
        let modes = [Mode::Fp32, Mode::Halves].map(|mode| kept::under_row(mode, file));
        table.enter(Group::InKept, modes);
        table.enter(Group::RefusedBySwitch, moved.map(of_file));
        table.enter(
            Group::BehindKept,
            [6, 8].map(|number| kept::behind_row(number, file)),
        );
        let clearing = [&MVMUL, &CONV3S1, &SETRWC].map(kept::clearing);
        table.enter(Group::ClearKept, clearing.map(of_file));
        table.enter(Group::ClearKept, [of_file(kept::OF_UNPACKERS)]);
    }
    let both = kept::both_cleared(&Control::start());
    table.enter_tests(Group::ClearKept, both);
    for entry in TABLE.iter().filter(|entry| entry.class.needs_a_bank()) {
        let reads = entry.class != Class::Legacy;
        let numbers = [Some(6), reads.then_some(8)].into_iter().flatten();
        let rows = numbers.map(|number| kept::otherwise_row(entry.name, number));
        table.enter(Group::DoneBySwitch, rows);
    }
    table.enter_tests(Group::HighFlags, kept::high_flags(0));
}

fn enter_data(table: &mut Table) {
    for group in DATUM {
        table.enter_tests(group, data::src(0, 0, 0.0, false));
    }
    for width in Width::ALL {
        for group in parts::GROUPS[width as usize] {
            table.enter_tests(group, parts::tests(width, A, 0, 0, &[], false));
        }
        table.enter_tests(BEFORE[width as usize], data::before(width, 0));
        table.enter_tests(AFTER[width as usize], data::after(width, 0, 0));
    }
    for group in ROUNDING {
        table.enter_tests(group, data::rounding(0.0, 0.0, 0.0, 0));
    }
}

fn enter_ranges(table: &mut Table) {
    let (dst, others): (Vec<What>, Vec<What>) = What::ALL.iter().partition(|w| w.is_of_dst());
    let mut rows: Vec<String> = others.iter().map(|what| what.text().to_string()).collect();
    for width in Width::ALL {
        // 32 bits hold no value past the highest.
        let ranged = |what: &&What| width == Width::Bits16 || **what != What::DstValue;
        rows.extend(dst.iter().filter(ranged).map(|what| what.under(width)));
    }
    for group in [Group::RangeLow, Group::RangeHigh, Group::PastHigh] {
        table.enter(group, &rows);
    }
    let counts = rows.iter().filter(|row| row.starts_with("count"));
    table.enter(Group::PastLow, counts);
    table.enter_tests(Group::LoadRows, passing::load_tests(0));
    table.enter_tests(Group::LoadRows, refused::load_tests(0));
}
