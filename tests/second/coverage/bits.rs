//! Words with an unnamed bit or an unknown opcode, in refused jobs and in single steps.

use super::table::{Group, Table, Test};
use crate::engine::{
    judge, named, step, Control, Entry, Field, Instruction, Marks, Placed, Refusal, State, Tag,
    BELOW_OPCODE, TABLE, THREADS,
};
use crate::generate::records::record;
use crate::generate::rng::Rng;
use crate::generate::words::word;

/// Those of jobs, and of single steps.
pub const LOWEST: [Group; 2] = [Group::UnnamedBit, Group::UnnamedBitStep];
pub const UNKNOWN: [Group; 2] = [Group::UnknownOpcode, Group::UnknownOpcodeStep];
const JOB: usize = 0;
const STEP: usize = 1;

named! {
    /// Where a word stands among a job's issue fields.
    pub enum Place {
        Only = "in the only issue field",
        First = "in the first issue field",
        Between = "in an issue field between",
        Last = "in the last issue field",
    }
}

fn lowest_row(entry: &Entry, bit: u8) -> String {
    format!("{} bit {bit}", entry.name)
}

/// Each entry with each bit that can be its lowest unnamed one.
pub fn lowest_rows() -> Vec<String> {
    let of = |entry: &'static Entry| entry.unnamed().map(move |bit| lowest_row(entry, bit));
    TABLE.iter().copied().flat_map(of).collect()
}

pub fn thread_row(thread: usize) -> String {
    format!("on thread {thread}")
}

/// What a field would be answered without its unnamed bits.
pub fn otherwise_row(number: Option<u8>) -> String {
    match number {
        Some(number) => format!("otherwise refused {number}"),
        None => "otherwise right".to_string(),
    }
}

/// What else a word has beside its lowest unnamed bit.
pub fn beside(it: Instruction, bit: u8) -> [Test; 8] {
    let from = u32::MAX << bit;
    let (named, unnamed) = (it.entry.named & BELOW_OPCODE, !it.entry.named);
    let count = (it.word & unnamed).count_ones();
    let undefined = it.entry.mode.filter(|mode| !mode.defines(it.mode()));
    let above = undefined.map(|mode| mode.put(0, 1) > 1 << bit);
    [
        ("no other unnamed bit", count == 1),
        ("one more above it", count == 2),
        ("two or more above it", count > 2),
        (
            "all above it",
            count > 1 && it.word & unnamed == unnamed & from,
        ),
        ("no named bit", it.word & named == 0),
        ("a named bit below it", it.word & named & !from != 0),
        ("an undefined mode above it", above == Some(true)),
        ("an undefined mode below it", above == Some(false)),
    ]
}

/// The bits of a word whose opcode is unknown.
pub fn unknown(word: u32) -> [Test; 3] {
    let bits = word & BELOW_OPCODE;
    let (none, all) = (bits == 0, bits == BELOW_OPCODE);
    [
        ("no bit is 1", none),
        ("all bits are 1", all),
        ("some bits are 1", !none && !all),
    ]
}

/// A field of a job that is refused with 2 or 3.
pub fn count(
    table: &mut Table,
    control: &Control,
    marks: &Marks,
    fields: &[Placed],
    (place, field): &Placed,
) {
    let Field::Issue { thread, word } = *field else {
        unreachable!("only an issue field has a word");
    };
    count_word(table, JOB, word);
    let Some((it, bit)) = unnamed(word) else {
        return;
    };
    table.hit(Group::BesideUnnamed, place_of(fields, *place).text());
    table.hit(Group::BesideUnnamed, thread_row(thread));
    let word = word & it.entry.named;
    let otherwise = judge(control, marks, &Field::Issue { thread, word });
    let row = otherwise_row(otherwise.map(Refusal::number));
    table.hit(Group::BesideUnnamed, row);
    table.hit_tests(Group::BesideUnnamed, beside(it, bit));
}

/// An instruction with its lowest unnamed bit, where it has one.
fn unnamed(word: u32) -> Option<(Instruction, u8)> {
    let it = Instruction::of(word)?;
    Some((it, it.offending()?))
}

fn count_word(table: &mut Table, of: usize, word: u32) {
    match unnamed(word) {
        Some((it, bit)) => table.hit(LOWEST[of], lowest_row(it.entry, bit)),
        None => table.hit_tests(UNKNOWN[of], unknown(word)),
    }
}

fn place_of(fields: &[Placed], place: usize) -> Place {
    let issues = fields.iter().filter(|(_, field)| field.tag() == Tag::Issue);
    let issues: Vec<usize> = issues.map(|(at, _)| *at).collect();
    match (
        issues.first() == Some(&place),
        issues.last() == Some(&place),
    ) {
        (true, true) => Place::Only,
        (true, false) => Place::First,
        (false, true) => Place::Last,
        (false, false) => Place::Between,
    }
}

/// A generated single step, where it is refused with 2 or 3.
pub fn count_step(table: &mut Table, rng: &mut Rng) {
    let (mut control, thread, word) = (record(rng), rng.index(THREADS), word(rng));
    let refusal = step(&mut control, thread, word, &mut State::zero());
    if let Some(Refusal::UnknownOpcode | Refusal::UnnamedBit { .. }) = refusal {
        count_word(table, STEP, word);
    }
}
