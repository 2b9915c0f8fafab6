//! How jobs are spoiled.

use super::builder::{load_register, rows};
use super::edges::to_edge;
use super::numbers::dst_number;
use super::raw::{first_output, is, raw_width};
use super::rng::Rng;
use super::words::{
    any_bits, bad_word, compose, pick_entry, pick_multiply, pick_needy, pick_scalar, pick_where,
    with_unnamed,
};
use crate::engine::{
    number, raw, rows_of, write, Class, Entry, Field, Instruction, Name, Tag, Width, A, B, BF16, D,
    DST_ROWS, FIELD_ROWS, FLAGS, FORMATS, FP16A, FP32, HEADER, INT8, ISSUE_HEAD, KEEP, LOAD_HEAD,
    REGISTERS, ROW_BYTES, SETTINGS_BYTES, TF32, THREADS,
};

/// The bytes of a settings field, and where it has its format and its flags.
const SETTINGS: usize = HEADER + SETTINGS_BYTES;
const FORMAT_AT: usize = HEADER;
const FLAGS_AT: usize = HEADER + 1;
/// Where an issue field has its word.
const WORD_AT: usize = HEADER + ISSUE_HEAD;
/// What of a row number's second byte moves it by 512.
const HALF_BIT: u8 = (DST_ROWS >> 8) as u8;

/// The instruction of an issue field.
fn instruction(field: &[u8]) -> Option<Instruction> {
    let word = field.get(WORD_AT..WORD_AT + 4).map(number);
    let word = word.filter(|_| is(field, Tag::Issue));
    word.and_then(Instruction::of)
}

/// A job's fields, and what each kind of damage may use of it.
struct Damage<'a> {
    rng: &'a mut Rng,
    fields: &'a mut Vec<Vec<u8>>,
    width: Width,
    outputs: usize,
    /// Where a field can be put in between settings and outputs.
    middle: usize,
    thread: usize,
    file: usize,
    /// Any field.
    any: usize,
}

/// Spoils a job in one way.
pub fn damage(rng: &mut Rng, fields: &mut Vec<Vec<u8>>) {
    let outputs = first_output(fields);
    let middle = (1 + rng.index(outputs.max(1))).min(fields.len());
    let thread = rng.index(THREADS);
    let file = rng.index(2);
    let any = rng.index(fields.len());
    let width = raw_width(fields);
    let mut it = Damage {
        rng,
        fields,
        width,
        outputs,
        middle,
        thread,
        file,
        any,
    };
    match it.rng.below(50) {
        0..=3 | 24 | 25 | 30 | 31 | 34..=40 | 48 | 49 => it.breaks_a_word_rule(),
        41..=43 => it.turns_unnamed_bits_on(),
        4 | 5 => it.multiplies_unmodelled(),
        6 => it.leaves_out(&[Tag::HandOver]),
        7 => it.hands_over_twice(),
        8 | 9 => it.needs_a_bank(),
        10 | 11 => it.moves_a_multiply(),
        12 => it.leaves_out(&[Tag::LoadRows, Tag::LoadRegister, Tag::ZeroRows]),
        13 => it.reads_unset(),
        14 => it.puts_out_anything(),
        15 => it.issues_any_bits(),
        16 => it.puts_out_of_place(),
        17..=20 => to_edge(it.rng, it.fields),
        21 => it.changes_a_length(),
        22 => it.changes_a_tag(),
        26 => it.loads_a_wide_number(),
        27 | 28 => it.changes_the_width(),
        29 => it.names_the_other_half(),
        32 | 33 => it.leaves_another_row(),
        // The same fields with a switch the other way, or both; a bit that is no flag.
        44..=46 => it.turn(FLAGS_AT, &[KEEP[A], KEEP[B], KEEP[A] | KEEP[B]]),
        47 => it.turn(FLAGS_AT, &[32, 64, 128, 224, 32 | KEEP[A], 128 | KEEP[B]]),
        _ => it.loads_a_whole_file(),
    }
}

impl Damage<'_> {
    fn insert(&mut self, at: usize, field: &Field) {
        self.fields.insert(at, write(field));
    }

    fn push(&mut self, field: &Field) {
        self.fields.push(write(field));
    }

    fn issue(&mut self, at: usize, word: u32) {
        let thread = self.thread;
        self.insert(at, &Field::Issue { thread, word });
    }

    fn issue_of(&mut self, at: usize, entry: &Entry) {
        let word = compose(self.rng, entry);
        self.issue(at, word);
    }

    /// The fields of which something holds.
    fn all_where(&self, holds: impl Fn(&[u8]) -> bool) -> Vec<usize> {
        let places = 0..self.fields.len();
        places.filter(|&n| holds(&self.fields[n])).collect()
    }

    /// One of them.
    fn pick_where(&mut self, holds: impl Fn(&[u8]) -> bool) -> Option<usize> {
        let found = self.all_where(holds);
        (!found.is_empty()).then(|| self.rng.pick(&found))
    }

    fn pick_of(&mut self, tags: &[Tag]) -> Option<usize> {
        self.pick_where(|field| tags.iter().any(|&tag| is(field, tag)))
    }

    /// One of the issue fields with an instruction of a class of which something holds.
    fn pick_issue(&mut self, holds: impl Fn(Class) -> bool) -> Option<usize> {
        self.pick_where(|field| instruction(field).is_some_and(|it| holds(it.entry.class)))
    }

    /// Before all other issue fields, after all of them or between.
    fn breaks_a_word_rule(&mut self) {
        let word = bad_word(self.rng);
        let places = [1, self.outputs, self.middle, self.middle];
        let place = self.rng.pick(&places).min(self.fields.len());
        self.issue(place, word);
    }

    /// In the word of the first issue field, of the last one or of any, but for ZEROSRC, which has no
    /// unnamed bit. A multiply's Dst rows sometimes move by 512 as well.
    fn turns_unnamed_bits_on(&mut self) {
        let has = |it: Instruction| it.entry.unnamed().next().is_some();
        let found = self.all_where(|field| instruction(field).is_some_and(has));
        let (Some(&first), Some(&last)) = (found.first(), found.last()) else {
            return;
        };
        let any = self.rng.pick(&found);
        let field = &mut self.fields[self.rng.pick(&[first, last, any])];
        if let Some(Instruction { entry, word }) = instruction(field) {
            let bits: Vec<u8> = entry.unnamed().collect();
            let lowest = self.rng.pick(&bits);
            let word = with_unnamed(self.rng, entry, word, lowest);
            field[WORD_AT..WORD_AT + 4].copy_from_slice(&word.to_le_bytes());
            if entry.class.is_multiply() && self.rng.one_in(3) {
                field[WORD_AT + 1] ^= HALF_BIT;
            }
        }
    }

    fn multiplies_unmodelled(&mut self) {
        let format = self.rng.under(FORMATS) as u8;
        let flags = self.rng.below(u32::from(FLAGS) + 1) as u8;
        let (at, value) = if self.rng.one_in(2) {
            (FORMAT_AT, format)
        } else {
            (FLAGS_AT, flags)
        };
        if let Some(byte) = self.fields[0].get_mut(at) {
            *byte = value;
        }
        if self.rng.one_in(2) {
            let entry = pick_multiply(self.rng);
            self.issue_of(self.middle, entry);
        }
    }

    /// A bank keeps its owner, or something stays unset.
    fn leaves_out(&mut self, tags: &[Tag]) {
        if let Some(n) = self.pick_of(tags) {
            self.fields.remove(n);
        }
    }

    fn hands_over_twice(&mut self) {
        let file = self.file;
        for _ in 0..2 {
            self.insert(self.middle, &Field::HandOver { file });
        }
        if self.rng.one_in(2) {
            let (first, rows) = (5, &rows(self.rng, self.width, file, 1));
            let load = Field::LoadRows { file, first, rows };
            self.insert(self.middle + 2, &load);
        }
    }

    fn needs_a_bank(&mut self) {
        let entry = pick_needy(self.rng);
        let position = if self.rng.one_in(2) { 1 } else { self.middle };
        self.issue_of(position.min(self.fields.len()), entry);
    }

    /// A multiply's Dst rows move by 512: past all rows, or to the other half of their lent rows.
    fn moves_a_multiply(&mut self) {
        if let Some(n) = self.pick_issue(Class::is_multiply) {
            // The dst field begins at bit 0.
            self.fields[n][WORD_AT + 1] ^= HALF_BIT;
        }
    }

    /// A legacy instruction right before a SHIFTXA, which then begins at the row left by it.
    fn leaves_another_row(&mut self) {
        if let Some(n) = self.pick_issue(|class| class == Class::ShiftXa) {
            let entry = pick_where(self.rng, |entry| entry.class == Class::Legacy);
            let word = compose(self.rng, entry);
            self.issue(n, entry.put(word, Name::Clear, 0));
        }
    }

    fn reads_unset(&mut self) {
        if self.rng.one_in(2) {
            let entry = pick_scalar(self.rng);
            self.issue_of(self.middle, entry);
        } else {
            let reads = |e: &Entry| e.class.needs_a_bank() && e.class != Class::Legacy;
            let entry = pick_where(self.rng, reads);
            self.issue_of(1, entry);
            self.insert(1, &Field::HandOver { file: A });
            self.insert(1, &Field::HandOver { file: B });
        }
    }

    fn puts_out_anything(&mut self) {
        let count = 1 + self.rng.index(FIELD_ROWS);
        let last = (self.width.rows() - count) as u32;
        let first = self.rng.within(0, last) as usize;
        let (thread, register) = (self.thread, self.rng.index(REGISTERS));
        if self.rng.one_in(2) {
            self.push(&Field::OutputRows { first, count });
        } else {
            self.push(&Field::OutputRegister { thread, register });
        }
    }

    fn issues_any_bits(&mut self) {
        let entry = pick_entry(self.rng);
        let word = any_bits(self.rng, entry);
        self.issue(self.middle, word);
    }

    fn puts_out_of_place(&mut self) {
        match self.rng.below(6) {
            0 => {
                let other = self.rng.index(self.fields.len());
                self.fields.swap(self.any, other);
            }
            1 => {
                let copy = self.fields[0].clone();
                let position = if self.rng.one_in(3) { 1 } else { self.middle };
                self.fields.insert(position.min(self.fields.len()), copy);
            }
            2 => {
                self.fields.remove(0);
            }
            3 => self.fields.truncate(self.outputs),
            4 => {
                let output = self.fields.pop().unwrap_or_default();
                self.fields
                    .insert(self.middle.min(self.fields.len()), output);
            }
            _ => {
                let copy = self.fields[self.rng.index(self.outputs.max(1))].clone();
                self.fields.push(copy);
            }
        }
    }

    /// Off by one or more, no row, a row too many.
    fn changes_a_length(&mut self) {
        match self.rng.below(4) {
            0 => {
                let told = &mut self.fields[self.any][1..HEADER];
                let length = number(told);
                let lengths = [length + 1, length.saturating_sub(1), 0, 0xFFFF];
                let length = self.rng.pick(&lengths) as u16;
                told.copy_from_slice(&length.to_le_bytes());
            }
            1 => {
                // The payload grows or shrinks with its length.
                let field = &mut self.fields[self.any];
                let mut payload = field[HEADER..].to_vec();
                if self.rng.one_in(2) {
                    payload.push(0);
                } else {
                    payload.pop();
                }
                *field = raw(field[0], &payload);
            }
            _ => {
                let count = self.rng.pick(&[0, FIELD_ROWS + 1]);
                let file = self.rng.pick(&[self.file, D]);
                self.fields.truncate(1);
                let (first, rows) = (0, &rows(self.rng, self.width, file, count));
                self.push(&Field::LoadRows { file, first, rows });
                self.push(&Field::OutputRegister {
                    thread: 0,
                    register: 0,
                });
            }
        }
    }

    fn changes_a_tag(&mut self) {
        let known: Vec<u8> = Tag::ALL.iter().map(|tag| tag.byte()).collect();
        let after = known.len() as u8 + 1;
        let tags = [&[0, after, after + 1, 255], &known[..]].concat();
        self.fields[self.any][0] = self.rng.pick(&tags);
    }

    /// A Dst number of more than 16 bits.
    fn loads_a_wide_number(&mut self) {
        let head = HEADER + LOAD_HEAD;
        let of_dst = |field: &[u8]| {
            is(field, Tag::LoadRows) && field.len() >= head + ROW_BYTES && field[HEADER] == D as u8
        };
        if let Some(n) = self.pick_where(of_dst) {
            let numbers = (self.fields[n].len() - head) / 4;
            let at = head + 4 * self.rng.index(numbers);
            let place = &mut self.fields[n][at..at + 4];
            let old = number(place);
            let number = match self.rng.below(3) {
                0 => old << 16 | 1 << 30,
                1 => old | 1 << (16 + self.rng.below(16)),
                _ => dst_number(self.rng, Width::Bits32),
            };
            place.copy_from_slice(&number.to_le_bytes());
        }
    }

    /// The same fields under the other width, or beside both.
    fn changes_the_width(&mut self) {
        match self.rng.below(3) {
            0 => self.turn(FORMAT_AT, &[BF16 ^ TF32]),
            _ => self.turn(FLAGS_AT, &[FP32, FP32, INT8, FP16A]),
        }
    }

    /// Turns one choice of bits in a byte of the settings.
    fn turn(&mut self, at: usize, choices: &[u8]) {
        let settings = self.fields.first_mut();
        if let Some(settings) = settings.filter(|field| field.len() == SETTINGS) {
            settings[at] ^= self.rng.pick(choices);
        }
    }

    fn names_the_other_half(&mut self) {
        let rows = [Tag::LoadRows, Tag::OutputRows, Tag::ZeroRows];
        let tags = self.rng.pick(&[&[Tag::OutputRows][..], &rows]);
        if let Some(n) = self.pick_of(tags) {
            let field = &mut self.fields[n];
            // A load names its file first.
            let first = HEADER + usize::from(is(field, Tag::LoadRows));
            if field.len() > HEADER + 2 {
                field[first + 1] ^= HALF_BIT;
            }
        }
    }

    /// All rows of a file that one load takes, or a load that ends at a file's last row.
    fn loads_a_whole_file(&mut self) {
        let file = self.rng.pick(&[A, B, D]);
        let count = self.rng.pick(&[FIELD_ROWS, FIELD_ROWS, 3]);
        let first = rows_of(file, self.width) - count;
        self.fields.truncate(1);
        let rows = &rows(self.rng, self.width, file, count);
        self.push(&Field::LoadRows { file, first, rows });
        let (thread, register) = (THREADS - 1, REGISTERS - 1);
        let load = load_register(self.rng, thread, register);
        self.push(&load);
        self.push(&Field::OutputRegister { thread, register });
        if file == D {
            self.push(&Field::OutputRows { first, count });
        }
    }
}

/// Damage that no longer sees fields.
pub fn damage_bytes(rng: &mut Rng, job: &mut Vec<u8>) {
    match rng.below(6) {
        0 => job.truncate(rng.index(job.len().max(1))),
        1 => job.truncate(job.len().saturating_sub(1 + rng.index(4))),
        2 => {
            let byte = if rng.one_in(2) { 0 } else { rng.word() as u8 };
            job.resize(job.len() + 1 + rng.index(6), byte);
        }
        3 => {
            let size = rng.pick(&[0, 1, 2, HEADER, SETTINGS]);
            job.truncate(size);
        }
        _ => {
            for _ in 0..1 + rng.index(3) {
                if !job.is_empty() {
                    let at = rng.index(job.len());
                    job[at] ^= 1 << rng.below(8);
                }
            }
        }
    }
}
