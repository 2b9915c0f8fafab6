//! Jobs that pass, but for what a wild one dares.

use super::builder::{rows, Builder, Done};
use super::halfway::Halfway;
use super::records::settings;
use super::rng::Rng;
use super::words::{
    bad_word, compose, pick_entry, pick_multiply, pick_needy, pick_scalar, pick_where,
};
use crate::engine::{
    all_set, row_bytes, settings_bytes, Class, Entry, Field, Instruction, Name, Width, A, B, BLOCK,
    CONSTANT, D, DST_COUNTS, DST_ROWS, FIELD_ROWS, INCRWC, JOB_BYTES, REGISTERS, REGISTER_A,
    REGISTER_B, RESULT, SETRWC, SHIFTXA, SHIFTXB, SRC_ROWS, TF32, THREADS,
};

/// Room kept for the outputs at a job's end.
const RESERVE: usize = 64;

impl Builder<'_> {
    /// Are there halves, and are the rows on both sides of their border set?
    fn border_is_set(&self) -> bool {
        let border = &self.marks.dst[DST_ROWS - 1..DST_ROWS + 1];
        self.width() == Width::Bits16 && all_set(border)
    }

    /// The first of so many Dst rows: often at an end, of 16-bit rows often across the halves.
    fn dst_first(&mut self, count: usize) -> usize {
        let last = self.width().rows() - count;
        let (low, high) = if last >= DST_ROWS && count > 1 && self.rng.one_in(3) {
            ((DST_ROWS + 1).saturating_sub(count), DST_ROWS - 1)
        } else {
            (0, last)
        };
        self.rng.within(low as u32, high as u32) as usize
    }

    /// The dst field below 1,024 that leads to a sum.
    pub fn dst_for(&self, thread: usize, sum: u32) -> u32 {
        sum.wrapping_sub(self.control.dst_sum(thread, 0)) % u32::from(DST_COUNTS)
    }

    /// A word that needs a bank; a multiply's dst field often leads to a row that is set.
    fn unprepared_word(&mut self, thread: usize) -> u32 {
        let entry = pick_needy(self.rng);
        let word = compose(self.rng, entry);
        let rows = self.set_rows();
        if !entry.class.is_multiply() || rows.is_empty() {
            return word;
        }
        // A row that is set, or the one 512 away: past all rows, or the other half.
        let row = self.rng.pick(&rows) ^ self.rng.pick(&[0, 0, 0, DST_ROWS]);
        entry.put(word, Name::Dst, self.dst_for(thread, row as u32))
    }

    /// A field with nothing made ready for it: it passes by luck, or stands as the refused one.
    fn unprepared(&mut self) -> Done {
        let thread = self.thread();
        let file = self.rng.index(2);
        let word = match self.rng.below(12) {
            0 => return self.dare(&Field::HandOver { file }),
            1 => {
                let (first, rows) = (16, &rows(self.rng, self.width(), file, 1));
                return self.dare(&Field::LoadRows { file, first, rows });
            }
            2 => SETRWC.word(&[(Name::Clear, self.rng.below(4))]),
            3..=6 => self.unprepared_word(thread),
            7 | 8 => bad_word(self.rng),
            _ => {
                let entry = pick_entry(self.rng);
                compose(self.rng, entry)
            }
        };
        self.dare(&Field::Issue { thread, word })
    }

    /// A multiply, where it is modelled.
    pub fn modelled_multiply(&mut self) -> Option<&'static Entry> {
        let entry = pick_multiply(self.rng);
        self.control.modelled().then_some(entry)
    }

    /// Counters set or moved, no bank given back.
    pub fn move_counters(&mut self, thread: usize) -> Done {
        let entry = self.rng.pick(&[&SETRWC, &INCRWC]);
        let mut word = compose(self.rng, entry);
        if entry.class == Class::SetRwc {
            word = entry.put(word, Name::Clear, 0);
        }
        self.issue(thread, word)
    }

    fn multiply(&mut self) -> Done {
        let thread = self.thread();
        if self.rng.one_in(3) {
            self.move_counters(thread)?;
        } else {
            self.reach_kept_rows(thread)?;
        }
        let entry = self.modelled_multiply()?;
        // More often under format 6: it keeps the lowest digits, which are subnormal the longest.
        let tiny = if self.control.format == TF32 { 3 } else { 7 };
        if self.rng.one_in(tiny) {
            return self.multiply_tiny(entry);
        }
        if self.rng.one_in(8) {
            self.shift_first(thread, A, BLOCK)?;
        } else {
            self.ready(A, self.control.a_row(thread), BLOCK)?;
        }
        self.multiply_by_a(thread, entry)
    }

    /// A multiply by SrcA's rows as they stand.
    pub fn multiply_by_a(&mut self, thread: usize, entry: &'static Entry) -> Done {
        let count = entry.class.dst_rows(0)?.len();
        self.ready(B, self.control.b_row(thread), count)?;
        if self.rng.one_in(8) {
            self.shift_first(thread, B, count)?;
        }
        let sum = self.aim();
        let rows = entry.class.dst_rows(sum)?;
        let (first, unset) = (rows.start, !all_set(&self.marks.dst[rows]));
        if unset || self.rng.one_in(6) {
            if self.rng.one_in(3) {
                self.push(&Field::ZeroRows { first, count })?;
            } else {
                self.load_dst(first, count)?;
            }
        }
        self.multiply_into(thread, entry, sum)
    }

    /// A sum of base, offset, counter and dst field that leads inside Dst; of 16-bit rows now and
    /// then to the other half of rows written before.
    pub fn aim(&mut self) -> u32 {
        let rows = self.width().rows() as u32;
        let halves = self.width() == Width::Bits16;
        if halves && !self.written_rows.is_empty() && self.rng.one_in(3) {
            (self.rng.pick(&self.written_rows) ^ DST_ROWS) as u32
        } else {
            self.rng.under(rows)
        }
    }

    /// A multiply with the dst field that leads to a sum, all its 14 bits in use.
    pub fn multiply_into(&mut self, thread: usize, entry: &'static Entry, sum: u32) -> Done {
        let dst = self.dst_for(thread, sum) + u32::from(DST_COUNTS) * self.rng.below(16);
        let word = entry.put(compose(self.rng, entry), Name::Dst, dst);
        self.issue(thread, word)?;
        self.written_rows.extend(entry.class.dst_rows(sum)?);
        // The same once more, as the clear and slot before it left the record.
        if self.rng.one_in(3) {
            self.issue(thread, word)?;
        }
        Some(())
    }

    /// A multiply's rows of both files, loaded and handed over.
    pub fn load_both(&mut self, thread: usize, a: &[u32], b: &[u32]) -> Done {
        self.load_src_numbers(A, self.control.a_row(thread), a)?;
        self.pass_on(A)?;
        self.load_src_numbers(B, self.control.b_row(thread), b)?;
        self.pass_on(B)
    }

    /// A multiply on the edge of both roundings.
    fn halfway(&mut self) -> Done {
        let thread = self.focus;
        let entry = self.modelled_multiply()?;
        let count = entry.class.dst_rows(0)?.len();
        let phase = self.control.phase(thread);
        let rows = Halfway::new(self.rng, self.control.width(), phase, count);
        self.load_both(thread, &rows.a, &rows.b)?;
        let sum = self.aim();
        self.push(&Field::LoadRows {
            file: D,
            first: entry.class.dst_rows(sum)?.start,
            rows: &row_bytes(&rows.old),
        })?;
        self.multiply_into(thread, entry, sum)
    }

    /// Counters on the move by slots alone; the multiply after it shows where they went.
    fn walk(&mut self) -> Done {
        self.own_both()?;
        for _ in 0..2 + self.rng.index(6) {
            let entry = self.legacy();
            let word = compose(self.rng, entry);
            self.issue(self.focus, entry.put(word, Name::Clear, 0))?;
        }
        self.multiply()
    }

    /// Both banks of both files full before the first is used.
    fn both_banks(&mut self) -> Done {
        let thread = self.focus;
        for _ in 0..2 {
            self.load_src(A, self.control.a_row(thread), BLOCK)?;
            self.hand_over(A)?;
            self.load_src(B, self.control.b_row(thread), 8)?;
            self.hand_over(B)?;
        }
        for _ in 0..3 {
            self.multiply()?;
        }
        Some(())
    }

    /// A bank that clear gave back, or kept, handed over again with no load, and a read of its rows,
    /// set before: by a load that was handed over, or by one in a bank still the unpackers'.
    fn stale(&mut self) -> Done {
        let (file, thread) = (self.rng.index(2), self.thread());
        let entry = [&SHIFTXA, &SHIFTXB][file];
        let word = compose(self.rng, entry);
        let it = Instruction { entry, word };
        let (first, count) = match file {
            A => (self.control.last.into(), BLOCK),
            _ => (it.shifted_row(&self.control, thread), 1),
        };
        if self.rng.one_in(2) {
            self.ready(file, first, count)?;
        } else {
            self.load_early(file, first, count)?;
        }
        self.clear_twice(file)?;
        self.dare(&Field::Issue { thread, word })
    }

    pub fn scalar(&mut self) -> Done {
        let entry = pick_scalar(self.rng);
        let thread = self.thread();
        let mut word = compose(self.rng, entry);
        if self.rng.one_in(2) {
            for name in [Name::RegisterA, Name::RegisterB, Name::Result] {
                word = entry.put(word, name, self.rng.below(6));
            }
        }
        let it = Instruction { entry, word };
        for (bits, needed) in [(REGISTER_A, true), (REGISTER_B, !it.on(CONSTANT))] {
            let register = it.get(bits) as usize;
            if needed && !self.marks.registers[thread][register] {
                self.load_register(thread, register)?;
            }
        }
        self.issue(thread, word)?;
        let result = it.get(RESULT) as usize;
        self.written_registers.push((thread, result));
        Some(())
    }

    fn load_some(&mut self) -> Done {
        let file = self.rng.pick(&[A, B, D, D]);
        let count = self.rng.pick(&[1, 1, 2, 8]);
        if file == D {
            let first = self.dst_first(count);
            self.load_dst(first, count)
        } else {
            let first = self.rng.within(0, (SRC_ROWS - count) as u32) as usize;
            self.load_src(file, first, count)
        }
    }

    fn zero_some(&mut self) -> Done {
        let rows = self.width().rows() as u32;
        let highest = self.rng.pick(&[16, rows, rows]);
        let count = self.rng.within(1, highest) as usize;
        let first = self.dst_first(count);
        self.push(&Field::ZeroRows { first, count })
    }

    /// An instruction that needs nothing.
    pub fn plain(&mut self, thread: usize) -> Done {
        let plain = [Class::SetRwc, Class::IncRwc, Class::ZeroSrc, Class::Nothing];
        let entry = pick_where(self.rng, |e| plain.contains(&e.class));
        let word = compose(self.rng, entry);
        self.issue(thread, word)
    }

    pub fn shift_b(&mut self, thread: usize) -> Done {
        let (entry, word) = (&SHIFTXB, compose(self.rng, &SHIFTXB));
        let row = Instruction { entry, word }.shifted_row(&self.control, thread);
        self.ready(B, row, 1)?;
        self.issue(thread, word)
    }

    fn action(&mut self) -> Done {
        let thread = self.thread();
        let file = self.rng.index(2);
        if self.rng.one_in(if self.wild { 4 } else { 12 }) {
            return if self.rng.one_in(3) {
                self.stale()
            } else {
                self.unprepared()
            };
        }
        match self.rng.below(29) {
            0..=5 => self.multiply(),
            18 => self.walk(),
            19 => self.both_banks(),
            20 | 21 => self.halfway(),
            22 | 23 => self.shift_after_legacy(),
            24 | 25 => self.multiply_by_counter(),
            26..=28 => self.come_back(),
            6 => {
                let entry = self.legacy();
                self.own_both()?;
                let word = compose(self.rng, entry);
                self.issue(thread, word)
            }
            7 | 8 => self.plain(thread),
            9 => {
                self.ready_last()?;
                let word = compose(self.rng, &SHIFTXA);
                self.issue(thread, word)
            }
            10 => self.shift_b(thread),
            11..=13 => self.scalar(),
            14 => {
                let register = self.rng.under(REGISTERS as u32) as usize;
                self.load_register(thread, register)
            }
            15 => self.load_some(),
            16 => self.hand_over(file),
            _ => self.zero_some(),
        }
    }

    /// Set rows from a row on, or across the halves.
    fn output_rows(&mut self, row: usize) -> Done {
        let mut first = row;
        if self.border_is_set() && self.rng.one_in(3) {
            let before = (DST_ROWS - FIELD_ROWS..DST_ROWS).rev();
            let before = before.take_while(|&row| self.marks.dst[row]).count();
            first = DST_ROWS - self.rng.within(1, before as u32) as usize;
        }
        let run = (first..self.width().rows()).take_while(|&row| self.marks.dst[row]);
        let most = run.count().min(FIELD_ROWS);
        let count = self.rng.within(1, most as u32) as usize;
        self.push(&Field::OutputRows { first, count })
    }

    /// One of them, mostly of those that an instruction wrote: they say most.
    fn pick_output<T: Copy>(rng: &mut Rng, set: &[T], written: &[T]) -> T {
        if written.is_empty() || rng.one_in(4) {
            rng.pick(set)
        } else {
            rng.pick(written)
        }
    }

    fn outputs(&mut self) {
        self.limit += RESERVE;
        let rows = self.set_rows();
        let all = (0..THREADS).flat_map(|thread| (0..REGISTERS).map(move |n| (thread, n)));
        let all: Vec<(usize, usize)> = all.collect();
        let set = |&(thread, register): &(usize, usize)| self.marks.registers[thread][register];
        let mut registers: Vec<(usize, usize)> = all.iter().copied().filter(set).collect();
        if rows.is_empty() && registers.is_empty() {
            let (thread, register) = self.rng.pick(&all);
            let _ = self.load_register(thread, register);
            registers.push((thread, register));
        }
        for _ in 0..1 + self.rng.index(6) {
            let of_rows = registers.is_empty() || (!rows.is_empty() && !self.rng.one_in(3));
            let _ = if of_rows {
                let row = Self::pick_output(self.rng, &rows, &self.written_rows);
                self.output_rows(row)
            } else {
                let written = &self.written_registers;
                let (thread, register) = Self::pick_output(self.rng, &registers, written);
                self.push(&Field::OutputRegister { thread, register })
            };
        }
    }
}

/// The fields of a job as bytes.
pub fn build(rng: &mut Rng, wild: bool) -> Vec<Vec<u8>> {
    let limit = rng.pick(&[600, 2000, 4000, 6000, JOB_BYTES]) - RESERVE;
    let settings = settings_bytes(&settings(rng));
    let focus = rng.index(THREADS);
    let mut builder = Builder::new(rng, limit, focus, wild);
    let _ = builder.push(&Field::Settings(&settings));
    // Without a multiply that passes, one that is refused shows more.
    builder.wild |= !builder.control.modelled() && builder.rng.one_in(2);
    for _ in 0..builder.rng.below(30) {
        let _ = builder.action();
    }
    builder.outputs();
    builder.fields
}
