//! A job that is being built: fields go in while the engine's record and marks are tracked.

use super::numbers::{numbers, register_value};
use super::rng::Rng;
use super::words::compose;
use crate::engine::{
    all_set, follow, judge, row_bytes, write, Control, Field, Marks, Name, Width, A, B, BLOCK,
    COLUMNS, D, SETRWC, SHIFTXA, SHIFTXB, SRC_ROWS, THREADS, ZEROED, ZEROSRC,
};

/// Rows that may be loaded.
pub fn rows(rng: &mut Rng, width: Width, file: usize, count: usize) -> Vec<u8> {
    row_bytes(&numbers(rng, width, file, count * COLUMNS))
}

pub fn load_register(rng: &mut Rng, thread: usize, register: usize) -> Field<'static> {
    let value = register_value(rng);
    Field::LoadRegister {
        thread,
        register,
        value,
    }
}

pub struct Builder<'a> {
    pub rng: &'a mut Rng,
    pub fields: Vec<Vec<u8>>,
    size: usize,
    pub limit: usize,
    pub control: Control,
    pub marks: Marks,
    /// May a field that is refused still go into the job?
    pub wild: bool,
    /// The thread that issues most.
    pub focus: usize,
    /// What instructions wrote: Dst rows, and registers with their threads.
    pub written_rows: Vec<usize>,
    pub written_registers: Vec<(usize, usize)>,
}

/// Nothing, where a field found no room or would be refused.
pub type Done = Option<()>;

impl Builder<'_> {
    pub fn new(rng: &mut Rng, limit: usize, focus: usize, wild: bool) -> Builder<'_> {
        Builder {
            rng,
            fields: Vec::new(),
            size: 0,
            limit,
            control: Control::start(),
            marks: Marks::start(),
            wild,
            focus,
            written_rows: Vec::new(),
            written_registers: Vec::new(),
        }
    }

    fn put(&mut self, bytes: Vec<u8>) {
        self.size += bytes.len();
        self.fields.push(bytes);
    }

    pub fn push(&mut self, field: &Field) -> Done {
        let bytes = write(field);
        let fits = self.size + bytes.len() <= self.limit;
        if !fits || judge(&self.control, &self.marks, field).is_some() {
            return None;
        }
        follow(&mut self.control, &mut self.marks, field);
        self.put(bytes);
        Some(())
    }

    /// Puts a field into the job, in a wild one though it is refused.
    pub fn dare(&mut self, field: &Field) -> Done {
        let bytes = write(field);
        if self.push(field).is_none() && self.wild && self.size + bytes.len() <= self.limit {
            self.wild = !self.rng.one_in(2);
            self.put(bytes);
        }
        Some(())
    }

    pub fn issue(&mut self, thread: usize, word: u32) -> Done {
        self.push(&Field::Issue { thread, word })
    }

    pub fn hand_over(&mut self, file: usize) -> Done {
        self.push(&Field::HandOver { file })
    }

    pub fn width(&self) -> Width {
        self.control.width()
    }

    /// The Dst rows that are set.
    pub fn set_rows(&self) -> Vec<usize> {
        let rows = 0..self.width().rows();
        rows.filter(|&row| self.marks.dst[row]).collect()
    }

    pub fn thread(&mut self) -> usize {
        if self.rng.one_in(3) {
            self.rng.index(THREADS)
        } else {
            self.focus
        }
    }

    /// Moves the matrix pointer by a SETRWC that sets nothing.
    pub fn clear(&mut self, file: usize) -> Done {
        let thread = self.rng.index(THREADS);
        self.issue(thread, SETRWC.word(&[(Name::Clear, 1 << file)]))
    }

    /// Makes the bank at the matrix pointer the matrix unit's.
    pub fn own(&mut self, file: usize) -> Done {
        while !self.control.matrix_has(file) {
            if self.control.unpackers_have(file) {
                self.hand_over(file)?;
            } else {
                self.clear(file)?;
            }
        }
        Some(())
    }

    /// Makes the bank at the unpackers' pointer the unpackers', where no switch keeps it.
    pub fn give_back(&mut self, file: usize) -> Done {
        while !self.control.unpackers_have(file) {
            if self.control.keeps(file) {
                return None;
            }
            self.clear(file)?;
        }
        Some(())
    }

    pub fn load_src(&mut self, file: usize, first: usize, count: usize) -> Done {
        let rows = &rows(self.rng, self.control.width(), file, count);
        self.give_back(file)?;
        self.push(&Field::LoadRows { file, first, rows })
    }

    pub fn load_src_numbers(&mut self, file: usize, first: usize, numbers: &[u32]) -> Done {
        self.give_back(file)?;
        let rows = &row_bytes(numbers);
        self.push(&Field::LoadRows { file, first, rows })
    }

    pub fn load_dst(&mut self, first: usize, count: usize) -> Done {
        let rows = &rows(self.rng, self.control.width(), D, count);
        let file = D;
        self.push(&Field::LoadRows { file, first, rows })
    }

    pub fn load_register(&mut self, thread: usize, register: usize) -> Done {
        let field = load_register(self.rng, thread, register);
        self.push(&field)
    }

    /// Hands the unpackers' bank over and moves the matrix pointer to it.
    pub fn pass_on(&mut self, file: usize) -> Done {
        let bank = self.control.unpackers_bank(file);
        self.hand_over(file)?;
        if self.control.matrix_bank(file) != bank {
            self.clear(file)?;
        }
        Some(())
    }

    /// A ZEROSRC that fills a file: both banks, or with 0 the unpackers'.
    pub fn fill(&mut self, file: usize, both: u32) -> Done {
        let thread = self.thread();
        let word = ZEROED[file].put(compose(self.rng, &ZEROSRC), 1);
        self.issue(thread, ZEROSRC.put(word, Name::BothBanks, both))
    }

    /// Makes the matrix bank owned, with these rows set.
    pub fn ready(&mut self, file: usize, first: usize, count: usize) -> Done {
        let marks = &self.marks.src[file][self.control.matrix_bank(file)];
        let set = all_set(&marks[first..][..count]);
        if set && self.control.matrix_has(file) && !self.rng.one_in(8) {
            return Some(());
        }
        if self.control.keeps(file) && !self.control.unpackers_have(file) {
            return self.ready_kept(file, first, count);
        }
        match self.rng.below(16) {
            0 => {
                self.own(file)?;
                self.fill(file, 1)
            }
            1 => {
                self.give_back(file)?;
                self.fill(file, 0)?;
                self.pass_on(file)
            }
            2 => {
                self.load_src(file, 0, SRC_ROWS)?;
                self.pass_on(file)
            }
            _ => {
                self.load_src(file, first, count)?;
                self.pass_on(file)
            }
        }
    }

    /// Makes SHIFTXA's rows ready.
    pub fn ready_last(&mut self) -> Done {
        self.ready(A, self.control.last.into(), BLOCK)
    }

    /// A SHIFTXA whose result, or a SHIFTXB whose row, the multiply of a thread reads.
    pub fn shift_first(&mut self, thread: usize, file: usize, rows: usize) -> Done {
        // On another thread, as SHIFTXB's slot moves the counters of its own.
        let other = (thread + 1 + self.rng.index(2)) % THREADS;
        if file == A {
            let (counter, direction) = (self.rng.below(16), self.rng.below(2));
            let set = [(Name::CounterA, counter), (Name::Which, 1)];
            self.issue(thread, SETRWC.word(&set))?;
            self.ready_last()?;
            return self.issue(other, SHIFTXA.word(&[(Name::Mode, 2 + direction)]));
        }
        let row = self.control.b_row(thread) + self.rng.index(rows);
        let word = compose(self.rng, &SHIFTXB);
        let word = self.with_row(other, word, row);
        self.issue(other, word)
    }

    /// The SHIFTXB with the row field that leads to a row, all its 10 bits in use.
    pub fn with_row(&mut self, thread: usize, word: u32, row: usize) -> u32 {
        let counter = u32::from(self.control.threads[thread].src[B]);
        let turns = SRC_ROWS as u32;
        let row = (row as u32).wrapping_sub(counter) % turns + turns * self.rng.below(16);
        SHIFTXB.put(word, Name::Row, row)
    }
}
