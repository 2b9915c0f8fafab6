//! Banks that a switch keeps through a clear, and what comes back to them.

use super::builder::{rows, Builder, Done};
use super::counter::EIGHT;
use super::words::compose;
use crate::engine::{
    all_set, Field, Name, Owner, A, B, BLOCK, SETRWC, SHIFTXA, SHIFTXB, SRC, SRC_ROWS, ZEROSRC,
};

/// Both of SETRWC's bits for SrcA and SrcB.
const BOTH: u32 = 3;

impl Builder<'_> {
    fn keeps_any(&self) -> bool {
        SRC.into_iter().any(|file| self.control.keeps(file))
    }

    /// Makes the matrix bank owned, with these rows set, where no bank can be loaded any more: by a
    /// clear that comes back to them, now and then by a ZEROSRC.
    pub fn ready_kept(&mut self, file: usize, first: usize, count: usize) -> Done {
        let other = 1 - self.control.matrix_bank(file);
        let set = all_set(&self.marks.src[file][other][first..][..count]);
        if set && self.control.owner[file][other] == Owner::Matrix {
            return self.clear(file);
        }
        if !self.rng.one_in(4) {
            return None;
        }
        self.own(file)?;
        self.fill(file, 1)
    }

    /// Brings a thread's Src counters to the first rows, which stay loaded in a kept bank.
    fn reach_first_rows(&mut self, thread: usize) -> Done {
        let [a, b] = [self.rng.below(16), self.rng.below(16)];
        let counters = [
            (Name::CounterA, a),
            (Name::CounterB, b),
            (Name::Which, BOTH),
        ];
        self.issue(thread, SETRWC.word(&counters))
    }

    /// The same in most jobs with a switch.
    pub fn reach_kept_rows(&mut self, thread: usize) -> Done {
        if self.keeps_any() && !self.rng.one_in(4) {
            self.reach_first_rows(thread)?;
        }
        Some(())
    }

    /// A multiply with nothing made ready in Src.
    fn dare_multiply(&mut self, thread: usize, clear: Option<u32>) -> Done {
        let entry = self.modelled_multiply()?;
        let sum = self.aim();
        if !all_set(&self.marks.dst[entry.class.dst_rows(sum)?]) {
            self.zero_for(entry, sum)?;
        }
        let word = compose(self.rng, entry);
        let mut word = entry.put(word, Name::Dst, self.dst_for(thread, sum));
        if let Some(clear) = clear {
            word = entry.put(word, Name::Clear, clear);
        }
        self.dare(&Field::Issue { thread, word })?;
        self.written_rows.extend(entry.class.dst_rows(sum)?);
        Some(())
    }

    /// A clear by any instruction that has one.
    fn dare_clear(&mut self, thread: usize, clear: u32) -> Done {
        let entry = match self.rng.below(3) {
            0 => &SETRWC,
            1 => self.legacy(),
            _ => return self.dare_multiply(thread, Some(clear)),
        };
        let word = entry.put(compose(self.rng, entry), Name::Clear, clear);
        self.dare(&Field::Issue { thread, word })
    }

    /// The other bank: as it is, handed over with no load, or loaded and handed over.
    fn other_bank(&mut self, file: usize, first: usize, count: usize) -> Done {
        if !self.control.unpackers_have(file) || self.rng.one_in(3) {
            return Some(());
        }
        if !self.rng.one_in(3) {
            self.load_src(file, first, count)?;
        }
        self.hand_over(file)
    }

    /// A load or hand over that meets a kept bank where a switch is on; a shift in the bank that the
    /// clears lead to; a ZEROSRC.
    fn meet_kept(&mut self, thread: usize, file: usize) -> Done {
        let word = match self.rng.below(10) {
            0 => return self.dare(&Field::HandOver { file }),
            1 => {
                let first = self.rng.index(SRC_ROWS);
                let rows = &rows(self.rng, self.width(), file, 1);
                return self.dare(&Field::LoadRows { file, first, rows });
            }
            2 | 3 if file == A => compose(self.rng, &SHIFTXA),
            2 | 3 => {
                let word = compose(self.rng, &SHIFTXB);
                self.with_row(thread, word, self.control.b_row(thread))
            }
            4 => compose(self.rng, &ZEROSRC),
            _ => return Some(()),
        };
        self.dare(&Field::Issue { thread, word })
    }

    /// Rows loaded into a bank at both pointers, mostly, that is still the unpackers'.
    pub fn load_early(&mut self, file: usize, first: usize, count: usize) -> Done {
        if self.control.unpackers_bank(file) != self.control.matrix_bank(file) {
            self.clear(file)?;
        }
        self.load_src(file, first, count)
    }

    /// Clears a file's bank, comes back to it and makes it the matrix unit's.
    pub fn clear_twice(&mut self, file: usize) -> Done {
        self.clear(file)?;
        self.clear(file)?;
        self.own(file)
    }

    /// Rows ready in one bank or in both; clears that move on, and mostly come back; then a multiply
    /// of the same rows.
    pub fn come_back(&mut self) -> Done {
        let thread = self.thread();
        self.reach_first_rows(thread)?;
        let (a, b) = (self.control.a_row(thread), self.control.b_row(thread));
        for (file, first, count) in [(A, a, BLOCK), (B, b, EIGHT)] {
            if self.rng.one_in(4) {
                self.load_early(file, first, count)?;
                self.clear_twice(file)?;
            } else {
                self.ready(file, first, count)?;
            }
            self.other_bank(file, first, count)?;
        }
        let (file, clear) = (self.rng.index(2), 1 + self.rng.below(3));
        for _ in 0..self.rng.pick(&[1, 2, 2, 2, 3]) {
            self.dare_clear(thread, clear)?;
        }
        self.meet_kept(thread, file)?;
        // The slots moved the counters on.
        let counters = [(Name::CounterB, b as u32), (Name::Which, BOTH)];
        self.issue(thread, SETRWC.word(&counters))?;
        self.dare_multiply(thread, None)
    }
}
