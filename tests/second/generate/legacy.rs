//! Legacy instructions, and SHIFTXAs from the row that they leave behind.

use super::builder::{Builder, Done};
use super::words::{compose, pick_where};
use crate::engine::{Class, Entry, Field, Name, A, B, BLOCK, INCRWC, SETRWC, SHIFTXA, SRC_ROWS};

impl Builder<'_> {
    pub fn own_both(&mut self) -> Done {
        self.own(A)?;
        self.own(B)
    }

    pub fn legacy(&mut self) -> &'static Entry {
        pick_where(self.rng, |entry| entry.class == Class::Legacy)
    }

    /// SrcA's counter moved on, over some rows: a word adds at most 15.
    fn advance(&mut self, thread: usize) -> Done {
        for _ in 0..self.rng.below(5) {
            let counter = self.rng.within(8, 15);
            self.issue(thread, INCRWC.word(&[(Name::CounterA, counter)]))?;
        }
        Some(())
    }

    /// Both banks of SrcA made the matrix unit's, with rows in the one that a clear moves on to.
    fn ready_behind(&mut self, first: usize, count: usize) -> Done {
        self.give_back(A)?;
        self.pass_on(A)?;
        self.load_src(A, first, count)?;
        self.hand_over(A)
    }

    /// A legacy instruction with rows set where a SHIFTXA looks for them after it, only where it
    /// would look without it, or everywhere, so that the numbers alone tell.
    fn leave_row(&mut self, thread: usize) -> Done {
        self.advance(thread)?;
        self.own(B)?;
        let (first, count) = match self.rng.below(6) {
            0 | 1 => (self.control.last.into(), BLOCK),
            2 => (0, SRC_ROWS),
            _ => (self.control.a_row(thread), BLOCK),
        };
        let clear = self.rng.below(4);
        if clear & 1 == 1 {
            self.ready_behind(first, count)?;
        } else {
            self.ready(A, first, count)?;
        }
        let entry = self.legacy();
        let word = compose(self.rng, entry);
        self.issue(thread, entry.put(word, Name::Clear, clear))
    }

    /// A SHIFTXA after a legacy instruction, at once or after a word that leaves the row as it is,
    /// and a multiply that shows what was moved.
    pub fn shift_after_legacy(&mut self) -> Done {
        let thread = self.thread();
        self.leave_row(thread)?;
        match self.rng.below(8) {
            0 => self.move_counters(thread)?,
            1 => self.plain(thread)?,
            2 => self.shift_b(thread)?,
            3 => self.scalar()?,
            _ => {}
        }
        let (thread, word) = (self.thread(), compose(self.rng, &SHIFTXA));
        self.dare(&Field::Issue { thread, word })?;
        let entry = self.modelled_multiply()?;
        let first_rows = [(Name::CounterA, self.rng.below(16)), (Name::Which, 1)];
        self.issue(thread, SETRWC.word(&first_rows))?;
        self.multiply_by_a(thread, entry)
    }
}
