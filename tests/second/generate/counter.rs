//! Multiplies that the instruction right before them brings inside Dst, or puts outside, by moving
//! the counter.

use super::builder::{Builder, Done};
use super::words::{compose, moving_word};
use crate::engine::{
    follow_record, Class, Control, Entry, Field, Instruction, Name, A, B, BLOCK, DST_COUNTS,
};

/// The most rows of SrcB that a multiply takes.
pub const EIGHT: usize = 8;

/// So many rows from each of two, as the first of all and how many.
fn span(one: usize, other: usize, count: usize) -> (usize, usize) {
    (one.min(other), one.abs_diff(other) + count)
}

impl Builder<'_> {
    /// The record after a word.
    fn after(&self, thread: usize, word: u32) -> Control {
        let mut record = self.control.clone();
        follow_record(&mut record, &Field::Issue { thread, word });
        record
    }

    /// The sums to which a counter moved by so much leads into Dst, or out of it: from the counter
    /// before, the first row would be on the other side. Of 16-bit rows all are inside.
    fn crossing(&self, entry: &Entry, moved: u16, out: bool) -> Vec<u32> {
        let rows = self.width().rows();
        let outside = |sum: u32| {
            let taken = entry.class.dst_rows(sum);
            taken.is_some_and(|taken| taken.start >= rows)
        };
        let crosses = |&sum: &u32| {
            let before = sum.wrapping_sub(moved.into());
            outside(sum) == out && outside(before) != out
        };
        (0..DST_COUNTS.into()).filter(crosses).collect()
    }

    pub fn zero_for(&mut self, entry: &Entry, sum: u32) -> Done {
        let rows = entry.class.dst_rows(sum)?;
        let (first, count) = (rows.start, rows.len());
        self.push(&Field::ZeroRows { first, count })
    }

    /// A word that moves counters, all ready that it reads, and what a multiply reads after it.
    fn ready_to_move(
        &mut self,
        thread: usize,
        Instruction { entry, word }: Instruction,
    ) -> Option<u32> {
        let after = self.after(thread, word);
        let rows = |record: &Control| (record.a_row(thread), record.b_row(thread));
        let (a, b) = rows(&after);
        let (own_a, own_b) = match entry.class {
            Class::Multiply { .. } => rows(&self.control),
            _ => (a, b),
        };
        let (first, count) = span(a, own_a, BLOCK);
        self.ready(A, first, count)?;
        let (first, count) = span(b, own_b, EIGHT);
        self.ready(B, first, count)?;
        match entry.class {
            Class::Multiply { .. } => {
                let sum = self.aim();
                self.zero_for(entry, sum)?;
                Some(entry.put(word, Name::Dst, self.dst_for(thread, sum)))
            }
            Class::ShiftXb => Some(self.with_row(thread, word, b)),
            _ => Some(word),
        }
    }

    /// A word that moves the Dst counter, and at once a multiply that the move brings inside Dst;
    /// in a wild job one that it puts outside.
    pub fn multiply_by_counter(&mut self) -> Done {
        let (thread, entry) = (self.thread(), self.modelled_multiply()?);
        let word = moving_word(self.rng);
        let counter = |record: &Control| record.threads[thread].dst;
        let moved = counter(&self.after(thread, word)) + DST_COUNTS - counter(&self.control);
        let sums = self.crossing(entry, moved, self.wild);
        let word = self.ready_to_move(thread, Instruction::of(word)?)?;
        if self.wild && !sums.is_empty() {
            self.issue(thread, word)?;
            let sum = self.rng.pick(&sums);
            let dst = self.dst_for(thread, sum);
            let word = entry.put(compose(self.rng, entry), Name::Dst, dst);
            return self.dare(&Field::Issue { thread, word });
        }
        let sum = if sums.is_empty() {
            self.aim()
        } else {
            self.rng.pick(&sums)
        };
        self.zero_for(entry, sum)?;
        self.issue(thread, word)?;
        self.multiply_into(thread, entry, sum)
    }
}
