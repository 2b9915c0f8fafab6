//! Instructions that are done, or refused, only by what the instruction before them did to the
//! record: had it left the record as it was, they would be answered otherwise.

use super::table::{Group, Table};
use crate::engine::{follow_record, rules, Control, Entry, Field, Refusal};

/// The last instruction as far as a job has been walked, and the record without what it did.
#[derive(Default)]
pub struct Skipped {
    last: Option<(&'static Entry, Control)>,
}

/// Rows for the instruction that moved a Dst counter, and for the multiply behind it.
pub fn moved_by(name: &str) -> String {
    format!("moved by {name}")
}

pub fn then(name: &str) -> String {
    format!("then {name}")
}

/// A row for multiplies that no counter at 0 brings inside Dst.
pub const NOT_FROM_0: &str = "not from a counter at 0";

impl Skipped {
    /// Goes on past a field, under the record as the fields before it left it.
    pub fn follow(&mut self, control: &Control, field: &Field) {
        match (field, &mut self.last) {
            (Field::Issue { word, .. }, last) => {
                *last = Entry::of(*word).map(|entry| (entry, control.clone()));
            }
            (_, Some((_, record))) => follow_record(record, field),
            (_, None) => {}
        }
    }

    /// Counts an instruction that is done, or refused with 6 or 7.
    pub fn count(&self, table: &mut Table, control: &Control, field: &Field) {
        let (Some((last, record)), Field::Issue { thread, word }) = (&self.last, *field) else {
            return;
        };
        let Some(entry) = Entry::of(word) else {
            return;
        };
        let told = |control: &Control| rules(control, thread, word).err();
        match (told(control), told(record)) {
            (None, Some(Refusal::OtherOwner)) => table.hit(Group::DoneByClear, entry.name),
            (None, Some(Refusal::DstRow)) => {
                table.hit(Group::DoneByCounter, moved_by(last.name));
                table.hit(Group::DoneByCounter, then(entry.name));
            }
            (Some(Refusal::OtherOwner), None) => table.hit(Group::RefusedByClear, last.name),
            (Some(Refusal::DstRow), None) => table.hit(Group::RefusedByCounter, kind(last)),
            _ => {}
        }
    }
}

/// What moves a Dst counter.
pub fn kind(entry: &Entry) -> String {
    moved_by(if entry.slot.is_some() {
        "a slot"
    } else {
        entry.name
    })
}

/// Does a multiply reach its rows by a Dst counter that is not 0?
pub fn needs_its_counter(control: &Control, thread: usize, word: u32) -> bool {
    let mut start = control.clone();
    start.threads[thread].dst = 0;
    rules(&start, thread, word).is_err()
}
