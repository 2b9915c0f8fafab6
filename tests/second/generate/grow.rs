//! Jobs of an exact size.

use super::builder::load_register;
use super::raw::{first_output, raw_width};
use super::rng::Rng;
use super::words::{compose, pick_where};
use crate::engine::{write, Class, Field, REGISTERS, THREADS};

/// Fills a job up with fields that pass.
pub fn grow(rng: &mut Rng, fields: &mut Vec<Vec<u8>>, size: usize) {
    let outputs = first_output(fields);
    let rows = raw_width(fields).rows();
    let (thread, register) = (rng.index(THREADS), rng.index(REGISTERS));
    let first = rng.index(rows);
    fields.insert(outputs, write(&load_register(rng, thread, register)));
    fields.insert(outputs, write(&Field::ZeroRows { first, count: 1 }));
    let mut room = size.saturating_sub(fields.iter().map(Vec::len).sum());
    for _ in 0..rng.index(room / 8 + 1) {
        if room < 40 {
            break;
        }
        let entry = pick_where(rng, |e| matches!(e.class, Class::Nothing | Class::IncRwc));
        let (thread, word) = (rng.index(THREADS), compose(rng, entry));
        let issue = write(&Field::Issue { thread, word });
        room -= issue.len();
        // After the job's own instructions, so that a moved counter disturbs none of them.
        fields.insert(outputs + 2, issue);
    }
    let five = write(&Field::OutputRegister { thread, register });
    let six = write(&Field::OutputRows { first, count: 1 });
    // 5x + 6y reaches every number from 20 on, and y below 5 is enough from 24 on.
    if room >= 24 {
        let sixes = room % 5;
        fields.extend(vec![six; sixes]);
        fields.extend(vec![five; (room - 6 * sixes) / 5]);
    }
}
