//! Fields as bytes: the one reader and the one writer.

use super::{Control, Field, Slot, Tag, FIELD_ROWS, HEADER, ROW_BYTES, SETTINGS_BYTES, SLOTS};

/// A number whose lowest byte comes first.
pub fn number(bytes: &[u8]) -> u32 {
    let mut number = 0;
    for &byte in bytes.iter().rev() {
        number = (number << 8) | u32::from(byte);
    }
    number
}

fn pair(low: u8, high: u8) -> usize {
    u16::from_le_bytes([low, high]).into()
}

/// A field's bytes: tag, length, payload.
pub fn raw(tag: u8, payload: &[u8]) -> Vec<u8> {
    let length = (payload.len() as u16).to_le_bytes();
    [&[tag], &length[..], payload].concat()
}

/// The tag and payload of the field that begins at a place, where it is whole.
#[inline]
pub fn raw_at(job: &[u8], place: usize) -> Option<(u8, &[u8])> {
    let &[tag, low, high] = job.get(place..place + HEADER)? else {
        return None;
    };
    let begin = place + HEADER;
    Some((tag, job.get(begin..begin + pair(low, high))?))
}

/// A field from its tag and payload, where the length is as the job's table says; whether its
/// values are is for `fits` to tell.
#[inline]
pub fn read(tag: u8, payload: &[u8]) -> Option<Field<'_>> {
    Some(match (Tag::of(tag)?, payload) {
        (Tag::Settings, _) if payload.len() == SETTINGS_BYTES => Field::Settings(payload),
        (Tag::LoadRows, &[file, low, high, ref rows @ ..])
            if rows.len() % ROW_BYTES == 0
                && (1..=FIELD_ROWS).contains(&(rows.len() / ROW_BYTES)) =>
        {
            Field::LoadRows {
                file: file.into(),
                first: pair(low, high),
                rows,
            }
        }
        (Tag::LoadRegister, &[thread, register, a, b, c, d]) => Field::LoadRegister {
            thread: thread.into(),
            register: register.into(),
            value: u32::from_le_bytes([a, b, c, d]),
        },
        (Tag::HandOver, &[file]) => Field::HandOver { file: file.into() },
        (Tag::Issue, &[thread, a, b, c, d]) => Field::Issue {
            thread: thread.into(),
            word: u32::from_le_bytes([a, b, c, d]),
        },
        (Tag::OutputRows, &[low, high, count]) => Field::OutputRows {
            first: pair(low, high),
            count: count.into(),
        },
        (Tag::OutputRegister, &[thread, register]) => Field::OutputRegister {
            thread: thread.into(),
            register: register.into(),
        },
        (Tag::ZeroRows, &[a, b, c, d]) => Field::ZeroRows {
            first: pair(a, b),
            count: pair(c, d),
        },
        _ => return None,
    })
}

/// Any field, whether its values are in range or not.
pub fn write(field: &Field) -> Vec<u8> {
    let pair = |number: usize| (number as u16).to_le_bytes();
    let mut payload = Vec::new();
    match *field {
        Field::Settings(bytes) => payload.extend_from_slice(bytes),
        Field::LoadRows { file, first, rows } => {
            payload.push(file as u8);
            payload.extend(pair(first));
            payload.extend_from_slice(rows);
        }
        Field::LoadRegister {
            thread,
            register,
            value,
        } => {
            payload.extend([thread as u8, register as u8]);
            payload.extend(value.to_le_bytes());
        }
        Field::HandOver { file } => payload.push(file as u8),
        Field::Issue { thread, word } => {
            payload.push(thread as u8);
            payload.extend(word.to_le_bytes());
        }
        Field::OutputRows { first, count } => {
            payload.extend(pair(first));
            payload.push(count as u8);
        }
        Field::OutputRegister { thread, register } => {
            payload.extend([thread as u8, register as u8]);
        }
        Field::ZeroRows { first, count } => {
            payload.extend(pair(first));
            payload.extend(pair(count));
        }
    }
    raw(field.tag().byte(), &payload)
}

/// The settings' bytes before those of the threads, a thread's before its slots, a slot's, and all of
/// a thread's.
const SETTINGS_HEAD: usize = 4;
const THREAD_HEAD: usize = 4;
const SLOT_BYTES: usize = 6;
const THREAD_BYTES: usize = THREAD_HEAD + SLOTS * SLOT_BYTES;

/// The start record with the settings of a payload in it.
pub fn settings(payload: &[u8]) -> Control {
    let pair = |at: usize| u16::from_le_bytes([payload[at], payload[at + 1]]);
    let mut record = Control::under(payload[0], payload[1]);
    record.base = pair(2);
    for (t, thread) in record.threads.iter_mut().enumerate() {
        let at = SETTINGS_HEAD + t * THREAD_BYTES;
        thread.offset = pair(at);
        thread.fidelity_base = payload[at + 2];
        thread.extra = payload[at + 3];
        for (s, slot) in thread.slots.iter_mut().enumerate() {
            let at = at + THREAD_HEAD + s * SLOT_BYTES;
            *slot = Slot {
                src_step: [payload[at], payload[at + 1]],
                dst_step: pair(at + 2),
                fidelity_step: payload[at + 4],
                flags: payload[at + 5],
            };
        }
    }
    record
}

/// The payload with a record's settings.
pub fn settings_bytes(record: &Control) -> Vec<u8> {
    let mut bytes = vec![record.format, record.flags];
    bytes.extend(record.base.to_le_bytes());
    for thread in &record.threads {
        bytes.extend(thread.offset.to_le_bytes());
        bytes.extend([thread.fidelity_base, thread.extra]);
        for slot in &thread.slots {
            bytes.extend(slot.src_step);
            bytes.extend(slot.dst_step.to_le_bytes());
            bytes.extend([slot.fidelity_step, slot.flags]);
        }
    }
    bytes
}
