//! A job made readable, field by field.

use crate::engine::{
    named, precheck, raw_at, read, row_numbers, settings, shape, width_of, Answer, Class, Control,
    Entry, Field, Name, Refusal, Scalar, Slot, Stands, Tag, Width, A, B, D, FILES, HEADER,
    JOB_BYTES, ROW_BYTES, SLOT_FLAGS, SRC,
};

/// The name of a defined mode that has one.
fn mode_name(entry: &Entry, mode: u32) -> Option<&'static str> {
    let names: &[&str] = match entry.class {
        Class::ShiftXa => &["", "", "right", "left"],
        Class::Scalar(Scalar::Bitwise) => &["and", "or", "xor"],
        Class::Scalar(Scalar::Shift) => &["left", "right"],
        Class::Scalar(Scalar::Compare) => &["above", "below", "equal"],
        _ => &[],
    };
    let name = names.get(mode as usize).copied();
    name.filter(|name| !name.is_empty())
}

fn word_text(word: u32) -> String {
    let Some(entry) = Entry::of(word) else {
        return format!("{word:08x} unknown opcode");
    };
    let mut parts = Vec::new();
    for bits in entry.bits {
        let (name, value) = (bits.name, bits.get(word));
        let mut part = format!("{} {value}", name.text());
        if let (Name::Mode, Some(mode)) = (name, mode_name(entry, value)) {
            part += &format!(" ({mode})");
        }
        parts.push(part);
    }
    for bit in entry.unnamed().filter(|bit| (word >> bit) & 1 == 1) {
        parts.push(format!("unnamed bit {bit}"));
    }
    let text = format!("{word:08x} {} {}", entry.name, parts.join(", "));
    text.trim_end().to_string()
}

fn slot_text(number: usize, slot: &Slot) -> String {
    let mut text = format!(
        "  slot {number}: SrcA step {}, SrcB step {}, Dst step {}, fidelity step {}",
        slot.src_step[A], slot.src_step[B], slot.dst_step, slot.fidelity_step
    );
    for (flag, name) in SLOT_FLAGS {
        if slot.flags & flag != 0 {
            text += &format!(", {name}");
        }
    }
    text
}

fn settings_text(record: &Control) -> Vec<String> {
    let (format, flags, base) = (record.format, record.flags, record.base);
    let bits = record.width().bits();
    let mut head = format!("format {format}, flags {flags}, base {base}, {bits}-bit Dst rows");
    for file in SRC.into_iter().filter(|&file| record.keeps(file)) {
        head += &format!(", {} kept", FILES[file]);
    }
    let mut text = vec![head];
    for (t, thread) in record.threads.iter().enumerate() {
        let (offset, base, extra) = (thread.offset, thread.fidelity_base, thread.extra);
        text.push(format!(
            "thread {t}: math offset {offset}, fidelity base {base}, extra bit {extra}"
        ));
        let slots = thread.slots.iter().enumerate();
        let slots = slots.filter(|(_, slot)| **slot != Slot::default());
        text.extend(slots.map(|(s, slot)| slot_text(s, slot)));
    }
    text
}

fn load_text(width: Width, file: usize, first: usize, rows: &[u8]) -> Vec<String> {
    let mut text = vec![format!("{} from row {first}", FILES[file])];
    let digits = if file == D { width.digits() } else { 5 };
    for (n, row) in rows.chunks(ROW_BYTES).enumerate() {
        let row = row_numbers(row).map(|n| format!("{n:0digits$x}"));
        let row: Vec<String> = row.collect();
        text.push(format!("  row {}: {}", first + n, row.join(" ")));
    }
    text
}

/// A field's values: the first line stands beside its kind, the others below.
fn values(width: Width, field: &Field) -> Vec<String> {
    vec![match field {
        Field::Settings(payload) => return settings_text(&settings(payload)),
        Field::LoadRows { file, first, rows } => return load_text(width, *file, *first, rows),
        Field::LoadRegister {
            thread,
            register,
            value,
        } => format!("thread {thread}, register {register}, value {value:08x}"),
        Field::HandOver { file } => FILES[*file].to_string(),
        Field::Issue { thread, word } => format!("thread {thread}, {}", word_text(*word)),
        Field::OutputRows { first, count } | Field::ZeroRows { first, count } => {
            format!("from row {first}, count {count}")
        }
        Field::OutputRegister { thread, register } => {
            format!("thread {thread}, register {register}")
        }
    }]
}

named! {
    /// Why a job's shape is wrong.
    pub enum Reason {
        TooLong = "the job is longer than 8,192 bytes",
        Empty = "the job is empty",
        NoOutput = "no output stands",
        CutHeader = "its header is cut off",
        UnknownTag = "its tag is unknown",
        CutPayload = "its payload is cut off",
        WrongLength = "its length is wrong",
        WrongValue = "a value is out of range",
        Settings = "settings come first and once",
        AfterOutput = "an output stands before it",
    }
}

/// Why a job's shape is wrong at a place.
pub fn reason(bytes: &[u8], place: usize) -> Reason {
    if bytes.len() > JOB_BYTES {
        return Reason::TooLong;
    }
    if bytes.is_empty() {
        return Reason::Empty;
    }
    let rest = &bytes[place..];
    if rest.is_empty() {
        return Reason::NoOutput;
    }
    if rest.len() < HEADER {
        return Reason::CutHeader;
    }
    let Some(tag) = Tag::of(rest[0]) else {
        return Reason::UnknownTag;
    };
    let Some((byte, payload)) = raw_at(bytes, place) else {
        return Reason::CutPayload;
    };
    let Some(field) = read(byte, payload) else {
        return Reason::WrongLength;
    };
    if !field.fits(width_of(&shape(bytes).0)) {
        return Reason::WrongValue;
    }
    if (tag.stands() == Stands::FirstAndOnce) != (place == 0) {
        return Reason::Settings;
    }
    Reason::AfterOutput
}

/// The line below a refused field.
fn refused_line(refusal: Refusal, why: &str) -> String {
    let bit = refusal.bit().map(|bit| format!(" bit {bit}"));
    let bit = bit.unwrap_or_default();
    format!("{:>5}  ^ refused {}{bit}{why}\n", "", refusal.number())
}

/// A job field by field, the one that a refusal names marked, and the answer at the end.
pub fn explain(bytes: &[u8]) -> String {
    let answer = precheck(bytes);
    let (fields, wrong) = shape(bytes);
    let mut text = String::new();
    for (place, field) in &fields {
        let values = values(width_of(&fields), field);
        text += &format!("{place:5}  {:<15}  {}\n", field.tag().text(), values[0]);
        for line in &values[1..] {
            text += &format!("{:24}{line}\n", "");
        }
        match answer {
            Answer::Refused {
                refusal,
                place: named,
            } if named == *place && wrong.is_none() => text += &refused_line(refusal, ""),
            _ => {}
        }
    }
    if let Some(place) = wrong {
        let rest = bytes[place..].iter().take(16);
        let rest: Vec<String> = rest.map(|byte| format!("{byte:02x}")).collect();
        text += &format!("{place:5}  {}\n", rest.join(" "));
        let why = format!(": {}", reason(bytes, place).text());
        text += &refused_line(Refusal::Shape, &why);
    }
    text + &answer.line("finished") + "\n"
}
