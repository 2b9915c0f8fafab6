//! The job's fields: the table of tags, a field's values, and their ranges.

use std::ops::Range;

use super::{
    named, rows_of, settings, top_of, Width, B, COLUMNS, D, FIELD_ROWS, REGISTERS, THREADS,
};

/// A tag and a length of two bytes stand before a payload.
pub const HEADER: usize = 3;
/// The settings' payload.
pub const SETTINGS_BYTES: usize = 160;
/// The bytes of a loaded row.
pub const ROW_BYTES: usize = 4 * COLUMNS;
/// Those of a payload before a load's rows, and before an issue's word.
pub const LOAD_HEAD: usize = 3;
pub const ISSUE_HEAD: usize = 1;

named! {
    /// The tags in their order, which is that of their numbers from 1 on.
    pub enum Tag {
        Settings = "settings",
        LoadRows = "load rows",
        LoadRegister = "load register",
        HandOver = "hand over",
        Issue = "issue",
        OutputRows = "output rows",
        OutputRegister = "output register",
        ZeroRows = "zero Dst rows",
    }
}

/// Where in a job a field stands.
#[derive(Debug, Clone, Copy, PartialEq, Eq)]
pub enum Stands {
    FirstAndOnce,
    Between,
    Last,
}

impl Tag {
    pub fn of(byte: u8) -> Option<Tag> {
        Tag::ALL.get(usize::from(byte).checked_sub(1)?).copied()
    }

    pub fn byte(self) -> u8 {
        self as u8 + 1
    }

    pub fn stands(self) -> Stands {
        match self {
            Tag::Settings => Stands::FirstAndOnce,
            Tag::LoadRows | Tag::LoadRegister | Tag::HandOver => Stands::Between,
            Tag::Issue | Tag::ZeroRows => Stands::Between,
            Tag::OutputRows | Tag::OutputRegister => Stands::Last,
        }
    }
}

/// A field's values; settings and rows stay as they stand in the payload.
#[derive(Debug, Clone, Copy, PartialEq, Eq)]
pub enum Field<'a> {
    Settings(&'a [u8]),
    LoadRows {
        file: usize,
        first: usize,
        rows: &'a [u8],
    },
    LoadRegister {
        thread: usize,
        register: usize,
        value: u32,
    },
    HandOver {
        file: usize,
    },
    Issue {
        thread: usize,
        word: u32,
    },
    OutputRows {
        first: usize,
        count: usize,
    },
    OutputRegister {
        thread: usize,
        register: usize,
    },
    ZeroRows {
        first: usize,
        count: usize,
    },
}

/// The numbers of loaded rows.
#[inline]
pub fn row_numbers(rows: &[u8]) -> impl ExactSizeIterator<Item = u32> + '_ {
    let number = |bytes: &[u8]| u32::from_le_bytes([bytes[0], bytes[1], bytes[2], bytes[3]]);
    rows.chunks_exact(4).map(number)
}

/// Rows of these numbers.
pub fn row_bytes(numbers: &[u32]) -> Vec<u8> {
    numbers.iter().flat_map(|n| n.to_le_bytes()).collect()
}

impl Field<'_> {
    #[inline]
    pub fn tag(&self) -> Tag {
        match self {
            Field::Settings(_) => Tag::Settings,
            Field::LoadRows { .. } => Tag::LoadRows,
            Field::LoadRegister { .. } => Tag::LoadRegister,
            Field::HandOver { .. } => Tag::HandOver,
            Field::Issue { .. } => Tag::Issue,
            Field::OutputRows { .. } => Tag::OutputRows,
            Field::OutputRegister { .. } => Tag::OutputRegister,
            Field::ZeroRows { .. } => Tag::ZeroRows,
        }
    }

    /// Is each value as the job's table says, for a Dst of this width?
    #[inline]
    pub fn fits(&self, width: Width) -> bool {
        match *self {
            Field::Settings(payload) => settings(payload).settings_in_range(),
            Field::LoadRows { file, first, rows } => {
                file <= D && first + rows.len() / ROW_BYTES <= rows_of(file, width) && {
                    let top = top_of(file, width);
                    row_numbers(rows).all(|number| number <= top)
                }
            }
            Field::LoadRegister {
                thread, register, ..
            }
            | Field::OutputRegister { thread, register } => {
                thread < THREADS && register < REGISTERS
            }
            Field::HandOver { file } => file <= B,
            Field::Issue { thread, .. } => thread < THREADS,
            Field::OutputRows { first, count } => {
                (1..=FIELD_ROWS).contains(&count) && first + count <= width.rows()
            }
            Field::ZeroRows { first, count } => 1 <= count && first + count <= width.rows(),
        }
    }

    /// The Dst rows that it names.
    pub fn dst_rows(&self) -> Option<Range<usize>> {
        match *self {
            Field::LoadRows {
                file: D,
                first,
                rows,
            } => Some(first..first + rows.len() / ROW_BYTES),
            Field::OutputRows { first, count } | Field::ZeroRows { first, count } => {
                Some(first..first + count)
            }
            _ => None,
        }
    }
}
