//! The ranged numbers of a payload, by name: for those who put numbers on the ends of their ranges,
//! and count them there. The rule itself is in `fits`.

use super::{
    named, number, read, rows_of, top_of, Field, Width, B, D, DST_COUNTS, FIELD_ROWS, FLAGS,
    FORMATS, PHASES, REGISTERS, ROW_BYTES, SLOTS, SRC_COUNTS, THREADS,
};

named! {
    /// What a number with a range is. Those of Dst come last; N stands for the width's bits.
    pub enum What {
        Format = "format",
        Flags = "flags",
        Base = "base",
        MathOffset = "math offset",
        FidelityBase = "fidelity base",
        ExtraBit = "extra bit",
        StepA = "SrcA step",
        StepB = "SrcB step",
        DstStep = "Dst step",
        FidelityStep = "fidelity step",
        LoadFile = "file of a load",
        LoadFirst = "first row of a Src load",
        SrcValue = "Src value",
        HandOverFile = "file of a hand over",
        Thread = "thread",
        Register = "register",
        DstLoadFirst = "first N-bit row of a load",
        OutputFirst = "first N-bit row of an output",
        OutputCount = "count of N-bit rows of an output",
        ZeroFirst = "first N-bit row of zeroing",
        ZeroCount = "count of N-bit rows of zeroing",
        DstValue = "N-bit Dst value",
    }
}

impl What {
    pub fn is_of_dst(self) -> bool {
        self as usize >= What::DstLoadFirst as usize
    }

    pub fn under(self, width: Width) -> String {
        self.text().replace('N', &width.bits().to_string())
    }
}

/// A ranged number of a payload: where it stands, its size in bytes, its ends and its value.
pub struct Ranged {
    pub what: What,
    pub at: usize,
    pub size: usize,
    pub low: u32,
    pub high: u32,
    pub value: u32,
}

impl Ranged {
    pub fn holds(&self) -> bool {
        self.low <= self.value && self.value <= self.high
    }
}

/// The list as far as a payload has been walked.
struct Walk<'a> {
    payload: &'a [u8],
    at: usize,
    list: Vec<Ranged>,
}

impl Walk<'_> {
    /// The next number, which has a range.
    fn within(&mut self, what: What, size: usize, low: usize, high: usize) {
        let (at, value) = (self.at, number(&self.payload[self.at..][..size]));
        let (low, high) = (low as u32, high as u32);
        self.list.push(Ranged {
            what,
            at,
            size,
            low,
            high,
            value,
        });
        self.at += size;
    }

    /// The next one, which is below an end.
    fn below(&mut self, what: What, size: usize, end: usize) {
        self.within(what, size, 0, end - 1);
    }

    fn settings(&mut self) {
        let (dst, src, phases) = (DST_COUNTS.into(), SRC_COUNTS.into(), PHASES.into());
        self.below(What::Format, 1, FORMATS.into());
        self.within(What::Flags, 1, 0, FLAGS.into());
        self.below(What::Base, 2, dst);
        for _ in 0..THREADS {
            self.below(What::MathOffset, 2, dst);
            self.below(What::FidelityBase, 1, phases);
            self.below(What::ExtraBit, 1, 2);
            for _ in 0..SLOTS {
                self.below(What::StepA, 1, src);
                self.below(What::StepB, 1, src);
                self.below(What::DstStep, 2, dst);
                self.below(What::FidelityStep, 1, phases);
                // A slot's flags are any.
                self.at += 1;
            }
        }
    }

    fn load(&mut self, width: Width, file: usize, rows: &[u8]) {
        self.within(What::LoadFile, 1, 0, D);
        // Without a file nothing that follows has a range.
        if file > D {
            return;
        }
        let (row, value) = match (file, width) {
            (D, Width::Bits32) => (What::DstLoadFirst, None),
            (D, Width::Bits16) => (What::DstLoadFirst, Some(What::DstValue)),
            _ => (What::LoadFirst, Some(What::SrcValue)),
        };
        let last = rows_of(file, width) - rows.len() / ROW_BYTES;
        self.within(row, 2, 0, last);
        if let Some(what) = value {
            for _ in 0..rows.len() / 4 {
                self.within(what, 4, 0, top_of(file, width) as usize);
            }
        }
    }

    fn field(&mut self, width: Width, field: &Field) {
        let rows = width.rows();
        match *field {
            Field::Settings(_) => self.settings(),
            Field::LoadRows { file, rows, .. } => self.load(width, file, rows),
            Field::HandOver { .. } => self.within(What::HandOverFile, 1, 0, B),
            Field::Issue { .. } => self.below(What::Thread, 1, THREADS),
            Field::LoadRegister { .. } | Field::OutputRegister { .. } => {
                self.below(What::Thread, 1, THREADS);
                self.below(What::Register, 1, REGISTERS);
            }
            Field::OutputRows { count, .. } => {
                self.within(What::OutputFirst, 2, 0, rows - count.min(FIELD_ROWS));
                self.within(What::OutputCount, 1, 1, FIELD_ROWS);
            }
            Field::ZeroRows { count, .. } => {
                self.within(What::ZeroFirst, 2, 0, rows.saturating_sub(count));
                self.within(What::ZeroCount, 2, 1, rows);
            }
        }
    }
}

/// All ranged numbers of a payload, under a width of Dst; none where its length is wrong. A first
/// row's range ends where the rows would leave their file.
pub fn ranged(width: Width, tag: u8, payload: &[u8]) -> Vec<Ranged> {
    let (at, list) = (0, Vec::new());
    let mut walk = Walk { payload, at, list };
    if let Some(field) = read(tag, payload) {
        walk.field(width, &field);
    }
    walk.list
}
