//! What a job or a single step is answered.

/// Document 01's table of numbers given back.
#[derive(Debug, Clone, Copy, PartialEq, Eq)]
pub enum Refusal {
    /// The job's shape is wrong, or a single step's record or thread is out of range.
    Shape,
    UnknownOpcode,
    /// With the lowest bit that is 1 though its row does not name it.
    UnnamedBit {
        bit: u8,
    },
    UndefinedMode,
    Unmodelled,
    OtherOwner,
    DstRow,
    Unset,
    /// A lent slice has another length.
    LentLength,
}

impl Refusal {
    /// The numbers that the pre-check gives: it is lent the job only.
    pub const OF_PRECHECK: &'static [u8] = &[1, 2, 3, 4, 5, 6, 7, 8];
    /// Those of the run.
    pub const OF_RUN: &'static [u8] = &[1, 2, 3, 4, 5, 6, 7, 8, 9];
    /// Those of the single step, which knows no marks.
    pub const OF_STEP: &'static [u8] = &[1, 2, 3, 4, 5, 6, 7, 9];

    pub fn number(self) -> u8 {
        match self {
            Refusal::Shape => 1,
            Refusal::UnknownOpcode => 2,
            Refusal::UnnamedBit { .. } => 3,
            Refusal::UndefinedMode => 4,
            Refusal::Unmodelled => 5,
            Refusal::OtherOwner => 6,
            Refusal::DstRow => 7,
            Refusal::Unset => 8,
            Refusal::LentLength => 9,
        }
    }

    /// The bit that is told beside the number: a refusal 3 has one.
    pub fn bit(self) -> Option<u8> {
        match self {
            Refusal::UnnamedBit { bit } => Some(bit),
            _ => None,
        }
    }

    pub fn at(self, place: usize) -> Answer {
        Answer::Refused {
            refusal: self,
            place,
        }
    }
}

#[derive(Debug, Clone, PartialEq, Eq)]
pub enum Answer {
    /// With the count of issue fields.
    Finished(u64),
    Refused {
        refusal: Refusal,
        place: usize,
    },
}

impl Answer {
    /// A refusal's number.
    pub fn number(&self) -> Option<u8> {
        match self {
            Answer::Finished(_) => None,
            Answer::Refused { refusal, .. } => Some(refusal.number()),
        }
    }

    /// The answer's line. The pre-check and the run call a passing job by another word.
    pub fn line(&self, passed: &str) -> String {
        match self {
            Answer::Finished(count) => format!("{passed} {count}"),
            Answer::Refused { refusal, place } => {
                let line = format!("refused {} at {place}", refusal.number());
                match refusal.bit() {
                    Some(bit) => format!("{line} bit {bit}"),
                    None => line,
                }
            }
        }
    }
}
