//! Counted rows by group.

use std::collections::HashMap;

use crate::engine::named;

named! {
    /// In the order of the printed table.
    pub enum Group {
        Jobs = "jobs",
        PassingSettings = "settings of passing jobs",
        RefusedSettings = "settings of refused jobs",
        PassingSwitches = "switches of passing jobs",
        RefusedSwitches = "switches of refused jobs",
        RefusalNumber = "refusal number",
        Size = "size",
        WrongShape = "shape wrong (1)",
        PassingField = "field in passing jobs",
        IssueThread = "issue on thread",
        PassingOpcode = "opcode in passing jobs",
        PassingMode = "mode in passing jobs",
        UnknownOpcode = "unknown opcode (2)",
        UnknownOpcodeStep = "unknown opcode of a step (2)",
        UnnamedBit = "lowest unnamed bit (3)",
        UnnamedBitStep = "lowest unnamed bit of a step (3)",
        BesideUnnamed = "beside an unnamed bit (3)",
        UndefinedMode = "mode undefined (4)",
        Unmodelled = "unmodelled (5)",
        OtherOwner = "other owner (6)",
        RefusedByClear = "bank gone by the clear before (6)",
        RefusedBySwitch = "meets a bank that only a switch kept (6)",
        BehindKept = "in the bank behind a kept one (6, 8)",
        DstRow = "Dst row from 512 (7)",
        RefusedByCounter = "past Dst by the counter (7)",
        Unset = "unset (8)",
        UnsetHalf = "16-bit row unset beside a set one (8)",
        HalfRows = "16-bit rows in passing jobs",
        RightWith16 = "right with 16-bit rows (1)",
        RightWith32 = "right with 32-bit rows (1)",
        HalfMultiply = "16-bit multiply",
        WrittenHalf = "16-bit row written beside a set one",
        NeitherMode = "neither mode, passing",
        MultiplyFormat = "multiply format",
        MultiplyPhase = "multiply phase",
        MultiplyClear = "multiply clear",
        LegacyClear = "legacy clear",
        SetrwcClear = "SETRWC clear",
        SetrwcWhich = "SETRWC which",
        MultiplyBank = "multiply bank",
        LoadBank = "load into bank",
        ClearedEarly = "cleared while the unpackers'",
        DoneByClear = "in the bank that a clear moved on to",
        ClearKept = "clear under a switch",
        InKept = "in a kept bank",
        DoneBySwitch = "done only by a switch",
        MultiplyRow = "multiply first row",
        DoneByCounter = "inside Dst by the counter",
        SlotUsed = "slot used",
        SlotFlag = "slot flag",
        SlotWraps = "slot wraps",
        IncrwcWraps = "INCRWC wraps",
        ZerosrcFiles = "ZEROSRC files",
        Zerosrc = "ZEROSRC",
        ShiftxaLast = "SHIFTXA last row",
        ShiftAfterLegacy = "SHIFTXA after a legacy instruction",
        UnsetAfterLegacy = "SHIFTXA after a legacy instruction (8)",
        BetweenLegacy = "between a legacy instruction and SHIFTXA",
        Shiftxb = "SHIFTXB",
        ScalarB = "scalar B",
        ScalarCompare = "scalar compare",
        DatumA = "SrcA datum multiplied",
        DatumB = "SrcB datum multiplied",
        PartA32 = "SrcA parts of a multiply",
        PartB32 = "SrcB parts of a multiply",
        PartA16 = "SrcA parts of a 16-bit multiply",
        PartB16 = "SrcB parts of a 16-bit multiply",
        Before32 = "Dst before a multiply",
        Before16 = "16-bit Dst before a multiply",
        After32 = "Dst after a multiply",
        After16 = "16-bit Dst after a multiply",
        RoundingPositive = "16-bit rounding, positive",
        RoundingNegative = "16-bit rounding, negative",
        RangeLow = "range low end, passing",
        RangeHigh = "range high end, passing",
        PastHigh = "range past high end (1)",
        PastLow = "range past low end (1)",
        HighFlags = "flags past the switches (1)",
        LoadRows = "rows of a load",
    }
}

/// A row's name, and whether it is hit.
pub type Test = (&'static str, bool);

/// A group's rows in the order they were entered, and where each stands.
#[derive(Default)]
struct Rows {
    rows: Vec<(String, u64)>,
    index: HashMap<String, usize>,
}

/// Only entered rows can be hit, so that a row which no job reaches still stands in the table with a
/// zero.
pub struct Table {
    groups: Vec<Rows>,
}

impl Table {
    pub fn empty() -> Table {
        Table {
            groups: Group::ALL.iter().map(|_| Rows::default()).collect(),
        }
    }

    pub fn enter<S: ToString>(&mut self, group: Group, names: impl IntoIterator<Item = S>) {
        let Rows { rows, index } = &mut self.groups[group as usize];
        for name in names {
            index.insert(name.to_string(), rows.len());
            rows.push((name.to_string(), 0));
        }
    }

    /// The names of tests as rows.
    pub fn enter_tests(&mut self, group: Group, tests: impl IntoIterator<Item = Test>) {
        self.enter(group, tests.into_iter().map(|(name, _)| name));
    }

    fn row(&self, group: Group, name: &str) -> usize {
        let row = self.groups[group as usize].index.get(name);
        *row.unwrap_or_else(|| panic!("no row {name} in {}", group.text()))
    }

    pub fn hit(&mut self, group: Group, name: impl ToString) {
        let row = self.row(group, &name.to_string());
        self.groups[group as usize].rows[row].1 += 1;
    }

    pub fn hit_if(&mut self, holds: bool, group: Group, name: impl ToString) {
        if holds {
            self.hit(group, name);
        }
    }

    pub fn hit_tests(&mut self, group: Group, tests: impl IntoIterator<Item = Test>) {
        for (name, holds) in tests {
            self.hit_if(holds, group, name);
        }
    }

    pub fn hits(&self, group: Group, name: &str) -> u64 {
        self.groups[group as usize].rows[self.row(group, name)].1
    }

    /// The printed table, and its rows that stayed zero.
    pub fn text(&self) -> (String, Vec<String>) {
        let (mut text, mut missing) = (String::new(), Vec::new());
        for (group, Rows { rows, .. }) in Group::ALL.iter().zip(&self.groups) {
            text += &format!("{}\n", group.text());
            for (name, hits) in rows {
                text += &format!("  {name:<36} {hits:>10}\n");
                if *hits == 0 {
                    missing.push(format!("{}: {name}", group.text()));
                }
            }
        }
        (text, missing)
    }
}
