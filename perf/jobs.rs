//! The jobs that are measured, each as large as 8,192 bytes allow or of a chosen size.

use crate::engine::{
    datum, row_bytes, settings_bytes, write, Control, Field, Name, A, B, BF16, BITWOPDMAREG, BLOCK,
    CMPDMAREG, COLUMNS, D, DST_CLEAR, DST_ROWS, FIELD_ROWS, FP32, JOB_BYTES, MANTISSAS, MVMUL,
    REGISTERS, SHIFTDMAREG, TF32, THREADS, ZEROSRC,
};
use crate::generate::rng::Rng;

/// The settings of a job: the format of Src numbers, and the rows of Dst.
#[derive(Clone, Copy)]
pub enum Mode {
    /// TF32, rows of 32-bit numbers.
    Tf32,
    /// BF16, rows of 32-bit numbers.
    Bf16In32,
    /// BF16, rows of 16-bit numbers.
    Bf16,
}

/// Rows of an MVMUL.
const EIGHT: usize = 8;

impl Mode {
    /// Slot 0 of a thread moves Dst by 8 rows and the phase by 1, slot 1 puts Dst back to 0 and
    /// moves the phase.
    fn settings(self) -> Control {
        let mut record = match self {
            Mode::Tf32 => Control::under(TF32, FP32),
            Mode::Bf16In32 => Control::under(BF16, FP32),
            Mode::Bf16 => Control::under(BF16, 0),
        };
        for thread in &mut record.threads {
            thread.slots[0].dst_step = EIGHT as u16;
            thread.slots[1].flags = DST_CLEAR;
            for slot in &mut thread.slots[..2] {
                slot.fidelity_step = 1;
            }
        }
        record
    }

    fn rows(self) -> usize {
        self.settings().width().rows()
    }
}

/// A job that is being written.
struct Job {
    mode: Mode,
    bytes: Vec<u8>,
}

impl Job {
    fn new(mode: Mode) -> Job {
        let bytes = write(&Field::Settings(&settings_bytes(&mode.settings())));
        Job { mode, bytes }
    }

    fn push(&mut self, field: Field) {
        self.bytes.extend(write(&field));
    }

    fn load_rows(&mut self, file: usize, numbers: &[u32]) {
        let (first, rows) = (0, &row_bytes(numbers));
        self.push(Field::LoadRows { file, first, rows });
    }

    fn load_register(&mut self, thread: usize, register: usize, value: u32) {
        self.push(Field::LoadRegister {
            thread,
            register,
            value,
        });
    }

    fn issue(&mut self, thread: usize, word: u32) {
        self.push(Field::Issue { thread, word });
    }

    fn zero_rows(&mut self, count: usize) {
        self.push(Field::ZeroRows { first: 0, count });
    }

    fn output_rows(&mut self, count: usize) {
        self.push(Field::OutputRows { first: 0, count });
    }

    /// The job with its last output, a register.
    fn output_register(mut self) -> Vec<u8> {
        let (thread, register) = (0, 0);
        self.push(Field::OutputRegister { thread, register });
        self.bytes
    }

    /// The job with both Src files handed over and MVMULs, each with its slot.
    fn multiply(mut self, slots: impl Iterator<Item = u32>) -> Vec<u8> {
        for file in [A, B] {
            self.push(Field::HandOver { file });
        }
        self.zero_rows(self.mode.rows());
        for slot in slots {
            self.issue(0, MVMUL.word(&[(Name::Slot, slot)]));
        }
        self.output_rows(FIELD_ROWS);
        self.bytes
    }

    /// The same with MVMULs over all of Dst: eight rows after eight, in all four phases.
    fn multiply_all(self, count: usize) -> Vec<u8> {
        let turn = self.mode.rows() / EIGHT;
        self.multiply((0..count).map(|n| u32::from(n % turn == turn - 1)))
    }
}

/// Finite numbers around 1, with a sign and ten digits.
fn data(rng: &mut Rng, rows: usize) -> Vec<u32> {
    (0..rows * COLUMNS)
        .map(|_| datum(rng.below(2), 120 + rng.below(16), rng.below(MANTISSAS)))
        .collect()
}

/// MVMULs over cleared Src rows: only so do 1,000 of them go into a job.
pub fn cleared_multiplies(mode: Mode, count: usize) -> Vec<u8> {
    let mut job = Job::new(mode);
    // The banks at the unpackers' pointers.
    job.issue(0, ZEROSRC.word(&[(Name::FileA, 1), (Name::FileB, 1)]));
    job.multiply_all(count)
}

/// MVMULs over loaded numbers.
pub fn loaded_multiplies(rng: &mut Rng, mode: Mode, count: usize) -> Vec<u8> {
    let mut job = Job::new(mode);
    job.load_rows(A, &data(rng, BLOCK));
    job.load_rows(B, &data(rng, EIGHT));
    job.multiply_all(count)
}

/// MVMULs over loaded numbers in one phase and over the same rows, by a slot that moves nothing; the
/// first few, by slot 0, bring the phase there. With `odd`, one number of each file is that one.
pub fn phase_multiplies(rng: &mut Rng, phase: usize, odd: Option<u32>, count: usize) -> Vec<u8> {
    let mut job = Job::new(Mode::Tf32);
    for (file, rows) in [(A, BLOCK), (B, EIGHT)] {
        let mut numbers = data(rng, rows);
        if let Some(odd) = odd {
            numbers[COLUMNS / 2] = odd;
        }
        job.load_rows(file, &numbers);
    }
    job.multiply((0..count).map(|n| if n < phase { 0 } else { 2 }))
}

/// The three scalar instructions in all their modes, with registers and constants, on all threads.
pub fn scalars(rng: &mut Rng, count: usize) -> Vec<u8> {
    const USED: usize = 4;
    let mut job = Job::new(Mode::Tf32);
    for thread in 0..THREADS {
        for register in 0..USED {
            job.load_register(thread, register, rng.word());
        }
    }
    for _ in 0..count {
        let entry = rng.pick(&[&BITWOPDMAREG, &SHIFTDMAREG, &CMPDMAREG]);
        let (_, last) = entry.find(Name::Mode).expect("modes").defined;
        let mode = rng.below(last + 1);
        let constant = rng.below(2);
        let mut word = entry.word(&[(Name::Constant, constant), (Name::Mode, mode)]);
        for name in [Name::Result, Name::RegisterB, Name::RegisterA] {
            word = entry.put(word, name, rng.below(USED as u32));
        }
        job.issue(rng.index(THREADS), word);
    }
    job.output_register()
}

/// The same 512 rows zeroed over and over.
pub fn zeroings(mode: Mode, count: usize) -> Vec<u8> {
    let mut job = Job::new(mode);
    for _ in 0..count {
        job.zero_rows(DST_ROWS);
    }
    job.output_rows(1);
    job.bytes
}

/// The same 60 rows of Dst, twice: a job holds no more.
pub fn dst_loads(rng: &mut Rng, mode: Mode) -> Vec<u8> {
    let mut job = Job::new(mode);
    for _ in 0..2 {
        let numbers = (0..60 * COLUMNS).map(|_| rng.below(1 << 16));
        job.load_rows(D, &numbers.collect::<Vec<u32>>());
    }
    job.output_rows(1);
    job.bytes
}

/// Rows of Dst and of SrcA, 64 of each at most.
pub fn row_loads(rng: &mut Rng, rows: usize) -> Vec<u8> {
    let mut job = Job::new(Mode::Tf32);
    let of_dst = rows.min(FIELD_ROWS);
    let numbers = (0..of_dst * COLUMNS).map(|_| rng.word());
    job.load_rows(D, &numbers.collect::<Vec<u32>>());
    if rows > of_dst {
        job.load_rows(A, &data(rng, rows - of_dst));
    }
    job.output_rows(1);
    job.bytes
}

pub fn register_loads(rng: &mut Rng, count: usize) -> Vec<u8> {
    let mut job = Job::new(Mode::Tf32);
    for n in 0..count {
        job.load_register(n % THREADS, n / THREADS % REGISTERS, rng.word());
    }
    job.output_register()
}

/// As many lines as a job can ask for: 64 rows, over and over.
pub fn outputs() -> Vec<u8> {
    let mut job = Job::new(Mode::Tf32);
    job.zero_rows(DST_ROWS);
    let output = write(&Field::OutputRows {
        first: 0,
        count: FIELD_ROWS,
    });
    while job.bytes.len() + output.len() <= JOB_BYTES {
        job.bytes.extend(&output);
    }
    job.bytes
}
