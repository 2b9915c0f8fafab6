//! Document 01.

use super::steps::{first_row, matrix_record, product, refusal, scalar, shifted_a, shifted_b};
use super::{prints, same, Case, Verdict};
use crate::engine::{
    datum, output, parts, run, step, Control, Name, Refusal, State, Tag, A, B, BF16, FORMATS, FP32,
    JOB_BYTES, MVMUL, SETRWC, SHIFTXA, TF32, THREADS,
};
use crate::worked::{
    bytes, column_0, hand_over, issue, load_12, mvmul, mvmul_word, one, power, register_out,
    row_job, settings, wide, Written,
};

pub const CASES: &[Case] = &[
    ("bitwise xor with a constant", || {
        same(scalar(0x5B88_3141, &[0, 12], 3), 9)
    }),
    ("shift by a constant of 33", || {
        same(scalar(0x5C80_2841, &[0, 0x8000_0001], 2), 2)
    }),
    ("undefined shift mode", || {
        refuses(Control::start(), 0x5C08_0000, Refusal::UndefinedMode)
    }),
    ("unsigned above", || {
        same(scalar(0x5D00_0081, &[0, 0xFFFF_FFFF, 1], 0), 1)
    }),
    ("INCRWC wraps Dst", incrwc_wraps),
    ("MVMUL row of dst 13", || row_is(0x2600_000D, 0, Ok(8))),
    ("GAPOOL row of dst 13", || row_is(0x3400_000D, 0, Ok(12))),
    ("MVMUL row of dst 511", || {
        row_is(mvmul_word(511), 0, Ok(504))
    }),
    ("MVMUL dst 512", || {
        row_is(mvmul_word(512), 0, Err(Refusal::DstRow))
    }),
    ("MVMUL dst 512, base 512", || {
        row_is(mvmul_word(512), 512, Ok(0))
    }),
    ("factors of m = 1023", || {
        same(factors(1023), [[1984.0, 62.0], [2032.0, 15.0]])
    }),
    ("factors of m = 1016", || {
        same(factors(1016), [[1984.0, 56.0], [2032.0, 8.0]])
    }),
    ("SHIFTXB rotates", || {
        let wanted: Vec<u32> = (2..=16).chain([1]).collect();
        same(shifted_b(0x1800_0000), wanted)
    }),
    ("SHIFTXB fills", || {
        let wanted: Vec<u32> = (2..=16).chain([0]).collect();
        same(shifted_b(0x1800_0400), wanted)
    }),
    ("sum of 2^24, 1, 1", || {
        same(product(&wide(), &wide(), 0, TF32, 0), 0x4B80_0000)
    }),
    ("Dst is added last", || {
        same(product(&wide(), &wide(), 0xCB80_0000, TF32, 0), 0)
    }),
    ("empty job", || same(prints(&[]), "refused 1 at 0\n")),
    ("8,193 bytes", || {
        same(prints_bytes(&[0; JOB_BYTES + 1]), "refused 1 at 0\n")
    }),
    ("length of the worked job", || {
        same(bytes(&worked(3)).len(), 185)
    }),
    ("the worked job", || {
        same(prints(&worked(3)), "finished 1\nG 0 3 00000009\n")
    }),
    ("the worked job, unset output", || {
        same(prints(&worked(4)), "refused 8 at 180\n")
    }),
    // From here on beyond the paper's list.
    ("settings alone", || {
        let job = [settings(BF16, FP32)];
        same(prints(&job), "refused 1 at 163\n")
    }),
    ("settings out of range", || {
        let job = [settings(FORMATS, FP32)];
        same(prints(&job), "refused 1 at 0\n")
    }),
    ("an output before a load", || {
        let job = [settings(BF16, FP32), register_out(1), load_12(1)];
        same(prints(&job), "refused 1 at 168\n")
    }),
    ("a cut header", || {
        let mut job = bytes(&worked(3));
        job.push(Tag::OutputRegister.byte());
        same(prints_bytes(&job), "refused 1 at 185\n")
    }),
    ("a whole multiply", || {
        same(multiply(0, &[]), format!("finished 1\n{}", row_of_sums()))
    }),
    ("clear moves on", || {
        same(multiply(1, &[mvmul(0)]), "refused 6 at 1734\n")
    }),
    ("a bank cleared twice comes back unset", || {
        let printed = multiply(3, &[clear_both(), hand_over(A), hand_over(B)]);
        same(printed, format!("finished 2\n{}", row_of_sums()))
    }),
    ("then a multiply", || {
        let mut fields = vec![clear_both()];
        fields.extend([A, B, A, B].map(hand_over));
        fields.push(mvmul(0));
        same(multiply(3, &fields), "refused 8 at 1758\n")
    }),
    ("minus zero is plus zero", || {
        same(
            product(&[datum(1, 0, 0)], &[one()], 0x8000_0000, TF32, 0),
            0,
        )
    }),
    ("zero times infinity", || {
        same(product(&[datum(0, 0, 5)], &[infinity()], 0, TF32, 0), NAN)
    }),
    ("a zero part times infinity", || {
        same(product(&[power(true, 0)], &[infinity()], 0, TF32, 1), NAN)
    }),
    ("infinity by format 2", || {
        let printed = product(&[datum(1, 255, 7)], &[one()], 0, BF16, 0);
        same(printed, 0xFF80_0000)
    }),
    ("not so by format 6", || {
        same(product(&[datum(1, 255, 7)], &[one()], 0, TF32, 0), NAN)
    }),
    ("a NaN in Dst", || {
        same(product(&[one()], &[one()], 0xFF80_0001, TF32, 0), NAN)
    }),
    ("a subnormal part", || {
        let stored = product(&[datum(1, 1, 2)], &[one()], 0, TF32, 1);
        same(stored, 0x8000_0000 | (1 << 14))
    }),
    ("SHIFTXA from row 16", || {
        let srca = shifted_a(16, SHIFTXA.word(&[(Name::Mode, 2)]));
        let wanted: Vec<u32> = [0].into_iter().chain(256..271).chain([0]).collect();
        same(srca.map(|srca| srca[..17].to_vec()), Ok(wanted))
    }),
    ("SHIFTXA from the old rows", || {
        let srca = shifted_a(0, SHIFTXA.word(&[(Name::Mode, 3)]));
        same(
            srca.map(|srca| srca[14..18].to_vec()),
            Ok(vec![15, 0, 17, 18]),
        )
    }),
    ("9 before 1", || {
        let refusal = step(&mut out_of_range(), THREADS, 0, &mut short());
        same(refusal, Some(Refusal::LentLength))
    }),
    ("a record out of range", || {
        refuses(out_of_range(), 0, Refusal::Shape)
    }),
    ("a thread out of range", || {
        let refusal = step(&mut matrix_record(), THREADS, 0, &mut State::zero());
        same(refusal, Some(Refusal::Shape))
    }),
    ("an unknown opcode", || {
        let refusal = step(&mut matrix_record(), THREADS - 1, 0, &mut State::zero());
        same(refusal, Some(Refusal::UnknownOpcode))
    }),
    ("3 before 4", || {
        let word = MVMUL.word(&[(Name::Mode, 1)]) | 1 << 16;
        refuses(matrix_record(), word, Refusal::UnnamedBit { bit: 16 })
    }),
    ("4 before 5", || {
        let word = MVMUL.word(&[(Name::Mode, 1)]);
        refuses(Control::start(), word, Refusal::UndefinedMode)
    }),
    ("5 before 6", || {
        refuses(Control::start(), MVMUL.word(&[]), Refusal::Unmodelled)
    }),
    ("9 for the job run", || {
        let answer = run(&bytes(&worked(3)), &mut short());
        same(answer, Refusal::LentLength.at(0))
    }),
];

const NAN: u32 = 0x7FC0_0000;

fn infinity() -> u32 {
    datum(0, 255, 0)
}

fn prints_bytes(job: &[u8]) -> String {
    output(job, &mut State::zero())
}

fn refuses(control: Control, word: u32, wanted: Refusal) -> Verdict {
    same(refusal(control, word), Some(wanted))
}

fn incrwc_wraps() -> Verdict {
    let mut record = matrix_record();
    record.threads[0].dst = 1020;
    let refusal = step(&mut record, 0, 0x3802_0000, &mut State::zero());
    same((refusal, record.threads[0].dst), (None, 4))
}

fn row_is(word: u32, base: u16, wanted: Result<usize, Refusal>) -> Verdict {
    same(first_row(matrix_record(), word, base), wanted)
}

/// A mantissa's factors for SrcA and SrcB.
fn factors(m: u32) -> [[f32; 2]; 2] {
    [A, B].map(|file| parts(file, TF32, datum(0, 137, m)))
}

/// The paper's worked job, with an output register.
fn worked(register: usize) -> [Written; 4] {
    [
        settings(BF16, FP32),
        load_12(1),
        issue(0x5B88_3141),
        register_out(register),
    ]
}

/// What a job with an MVMUL of these clear bits prints: 16 times 2 times 1, and zeros.
fn multiply(clear: u32, more: &[Written]) -> String {
    let mvmul = issue(MVMUL.word(&[(Name::Clear, clear)]));
    let fields = [&[mvmul], more].concat();
    let a_rows = column_0(&[power(false, 1); 16]);
    prints(&row_job(&a_rows, &[one(); 16], &fields))
}

/// The first row of these sums.
fn row_of_sums() -> String {
    format!("D 0 42000000{}\n", " 00000000".repeat(15))
}

fn clear_both() -> Written {
    issue(SETRWC.word(&[(Name::Clear, 3)]))
}

fn short() -> State {
    let mut state = State::zero();
    state.dst.pop();
    state
}

fn out_of_range() -> Control {
    Control {
        last: 8,
        ..matrix_record()
    }
}
