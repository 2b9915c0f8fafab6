//! The papers' numbers as jobs: they are stored, and the self-test says what they print.

use std::ops::Range;

use crate::engine::{
    datum, row_bytes, settings_bytes, write, Control, Entry, Field, Name, A, B, BF16, BITWOPDMAREG,
    BLOCK, BLOCK_NUMBERS, CLREXPHIST, CMPDMAREG, COLUMNS, CONV3S1, D, DST_ROWS, FLUSHDMA, FP16A,
    FP32, GATESRCRST, INCRWC, INT8, JOB_BYTES, KEEP, MANTISSAS, MOST_DST_ROWS, MPOOL3S2, MVMUL,
    SETRWC, SHIFTDMAREG, SHIFTXA, SHIFTXB, TF32, THREADS, ZEROSRC,
};

/// Rows of a multiply.
const EIGHT: usize = 8;
const EIGHT_NUMBERS: usize = EIGHT * COLUMNS;

/// A field's bytes.
pub type Written = Vec<u8>;

pub fn bytes(fields: &[Written]) -> Vec<u8> {
    fields.concat()
}

/// The settings of a format and flags, the rest 0.
pub fn settings(format: u8, flags: u8) -> Written {
    settings_of(&Control::under(format, flags))
}

/// A record's settings.
fn settings_of(record: &Control) -> Written {
    write(&Field::Settings(&settings_bytes(record)))
}

pub fn issue(word: u32) -> Written {
    issue_on(0, word)
}

fn issue_on(thread: usize, word: u32) -> Written {
    write(&Field::Issue { thread, word })
}

/// An MVMUL with a dst field.
pub fn mvmul_word(dst: usize) -> u32 {
    MVMUL.word(&[(Name::Dst, dst as u32)])
}

pub fn mvmul(dst: usize) -> Written {
    issue(mvmul_word(dst))
}

pub fn load(file: usize, first: usize, numbers: &[u32]) -> Written {
    let rows = &row_bytes(numbers);
    write(&Field::LoadRows { file, first, rows })
}

pub fn zero(first: usize, count: usize) -> Written {
    write(&Field::ZeroRows { first, count })
}

pub fn rows_out(first: usize, count: usize) -> Written {
    write(&Field::OutputRows { first, count })
}

pub fn register_out(register: usize) -> Written {
    let thread = 0;
    write(&Field::OutputRegister { thread, register })
}

pub fn hand_over(file: usize) -> Written {
    write(&Field::HandOver { file })
}

/// 12 in a register of thread 0.
pub fn load_12(register: usize) -> Written {
    let (thread, value) = (0, 12);
    write(&Field::LoadRegister {
        thread,
        register,
        value,
    })
}

/// The datum of a power of two.
pub fn power(minus: bool, exponent: i32) -> u32 {
    datum(minus.into(), (exponent + 127) as u32, 0)
}

pub fn one() -> u32 {
    power(false, 0)
}

/// The datum of a whole number from 1 on with at most 11 bits, times a power of two.
fn whole(number: u32, exponent: u32) -> u32 {
    let top = number.ilog2();
    datum(0, 127 + exponent + top, (number << (10 - top)) % MANTISSAS)
}

/// A row of SrcB that holds 1 to 16 as numbers.
fn one_to_16() -> Vec<u32> {
    (1..=16).map(|n| whole(n, 0)).collect()
}

/// Rows of SrcA with these numbers in column 0, from the top down.
pub fn column_0(numbers: &[u32]) -> Vec<u32> {
    let mut rows = vec![0; BLOCK_NUMBERS];
    for (k, number) in numbers.iter().enumerate() {
        rows[k * COLUMNS] = *number;
    }
    rows
}

/// One row of SrcB above seven of zeros.
fn load_b(b_row: &[u32]) -> Written {
    let mut b_rows = vec![0; EIGHT_NUMBERS];
    b_rows[..b_row.len()].copy_from_slice(b_row);
    load(B, 0, &b_rows)
}

/// The fields that load SrcA rows and one row of SrcB above seven of zeros, and hand both over.
fn ready(a_rows: &[u32], b_row: &[u32]) -> Vec<Written> {
    vec![
        load(A, 0, a_rows),
        load_b(b_row),
        hand_over(A),
        hand_over(B),
    ]
}

/// A job of document 01 with both Src files ready and eight Dst rows of zeros; then the fields
/// given, and the first Dst row as output.
pub fn row_job(a_rows: &[u32], b_row: &[u32], fields: &[Written]) -> Vec<Written> {
    let mut job = vec![settings(TF32, FP32)];
    job.extend(ready(a_rows, b_row));
    job.push(zero(0, EIGHT));
    job.extend_from_slice(fields);
    job.push(rows_out(0, 1));
    job
}

/// Products 2^24, 1 and 1 by a row and a column of these.
pub fn wide() -> [u32; 3] {
    [power(false, 12), one(), one()]
}

/// Document 01's numbers that it does not mark as proved, as jobs: the row of SrcB shows in Dst
/// through a SrcA with ones on its diagonal, so it holds 1 to 16 as numbers.
pub fn paper_jobs() -> Vec<Vec<u8>> {
    let mut ones = vec![0; BLOCK_NUMBERS];
    for k in 0..BLOCK {
        ones[k * COLUMNS + k] = one();
    }
    let shifted = |word: u32| bytes(&row_job(&ones, &one_to_16(), &[issue(word), mvmul(0)]));
    vec![
        shifted(SHIFTXB.word(&[])),
        shifted(SHIFTXB.word(&[(Name::ZeroFill, 1)])),
        bytes(&row_job(&column_0(&wide()), &wide(), &[mvmul(0)])),
        Vec::new(),
        vec![0; JOB_BYTES + 1],
    ]
}

// ------------------------------------------------------------------------- Dst rows of 16 bits

/// A job with 16-bit Dst rows.
pub fn in_halves(fields: &[Written]) -> Vec<Written> {
    [&[settings(BF16, 0)], fields].concat()
}

/// SrcA's column 0 with these powers of two from the top down, and SrcB's row 0 with ones.
pub fn powers(exponents: &[i32]) -> Vec<Written> {
    let numbers = exponents.iter().map(|&exponent| power(false, exponent));
    let numbers: Vec<u32> = numbers.collect();
    ready(&column_0(&numbers), &vec![one(); exponents.len()])
}

/// Four Dst rows: the number 256 times the row's place among them, plus 1 and the column.
pub fn four_rows() -> Vec<u32> {
    (0..64).map(|n| n / 16 * 256 + n % 16 + 1).collect()
}

/// Loads, zeroing and output from row 510 to 513.
pub fn across() -> Vec<Written> {
    let load = load(D, DST_ROWS - 2, &four_rows());
    in_halves(&[load, zero(DST_ROWS - 1, 2), rows_out(DST_ROWS - 2, 4)])
}

/// A multiply into Dst rows of zeros: 1 + 2^-8 + 2^-26.
pub fn rounded_sum(format: u8, flags: u8, dst: usize) -> Vec<Written> {
    let mut job = vec![settings(format, flags)];
    job.extend(powers(&[0, -8, -26]));
    let lent = zero(dst % DST_ROWS, EIGHT);
    job.extend([lent, zero(dst, EIGHT), mvmul(dst), rows_out(dst, 1)]);
    job
}

/// A multiply into the high halves of lent rows 0 to 7, both halves loaded and put out.
pub fn both_halves() -> Vec<Written> {
    let mut job = in_halves(&powers(&[0, 0, 0]));
    job.extend([
        load(D, 0, &[0x3F80; EIGHT_NUMBERS]),
        load(D, DST_ROWS, &[0x4040; EIGHT_NUMBERS]),
        mvmul(DST_ROWS),
        rows_out(0, 1),
        rows_out(DST_ROWS, 1),
    ]);
    job
}

/// Old number, powers of two that are added (or subtracted), and the 16-bit result.
type Rounded = (u32, &'static [(bool, i32)], u32);
pub const ROUNDED: [Rounded; 14] = [
    (0x3F80, &[(false, -8)], 0x3F80),
    (0x3F81, &[(false, -8)], 0x3F82),
    (0x3F80, &[(false, -8), (false, -26)], 0x3F80),
    (0x3F80, &[(false, -8), (false, -23)], 0x3F81),
    (0x7F7F, &[(false, 119)], 0x7F80),
    (0x7F7F, &[(false, 118)], 0x7F7F),
    (0xFF7F, &[(true, 119)], 0xFF80),
    (0x8000, &[], 0x0000),
    (0x7F81, &[(false, 0)], 0x7FC0),
    (0xFF80, &[(false, 0)], 0xFF80),
    (0x0001, &[(false, -134)], 0x0002),
    (0x8002, &[(true, -134)], 0x8002),
    (0x0000, &[(true, -134)], 0x8000),
    (0x007F, &[(false, -134)], 0x0080),
];

/// These in one multiply, each in a column of its own, in row 512.
pub fn rounded_row() -> Vec<Written> {
    // SrcB's row is 1, 1 and 2^-34, the last for powers that SrcA alone does not reach.
    const SMALL: i32 = -34;
    let mut a_rows = vec![0; BLOCK_NUMBERS];
    let mut old = vec![0; EIGHT_NUMBERS];
    for (column, (number, added, _)) in ROUNDED.iter().enumerate() {
        old[column] = *number;
        for (k, &(minus, exponent)) in added.iter().enumerate() {
            let (k, exponent) = if exponent < -126 {
                (2, exponent - SMALL)
            } else {
                (k, exponent)
            };
            a_rows[k * COLUMNS + column] = power(minus, exponent);
        }
    }
    let mut job = in_halves(&ready(&a_rows, &[one(), one(), power(false, SMALL)]));
    job.extend([
        load(D, DST_ROWS, &old),
        mvmul(DST_ROWS),
        rows_out(DST_ROWS, 1),
    ]);
    job
}

/// A row of zeros at 0, and one at a chosen row that ends with this number.
pub fn ending(format: u8, flags: u8, row: usize, number: u32) -> Vec<Written> {
    let mut numbers = [0x7F80; COLUMNS];
    numbers[COLUMNS - 1] = number;
    vec![
        settings(format, flags),
        zero(0, 1),
        load(D, row, &numbers),
        rows_out(row, 1),
    ]
}

/// The numbers of order 1 as jobs.
pub fn half_jobs() -> Vec<Vec<u8>> {
    let (border, rows) = (DST_ROWS, MOST_DST_ROWS);
    let zeroing = |first: usize, count: usize| in_halves(&[zero(first, count), rows_out(1023, 1)]);
    let jobs = [
        across(),
        rounded_sum(BF16, 0, 0),
        rounded_sum(BF16, FP32, 0),
        rounded_sum(BF16, 0, border),
        rounded_sum(BF16, INT8, 0),
        rounded_sum(TF32, 0, 0),
        both_halves(),
        rounded_row(),
        ending(BF16, 0, border, 0xFFFF),
        ending(BF16, 0, border, 0x1_0000),
        ending(BF16, FP32, border - 1, 0x1_0000),
        ending(BF16, FP32, border, 0),
        ending(BF16, FP16A, border, 0),
        zeroing(0, rows),
        zeroing(0, rows + 1),
        zeroing(1, rows),
        zeroing(border, border),
        zeroing(0, border),
    ];
    jobs.iter().map(|job| bytes(job)).collect()
}

// ------------------------------------------------------------ SHIFTXA after a legacy instruction

/// The slot that adds 16 to SrcA, on every thread.
const NEXT: u32 = 1;

/// SrcA rows that tell rows and columns apart: row r has (r + 1) times 2^j in column j.
fn load_a(rows: Range<usize>) -> Written {
    let row = |r: usize| (0..COLUMNS as u32).map(move |j| whole(r as u32 + 1, j));
    let numbers: Vec<u32> = rows.clone().flat_map(row).collect();
    load(A, rows.start, &numbers)
}

fn shift_right() -> u32 {
    SHIFTXA.word(&[(Name::Mode, 2)])
}

/// A job with these loads in which a thread brings its SrcA counter to 16 and issues these words.
/// Then thread 0 moves SHIFTXA's rows to the right and multiplies what is in rows 0 to 15 by SrcB's
/// row of 1 to 16.
fn shift_after(loads: &[Written], thread: usize, words: &[u32]) -> Vec<Written> {
    shift_under(0, loads, thread, words)
}

/// The same with switches.
fn shift_under(switches: u8, loads: &[Written], thread: usize, words: &[u32]) -> Vec<Written> {
    let mut record = Control::under(TF32, FP32 | switches);
    for thread in &mut record.threads {
        thread.slots[NEXT as usize].src_step[A] = BLOCK as u8;
    }
    // A word adds at most 15.
    let add_8 = INCRWC.word(&[(Name::CounterA, 8)]);
    let mut job = vec![settings_of(&record)];
    job.extend_from_slice(loads);
    job.extend([load_b(&one_to_16()), hand_over(B), zero(0, EIGHT)]);
    let words = [&[add_8, add_8], words].concat();
    job.extend(words.iter().map(|&word| issue_on(thread, word)));
    job.extend([
        issue(shift_right()),
        issue(SETRWC.word(&[(Name::Which, 1)])),
        mvmul(0),
        rows_out(0, 1),
    ]);
    job
}

/// A legacy instruction whose slot moves the counter on.
fn stepping(entry: &Entry) -> u32 {
    entry.word(&[(Name::Slot, NEXT)])
}

/// A CONV3S1 with these rows of SrcA alone.
pub fn shift_after_conv(rows: Range<usize>) -> Vec<Written> {
    shift_after(&[load_a(rows), hand_over(A)], 0, &[stepping(&CONV3S1)])
}

/// The same with one that gives SrcA's bank back: the rows are in the other bank, and those of the
/// first bank are zeros.
pub fn shift_after_clear(rows: Range<usize>) -> Vec<Written> {
    let conv = CONV3S1.put(stepping(&CONV3S1), Name::Clear, 1);
    let zeros = load(A, 0, &[0; 2 * BLOCK_NUMBERS]);
    let loads = [zeros, hand_over(A), load_a(rows), hand_over(A)];
    shift_after(&loads, 0, &[conv])
}

/// A legacy instruction on another thread, whose counter alone is not 0.
pub fn shift_after_other_thread(rows: Range<usize>) -> Vec<Written> {
    shift_after(&[load_a(rows), hand_over(A)], 2, &[stepping(&MPOOL3S2)])
}

/// A CONV3S1, then a word of each entry that leaves the last row as it is, the counter at 32.
pub fn shift_after_others(rows: Range<usize>) -> Vec<Written> {
    let plain = [
        &SETRWC,
        &INCRWC,
        &ZEROSRC,
        &GATESRCRST,
        &CLREXPHIST,
        &FLUSHDMA,
        &BITWOPDMAREG,
        &SHIFTDMAREG,
        &CMPDMAREG,
    ];
    // A row of zeros for SHIFTXB.
    let shift_b = SHIFTXB.word(&[(Name::Row, 1)]);
    let mut words = vec![stepping(&CONV3S1), shift_right(), shift_b];
    words.extend(plain.map(|entry| entry.word(&[])));
    shift_after(&[load_a(rows), hand_over(A), load_12(0)], 0, &words)
}

/// The numbers of order 3 as jobs.
pub fn legacy_jobs() -> Vec<Vec<u8>> {
    let jobs = [
        shift_after_conv(0..32),
        shift_after_conv(0..16),
        shift_after_conv(16..32),
        shift_after_clear(16..32),
        shift_after_clear(0..16),
        shift_after_other_thread(0..32),
        shift_after_others(16..32),
    ];
    jobs.iter().map(|job| bytes(job)).collect()
}

// ------------------------------------------------------------------------ Parts of tiny numbers

/// The slot that goes one phase and eight Dst rows on.
const NEXT_PHASE: u32 = 1;

/// A row at an exponent with low parts of every size, every other number negative.
fn tiny_row(e: u32) -> Vec<u32> {
    let mantissas = [
        1023, 2, 1, 4, 8, 16, 32, 0, 62, 63, 71, 960, 1016, 42, 21, 3,
    ];
    let numbers = (0..).zip(mantissas);
    numbers.map(|(n, m)| datum(n % 2, e, m)).collect()
}

/// Such rows at exponents from 1 on.
fn tiny_rows(count: u32) -> Vec<u32> {
    (1..=count).flat_map(tiny_row).collect()
}

/// 2^127, with a mantissa for a low part beside it.
fn large(m: u32) -> u32 {
    datum(0, 254, m)
}

/// Rows of zeros but for a number on the diagonal: they show the rows of the other file in Dst.
fn diagonal(rows: usize, number: u32) -> Vec<u32> {
    let mut numbers = vec![0; rows * COLUMNS];
    for n in 0..rows {
        numbers[n * COLUMNS + n] = number;
    }
    numbers
}

/// A row as SrcA's row 0 and, but for column 0, as SrcB's row 1, each with a large number of the
/// other file for each of its own: Dst's row 0 shows the one and row 1 the other.
fn both_ways(row: &[u32], large_a: u32, large_b: u32) -> [Vec<u32>; 2] {
    let mut a_rows = diagonal(BLOCK, large_a);
    a_rows[..COLUMNS].copy_from_slice(row);
    let mut b_rows = vec![0; EIGHT_NUMBERS];
    b_rows[0] = large_b;
    b_rows[COLUMNS + 1..2 * COLUMNS].copy_from_slice(&row[1..]);
    [a_rows, b_rows]
}

/// A job that multiplies these rows of SrcA and SrcB in phases from one on, into one eight of Dst
/// rows after another, and puts out the first rows of each.
fn in_phases(
    (format, flags, phase): (u8, u8, u8),
    [a_rows, b_rows]: [Vec<u32>; 2],
    eights: Range<usize>,
    count: usize,
) -> Vec<Written> {
    let mut record = Control::under(format, flags);
    record.threads[0].fidelity_base = phase;
    let slot = &mut record.threads[0].slots[NEXT_PHASE as usize];
    (slot.fidelity_step, slot.dst_step) = (1, EIGHT as u16);
    let first = EIGHT * eights.start;
    let fields = [(Name::Slot, NEXT_PHASE), (Name::Dst, first as u32)];
    let mut job = vec![
        settings_of(&record),
        load(A, 0, &a_rows),
        load(B, 0, &b_rows),
        hand_over(A),
        hand_over(B),
        zero(first, EIGHT * eights.len()),
    ];
    job.extend(vec![issue(MVMUL.word(&fields)); eights.len()]);
    job.extend(eights.map(|eight| rows_out(EIGHT * eight, count)));
    job
}

/// SrcA's low parts at exponents from 1 to 8.
pub fn tiny_a() -> Vec<Written> {
    let rows = [tiny_rows(16), diagonal(EIGHT, large(0))];
    in_phases((TF32, FP32, 1), rows, 0..1, EIGHT)
}

/// SrcB's.
pub fn tiny_b() -> Vec<Written> {
    let rows = [diagonal(BLOCK, large(0)), tiny_rows(8)];
    in_phases((TF32, FP32, 2), rows, 0..1, EIGHT)
}

/// Both low parts, those of the large numbers 2^122 and 2^120; then both high parts.
pub fn tiny_low_and_high() -> Vec<Written> {
    let rows = both_ways(&tiny_row(1), large(32), large(8));
    in_phases((TF32, FP32, 3), rows, 0..2, 2)
}

/// Exponents from 9 to 12, where the last low parts are subnormal.
pub fn tiny_border() -> Vec<Written> {
    let number = |n: u32| datum(n % 2, 9 + n / 4, [1, 2, 3, 15][n as usize % 4]);
    let row: Vec<u32> = (0..16).map(number).collect();
    let rows = both_ways(&row, large(0), large(0));
    in_phases((TF32, FP32, 1), rows, 0..2, 2)
}

/// One tiny number among ordinary ones in SrcA's row 5 and column 3, and one in SrcB's row 2 and
/// column 7; the other file is large where it meets them.
pub fn one_tiny() -> Vec<Written> {
    let (tiny, ordinary) = (datum(1, 1, 1023), datum(0, 67, 701));
    let mut a_rows = vec![ordinary; BLOCK_NUMBERS];
    a_rows[5 * COLUMNS + 3] = tiny;
    a_rows[7 * COLUMNS..8 * COLUMNS].fill(large(0));
    let mut b_rows = vec![ordinary; EIGHT_NUMBERS];
    for row in b_rows.chunks_mut(COLUMNS) {
        row[5] = large(0);
    }
    b_rows[2 * COLUMNS + 7] = tiny;
    in_phases((TF32, FP32, 1), [a_rows, b_rows], 0..2, 3)
}

/// SrcA's tiny rows with one infinity in row 2 and column 5.
pub fn one_infinity_a() -> Vec<Written> {
    let mut a_rows = tiny_rows(16);
    a_rows[2 * COLUMNS + 5] = datum(1, 255, 0);
    let rows = [a_rows, diagonal(EIGHT, large(0))];
    in_phases((TF32, FP32, 1), rows, 0..1, EIGHT)
}

/// SrcB's with one in row 3 and column 9.
pub fn one_infinity_b() -> Vec<Written> {
    let mut b_rows = tiny_rows(8);
    b_rows[3 * COLUMNS + 9] = datum(0, 255, 0);
    let rows = [diagonal(BLOCK, large(0)), b_rows];
    in_phases((TF32, FP32, 2), rows, 0..1, EIGHT)
}

/// Phases 1 to 3 with 16-bit Dst rows, from the low halves to the high ones.
pub fn tiny_halves() -> Vec<Written> {
    let rows = both_ways(&tiny_row(1), large(32), large(8));
    in_phases((BF16, 0, 1), rows, 63..66, 2)
}

/// The numbers of order 2 as jobs.
pub fn tiny_jobs() -> Vec<Vec<u8>> {
    let jobs = [
        tiny_a(),
        tiny_b(),
        tiny_low_and_high(),
        tiny_border(),
        one_tiny(),
        one_infinity_a(),
        one_infinity_b(),
        tiny_halves(),
    ];
    jobs.iter().map(|job| bytes(job)).collect()
}

// ---------------------------------------------------------------------------- Which bit was wrong

/// Document 01's worked job with other words, on threads 0, 1 and 2: the first one stands at 172. It
/// puts out the register that it loads.
pub fn with_words(words: &[u32]) -> Vec<Written> {
    let mut job = vec![settings(BF16, FP32), load_12(1)];
    let words = words.iter().enumerate();
    job.extend(words.map(|(n, &word)| issue_on(n % THREADS, word)));
    job.push(register_out(1));
    job
}

/// What such a job prints that finishes with one word, and with three.
const FINISHED_1: &str = "finished 1\nG 0 1 0000000c";
const FINISHED_3: &str = "finished 3\nG 0 1 0000000c";

/// Words for such a job, and what it prints.
type Told = (&'static [u32], &'static str);
pub const TOLD: [Told; 30] = [
    // MVMUL: bit 16 as in document 02, the two unnamed bits above it, all bits.
    (&[0x2601_0000], "refused 3 at 172 bit 16"),
    (&[0x2606_0000], "refused 3 at 172 bit 17"),
    (&[0x26FF_FFFF], "refused 3 at 172 bit 16"),
    // Beside an undefined mode, and that mode alone.
    (&[0x263C_0000], "refused 3 at 172 bit 18"),
    (&[0x2638_0000], "refused 4 at 172"),
    // GAPOOL has its slot one bit higher.
    (&[0x3404_4000], "refused 3 at 172 bit 14"),
    (&[0x3402_8000], "refused 3 at 172 bit 17"),
    // CONV3S1 names bit 17, which stands between unnamed ones.
    (&[0x2221_0000], "refused 3 at 172 bit 16"),
    (&[0x222A_0000], "refused 3 at 172 bit 19"),
    // SETRWC with six bits for its four, with one bit mended and with both.
    (&[0x3700_003F], "refused 3 at 172 bit 4"),
    (&[0x3700_002F], "refused 3 at 172 bit 5"),
    (&[0x3700_000F], FINISHED_1),
    // INCRWC in an undefined mode, with an unnamed bit and without.
    (&[0x38FC_0001], "refused 3 at 172 bit 0"),
    (&[0x38FC_0000], "refused 4 at 172"),
    // ZEROSRC names all bits.
    (&[0x11FF_FFFF], FINISHED_1),
    // SHIFTXA, in an undefined mode and with all bits; SHIFTXB.
    (&[0x1780_0000], "refused 3 at 172 bit 23"),
    (&[0x17FF_FFFF], "refused 3 at 172 bit 2"),
    (&[0x1881_2000], "refused 3 at 172 bit 13"),
    // All that GATESRCRST, FLUSHDMA and CLREXPHIST name, and then more.
    (&[0x3500_0003, 0x4600_000F, 0x2100_0000], FINISHED_3),
    (&[0x3580_0007], "refused 3 at 172 bit 2"),
    (&[0x4680_001F], "refused 3 at 172 bit 4"),
    (&[0x2100_0001], "refused 3 at 172 bit 0"),
    (&[0x21FF_FFFF], "refused 3 at 172 bit 0"),
    // The worked job's own word, and one that reads an unset register in an undefined mode.
    (&[0x5BE8_3141], "refused 3 at 172 bit 21"),
    (&[0x5BDC_3145], "refused 3 at 172 bit 22"),
    // An unknown opcode with all bits.
    (&[0x28FF_FFFF], "refused 2 at 172"),
    // Of several words the first wrong one counts, whatever its bit.
    (&[0x2604_0000, 0x2100_0001], "refused 3 at 172 bit 18"),
    (
        &[0x2100_0000, 0x18A0_0800, 0x2100_0001],
        "refused 3 at 180 bit 11",
    ),
    (
        &[0x5B88_3141, 0x2100_0000, 0x5D60_0000],
        "refused 3 at 188 bit 21",
    ),
    (&[0x5B88_3141, 0x5B88_3141, 0x2100_0001], "refused 8 at 180"),
];

/// The numbers of order 4 as jobs.
pub fn bit_jobs() -> Vec<Vec<u8>> {
    let jobs = TOLD.map(|(words, _)| bytes(&with_words(words)));
    jobs.to_vec()
}

// -------------------------------------------------- Done only by what instructions before it left

/// A word on its thread.
type OnThread = (usize, u32);

/// An MVMUL with nothing to add to the base, and an INCRWC that adds 8 to Dst.
pub const AT_BASE: u32 = 0x2600_0000;
pub const ADD_8: u32 = 0x3802_0000;

/// A job in which the base alone leads to row 1016, past all 32-bit rows, and a Dst counter of 8 to
/// 1024, which wraps to row 0: there a multiply adds 1 + 2. Slot 1 of every thread adds 8 to Dst.
/// Rows 0 to 7 alone are set, and row 0 is put out. The first of the words stands at 1726.
fn from_row_1016(format: u8, flags: u8, words: &[OnThread]) -> Vec<Written> {
    let mut record = Control::under(format, flags);
    record.base = 1016;
    for thread in &mut record.threads {
        thread.slots[1].dst_step = EIGHT as u16;
    }
    let mut job = vec![settings_of(&record)];
    job.extend(powers(&[0, 1]));
    job.push(zero(0, EIGHT));
    job.extend(words.iter().map(|&(thread, word)| issue_on(thread, word)));
    job.push(rows_out(0, 1));
    job
}

/// Such a job with 32-bit rows, and with 16-bit ones, of which row 1016 is one that is unset.
pub fn by_counter(words: &[OnThread]) -> Vec<Written> {
    from_row_1016(TF32, FP32, words)
}

pub fn by_counter_in_halves(words: &[OnThread]) -> Vec<Written> {
    from_row_1016(BF16, 0, words)
}

/// A finished job's row: 1 + 2 once, and twice.
const ONCE: &str = "40400000";
const TWICE: &str = "40c00000";

/// Words for such a job, its first line, and its number in column 0 where it finishes.
type Reached = (&'static [OnThread], &'static str, &'static str);
pub const REACHED: [Reached; 18] = [
    // Row 1016 without the INCRWC and row 0 with it, for each of the multiplies.
    (&[(0, AT_BASE)], "refused 7 at 1726", ""),
    (&[(0, ADD_8), (0, AT_BASE)], "finished 2", ONCE),
    (&[(0, ADD_8), (0, 0x2900_0000)], "finished 2", ONCE),
    (&[(0, ADD_8), (0, 0x3400_0000)], "finished 2", ONCE),
    // 7 is one too few; 7 and 1 are enough.
    (&[(0, 0x3801_C000), (0, AT_BASE)], "refused 7 at 1734", ""),
    (
        &[(0, 0x3801_C000), (0, 0x3800_4000), (0, AT_BASE)],
        "finished 3",
        ONCE,
    ),
    // 16 lead to row 8, which is unset; and 8 with a dst of 1016 to row 1016 again.
    (
        &[(0, ADD_8), (0, ADD_8), (0, AT_BASE)],
        "refused 8 at 1742",
        "",
    ),
    (&[(0, ADD_8), (0, 0x2600_03F8)], "refused 7 at 1734", ""),
    // The counter of its own thread counts, whatever another thread issues in between.
    (&[(0, ADD_8), (2, AT_BASE)], "refused 7 at 1734", ""),
    (&[(2, ADD_8), (2, AT_BASE)], "finished 2", ONCE),
    (
        &[(2, ADD_8), (0, 0x2100_0000), (2, AT_BASE)],
        "finished 3",
        ONCE,
    ),
    // SETRWC: Dst to 8; SrcA alone to 8, though d is 8 as well; Dst back to 0.
    (&[(0, 0x3702_0004), (0, AT_BASE)], "finished 2", ONCE),
    (&[(0, 0x3702_0201), (0, AT_BASE)], "refused 7 at 1734", ""),
    (
        &[(0, ADD_8), (0, 0x3700_0004), (0, AT_BASE)],
        "refused 7 at 1742",
        "",
    ),
    // Slot 1 of a CONV3S1, and of a SHIFTXB in a row of zeros.
    (&[(0, 0x2200_4000), (0, AT_BASE)], "finished 2", ONCE),
    (&[(0, 0x1800_4001), (0, AT_BASE)], "finished 2", ONCE),
    // Slot 1 of an MVMUL that a dst of 8 leads to row 0 itself; without it the slot comes too late.
    (&[(0, 0x2600_4008), (0, AT_BASE)], "finished 2", TWICE),
    (&[(0, 0x2600_4000), (0, AT_BASE)], "refused 7 at 1726", ""),
];

/// A SETRWC moves both matrix pointers to the second banks, and then the first ones are handed
/// over. Only where another SETRWC moves the pointers back does the multiply have its banks.
pub fn by_pointers(back: bool) -> Vec<Written> {
    let move_on = issue(SETRWC.word(&[(Name::Clear, 3)]));
    let mut job = vec![settings(TF32, FP32), move_on.clone()];
    job.extend(powers(&[0, 1]));
    job.push(zero(0, EIGHT));
    job.extend(back.then_some(move_on));
    job.extend([mvmul(0), rows_out(0, 1)]);
    job
}

/// The numbers of order 8 as jobs.
pub fn left_jobs() -> Vec<Vec<u8>> {
    let mut jobs = REACHED.map(|(words, ..)| by_counter(words)).to_vec();
    jobs.extend([
        by_counter_in_halves(&[(0, AT_BASE)]),
        by_counter_in_halves(&[(0, ADD_8), (0, AT_BASE)]),
        by_pointers(false),
        by_pointers(true),
    ]);
    jobs.iter().map(|job| bytes(job)).collect()
}

// ----------------------------------------------------------------- Banks that a clear keeps

/// Clears by an MVMUL, a CONV3S1 and a SETRWC, with bit 22 for SrcA, bit 23 for SrcB or both.
const MVMUL_A: u32 = 0x2640_0000;
const MVMUL_B: u32 = 0x2680_0000;
const MVMUL_BOTH: u32 = 0x26C0_0000;
const CONV_BOTH: u32 = 0x22C0_0000;
pub const CLEAR_A: u32 = 0x3740_0000;
const CLEAR_B: u32 = 0x3780_0000;
const CLEAR_BOTH: u32 = 0x37C0_0000;
/// A SHIFTXA to the right, a SHIFTXB of row 0, a ZEROSRC of SrcA's bank at the unpackers' pointer.
pub const SHIFT_A: u32 = 0x1700_0002;
const SHIFT_B: u32 = 0x1800_0000;
const ZERO_A: u32 = 0x1100_0001;

/// What such a job goes on with.
#[derive(Debug, Clone, Copy, PartialEq, Eq)]
pub enum Next {
    Word(u32),
    HandOver(usize),
    /// One row.
    Load(usize),
}

fn next(next: &Next) -> Written {
    match *next {
        Next::Word(word) => issue(word),
        Next::HandOver(file) => hand_over(file),
        Next::Load(file) => load(file, 0, &[0; COLUMNS]),
    }
}

/// A job with these switches and both first banks handed over: a multiply adds 1 + 2 in Dst's row 0,
/// which is put out. The first field given stands at 1726.
pub fn kept(switches: u8, fields: &[Next]) -> Vec<Written> {
    let mut job = vec![settings(TF32, FP32 | switches)];
    job.extend(powers(&[0, 1]));
    job.push(zero(0, EIGHT));
    job.extend(fields.iter().map(next));
    job.push(rows_out(0, 1));
    job
}

const THRICE: &str = "41100000";
const BOTH: u8 = KEEP[A] | KEEP[B];

/// Switches and fields of such a job, its first line, and its number in column 0 where it finishes.
type Kept = (u8, &'static [Next], &'static str, &'static str);
pub const KEPT: [Kept; 14] = {
    use Next::{HandOver, Load, Word};
    const COME_BACK_A: &[Next] = &[Word(MVMUL_A), Word(CLEAR_A), Word(AT_BASE)];
    const COME_BACK_B: &[Next] = &[
        Word(MVMUL_B),
        Word(CLEAR_B),
        Word(MVMUL_B),
        Word(CLEAR_B),
        Word(AT_BASE),
    ];
    const BY_SETRWC: &[Next] = &[Word(CLEAR_BOTH), Word(CLEAR_BOTH), Word(AT_BASE)];
    const LOAD_AGAIN: &[Next] = &[Word(MVMUL_A), HandOver(A), Load(A)];
    [
        // Two clears of SrcA, and a multiply of the same rows.
        (KEEP[A], COME_BACK_A, "finished 3", TWICE),
        (0, COME_BACK_A, "refused 6 at 1742", ""),
        // Four of SrcB: a switch is not used up.
        (KEEP[B], COME_BACK_B, "finished 5", THRICE),
        (0, COME_BACK_B, "refused 6 at 1742", ""),
        // SETRWC alone, and a legacy instruction.
        (BOTH, BY_SETRWC, "finished 3", ONCE),
        (0, BY_SETRWC, "refused 6 at 1742", ""),
        (
            BOTH,
            &[Word(CONV_BOTH), Word(CLEAR_BOTH), Word(AT_BASE)],
            "finished 3",
            ONCE,
        ),
        // Both cleared, one kept: the other file's shift has no bank.
        (
            KEEP[A],
            &[
                Word(MVMUL_BOTH),
                Word(CLEAR_BOTH),
                Word(SHIFT_A),
                Word(SHIFT_B),
            ],
            "refused 6 at 1750",
            "",
        ),
        (
            KEEP[B],
            &[
                Word(MVMUL_BOTH),
                Word(CLEAR_BOTH),
                Word(SHIFT_B),
                Word(SHIFT_A),
            ],
            "refused 6 at 1750",
            "",
        ),
        // One clear leads to the other bank, handed over with nothing set.
        (
            KEEP[A],
            &[HandOver(A), Word(MVMUL_A), Word(AT_BASE)],
            "refused 8 at 1738",
            "",
        ),
        // A load and a hand over that meet a kept bank.
        (KEEP[A], LOAD_AGAIN, "refused 6 at 1738", ""),
        (0, LOAD_AGAIN, "finished 1", ONCE),
        (
            KEEP[B],
            &[Word(MVMUL_B), HandOver(B), HandOver(B)],
            "refused 6 at 1738",
            "",
        ),
        // A ZEROSRC fills the kept bank, as the unpackers' pointer is there: then 0 is added.
        (
            KEEP[A],
            &[
                HandOver(A),
                Word(MVMUL_A),
                Word(ZERO_A),
                Word(CLEAR_A),
                Word(AT_BASE),
            ],
            "finished 4",
            ONCE,
        ),
    ]
};

/// Both banks of both files, with 3 and 12 for SrcA's and times 16 for SrcB's second one. Clears go
/// from pair to pair and back to the first: 3 + 12 + 192 + 48 + 3.
pub fn all_four_banks(switches: u8) -> Vec<Written> {
    let mut job = vec![settings(TF32, FP32 | switches)];
    for (exponents, b) in [([0, 1], 0), ([2, 3], 4)] {
        let numbers = exponents.map(|exponent| power(false, exponent));
        job.extend(ready(&column_0(&numbers), &[power(false, b); 2]));
    }
    job.push(zero(0, EIGHT));
    let words = [MVMUL_A, MVMUL_B, MVMUL_A, MVMUL_B, AT_BASE];
    job.extend(words.map(issue));
    job.push(rows_out(0, 1));
    job
}

/// Two clears between SrcA's load and its hand over.
pub fn cleared_early(switches: u8) -> Vec<Written> {
    let [load_a, rest @ ..] = &powers(&[0, 1])[..] else {
        unreachable!("loads come first");
    };
    let mut job = vec![settings(TF32, FP32 | switches), load_a.clone()];
    job.extend([CLEAR_A, CLEAR_A].map(issue));
    job.extend_from_slice(rest);
    job.extend([zero(0, EIGHT), mvmul(0), rows_out(0, 1)]);
    job
}

/// A SHIFTXA of rows 16 to 31 in the bank to which a CONV3S1 and a SETRWC led back.
pub fn shift_in_kept(switches: u8) -> Vec<Written> {
    let conv = CONV3S1.put(stepping(&CONV3S1), Name::Clear, 1);
    let loads = [load_a(0..32), hand_over(A)];
    shift_under(switches, &loads, 0, &[conv, CLEAR_A])
}

/// 1 + 2 twice into 16-bit row 512, both banks cleared twice in between.
pub fn kept_in_halves(switches: u8) -> Vec<Written> {
    let mut job = vec![settings(BF16, switches)];
    job.extend(powers(&[0, 1]));
    let clearing = MVMUL_BOTH | DST_ROWS as u32;
    job.extend([
        zero(DST_ROWS, EIGHT),
        issue(clearing),
        issue(CLEAR_BOTH),
        mvmul(DST_ROWS),
        rows_out(DST_ROWS, 1),
    ]);
    job
}

/// The settings' flags, and a register that is loaded and put out.
pub fn with_flags(flags: u8) -> Vec<Written> {
    vec![settings(TF32, flags), load_12(1), register_out(1)]
}

/// The numbers of order 6 as jobs.
pub fn kept_jobs() -> Vec<Vec<u8>> {
    let mut jobs = KEPT
        .map(|(switches, fields, ..)| kept(switches, fields))
        .to_vec();
    jobs.extend([
        all_four_banks(BOTH),
        cleared_early(KEEP[A]),
        cleared_early(0),
        shift_in_kept(KEEP[A]),
        kept_in_halves(BOTH),
    ]);
    jobs.extend([31, 32, 64, 128].map(with_flags));
    jobs.iter().map(|job| bytes(job)).collect()
}
