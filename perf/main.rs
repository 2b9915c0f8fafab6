//! Measures the proved emulator, linked through its C interface, against the second program's
//! engine, against a hand-tuned multiply and, step by step, against a plain Rust step, on the same
//! jobs in one run. `perf/run` builds it.

// The files of the second program and of the comparison serve other programs too.
#[path = "../tests/second/engine/mod.rs"]
mod engine;
#[path = "../tests/second/generate/mod.rs"]
mod generate;
mod jobs;
mod plain_step;
mod process;
#[path = "../tests/compare/proved.rs"]
mod proved;
mod run_tuned;
mod times;
mod tuned;

use std::hint::black_box;
use std::process::ExitCode;

use engine::{
    datum, fields, follow_record, precheck, run, Answer, Control, Name, Refusal, State, MANTISSAS,
    MVMUL, SETRWC,
};
use generate::numbers::state;
use generate::rng::Rng;
use jobs::Mode;
use run_tuned::{products, run_tuned};
use times::{times, Contender};
use tuned::{multiply, Product};

/// The two runs end alike on the same lent state, or there is nothing to measure.
fn same(name: &str, job: &[u8]) -> State {
    let lent = state(&mut Rng(7));
    let (mut proved, mut second) = (lent.clone(), lent);
    let packed = proved::run(job, &mut proved);
    let answer = run(job, &mut second);
    assert_eq!(answer, Answer::Finished(packed), "{name}");
    assert!(proved == second, "{name}: the numbers differ");
    assert_eq!(proved::precheck(job), packed, "{name}");
    proved
}

fn proved_contender<'a>(job: &'a [u8], state: &'a mut State) -> Contender<'a> {
    Box::new(|| {
        black_box(proved::run(black_box(job), state));
    })
}

/// The tuned run, on the numbers that the others left, which it leaves too.
fn tuned_contender<'a>(name: &str, job: &'a [u8], state: &'a mut State) -> Contender<'a> {
    let finished = state.clone();
    let answer = run_tuned(job, state);
    let right = answer == precheck(job) && *state == finished;
    assert!(right, "{name}: the tuned multiply differs");
    Box::new(|| {
        black_box(run_tuned(black_box(job), state));
    })
}

fn row(name: &str, job: &[u8], ours: f64, others: &[Option<f64>]) {
    print!("| {name} | {} | {ours:.1} |", job.len());
    for other in others {
        match other {
            Some(time) => print!(" {time:.1} | {:.2} |", ours / time),
            None => print!(" | |"),
        }
    }
    println!();
}

/// The multiplies of a job alone, over a Dst of zeros.
fn multiply_all(products: &[Product], state: &mut State) {
    state.dst.fill(0);
    for p in products {
        multiply(p, &state.srca, &state.srcb, &mut state.dst);
    }
}

/// Our run against the second program's; for multiplies also against its run with the tuned
/// multiply, and against the tuned multiplies with all else left out. Answers all times, ours first.
fn measure_run(name: &str, job: &[u8]) -> Vec<f64> {
    let finished = same(name, job);
    let products = products(job);
    let [mut a, mut b, mut c, mut d] = [(); 4].map(|()| finished.clone());
    let mut contenders = vec![proved_contender(job, &mut a)];
    contenders.push(Box::new(|| {
        black_box(run(black_box(job), &mut b));
    }));
    if !products.is_empty() {
        multiply_all(&products, &mut c);
        assert!(c.dst == finished.dst, "{name}: the multiplies alone differ");
        contenders.push(tuned_contender(name, job, &mut d));
        contenders.push(Box::new(|| multiply_all(black_box(&products), &mut c)));
    }
    let t = times(&mut contenders);
    let others = [1, 2, 3].map(|n| t.get(n).copied());
    row(name, job, t[0], &others);
    t
}

/// Answers the ratio.
fn measure_precheck(name: &str, job: &[u8]) -> f64 {
    let mut contenders: Vec<Contender> = vec![
        Box::new(|| {
            black_box(proved::precheck(black_box(job)));
        }),
        Box::new(|| {
            black_box(precheck(black_box(job)));
        }),
    ];
    let t = times(&mut contenders);
    row(name, job, t[0], &[Some(t[1])]);
    t[0] / t[1]
}

/// A single step's record in the numbers of the C interface, and the lent numbers.
type Stepped = ([u32; plain_step::NUMBERS], State);

/// What a job leaves.
fn left(name: &str, job: &[u8]) -> Stepped {
    let mut control = Control::start();
    for (_, field) in fields(job) {
        follow_record(&mut control, &field);
    }
    let mut record = [0; plain_step::NUMBERS];
    plain_step::write(&control, &mut record);
    (record, same(name, job))
}

fn proved_step(word: u32, (record, state): &mut Stepped) -> u64 {
    proved::step(record, 0, word, state)
}

fn plain_step(word: u32, (record, state): &mut Stepped, write: plain_step::Write) -> u64 {
    let refusal = plain_step::step(record, 0, word, state, write);
    refusal.map_or(0, |refusal| proved::packed(&refusal.at(0)))
}

/// The single steps are done and end alike, and each looks at each number of the record.
fn same_step(name: &str, word: u32, start: &Stepped, write: plain_step::Write) {
    let [mut ours, mut plain] = [start.clone(), start.clone()];
    let answers = (
        proved_step(word, &mut ours),
        plain_step(word, &mut plain, write),
    );
    assert_eq!(answers, (0, 0), "{name}");
    assert!(ours == plain, "{name}: the numbers differ");
    let refused = proved::packed(&Refusal::Shape.at(0));
    for n in 0..plain_step::NUMBERS {
        for both in [&mut ours, &mut plain] {
            both.0[n] ^= 1 << 31;
        }
        let answers = (
            proved_step(word, &mut ours),
            plain_step(word, &mut plain, write),
        );
        assert_eq!(answers, (refused, refused), "{name}: number {n}");
        for both in [&mut ours, &mut plain] {
            both.0[n] ^= 1 << 31;
        }
    }
}

/// One instruction of thread 0, again and again: the single step through C against a plain Rust
/// one that writes all numbers back, and one that leaves the address slots'. Answers the ratio to
/// the first.
fn measure_step(name: &str, word: u32, start: &Stepped) -> f64 {
    let writes: [plain_step::Write; 2] = [plain_step::write, plain_step::write_but_slots];
    for write in writes {
        same_step(name, word, start, write);
    }
    let [mut ours, mut all, mut few] = [start.clone(), start.clone(), start.clone()];
    let mut contenders: Vec<Contender> = vec![
        Box::new(|| {
            black_box(proved_step(black_box(word), &mut ours));
        }),
        Box::new(|| {
            black_box(plain_step(black_box(word), &mut all, writes[0]));
        }),
        Box::new(|| {
            black_box(plain_step(black_box(word), &mut few, writes[1]));
        }),
    ];
    let [ours, all, few] = times(&mut contenders)[..] else {
        unreachable!("a time for each contender");
    };
    println!(
        "| {name} | {:.0} | {:.0} | {:.2} | {:.0} | {:.2} |",
        ours * 1e3,
        all * 1e3,
        ours / all,
        few * 1e3,
        ours / few
    );
    ours / all
}

/// The same work in rows of 32-bit and of 16-bit numbers, the proved run of both by turns. Only the
/// ratio is printed: a job has its time in one table.
fn measure_widths(name: &str, make: impl Fn(Mode) -> Vec<u8>) -> f64 {
    let jobs = [Mode::Bf16In32, Mode::Bf16].map(make);
    let mut states = [same(name, &jobs[0]), same(name, &jobs[1])];
    let pairs = jobs.iter().zip(&mut states);
    let mut contenders: Vec<Contender> = pairs.map(|(job, s)| proved_contender(job, s)).collect();
    let t = times(&mut contenders);
    let ratio = t[1] / t[0];
    println!("| {name} | {ratio:.2} |");
    ratio
}

type Maker = fn(&mut Rng, usize) -> Vec<u8>;

/// The cost of each instruction, row or register in jobs of a sixteenth, an eighth, a quarter and a
/// half of the whole one, whose time is known.
fn growth(name: &str, whole: (usize, f64), make: Maker) {
    print!("| {name} |");
    for part in [16, 8, 4, 2] {
        let size = whole.0 / part;
        let job = make(&mut Rng(1), size);
        let mut state = same(name, &job);
        let t = times(&mut [proved_contender(&job, &mut state)])[0];
        print!(" {:.3} |", t / size as f64);
    }
    println!(" {:.3} |", whole.1 / whole.0 as f64);
}

type Named = (&'static str, Vec<u8>);

fn named_jobs() -> [Named; 7] {
    let cleared = |mode: Mode| jobs::cleared_multiplies(mode, 1000);
    let loaded = |mode: Mode| jobs::loaded_multiplies(&mut Rng(1), mode, 800);
    let rng = || Rng(1);
    [
        (
            "multiply-heavy: 1,000 MVMULs, cleared Src",
            cleared(Mode::Tf32),
        ),
        ("multiply-heavy: 800 MVMULs, loaded Src", loaded(Mode::Tf32)),
        ("BF16 Dst: 1,000 MVMULs, cleared Src", cleared(Mode::Bf16)),
        ("BF16 Dst: 800 MVMULs, loaded Src", loaded(Mode::Bf16)),
        (
            "scalar-heavy: 980 instructions",
            jobs::scalars(&mut rng(), 980),
        ),
        ("load-heavy: 124 rows", jobs::row_loads(&mut rng(), 124)),
        (
            "load-heavy: 890 registers",
            jobs::register_loads(&mut rng(), 890),
        ),
    ]
}

/// A table's title and head.
fn table(title: &str, columns: &[&str]) {
    println!("## {title}\n");
    println!("| {} |", columns.join(" | "));
    println!("|{}", "---|".repeat(columns.len()));
}

fn run_table(named: &[Named]) -> Vec<Vec<f64>> {
    let others = ["Second program", "Ratio", "Tuned", "Ratio"];
    let alone = ["Its multiplies alone", "Ratio"];
    let columns = [&["Job", "Bytes", "Proved"], &others[..], &alone].concat();
    table("The job run, in microseconds", &columns);
    let measured = named.iter().map(|(name, job)| measure_run(name, job));
    measured.collect()
}

/// A run of 800 multiplies of one phase, its time over their number, against the tuned version; with
/// one number in each file that is infinite, or so small that its low part is subnormal.
fn phase_table() {
    const COUNT: usize = 800;
    table(
        "A multiply phase by phase, in nanoseconds",
        &["Src", "Phase", "Proved", "Tuned", "Ratio"],
    );
    let kinds = [
        ("ordinary numbers", None),
        ("one infinity", Some(datum(0, 255, 0))),
        ("one tiny number", Some(datum(0, 3, MANTISSAS - 1))),
    ];
    for (name, odd) in kinds {
        for phase in 0..4 {
            let job = jobs::phase_multiplies(&mut Rng(1), phase, odd, COUNT);
            let mut ours = same(name, &job);
            let mut tuned = ours.clone();
            let mut contenders = vec![
                proved_contender(&job, &mut ours),
                tuned_contender(name, &job, &mut tuned),
            ];
            let t = times(&mut contenders);
            let [ours, tuned] = [t[0], t[1]].map(|time| time * 1e3 / COUNT as f64);
            let ratio = ours / tuned;
            println!("| {name} | {phase} | {ours:.0} | {tuned:.0} | {ratio:.2} |");
        }
    }
}

fn width_table() -> [f64; 4] {
    table(
        "Rows of 16-bit numbers against rows of 32-bit ones, format 2",
        &["Job", "Ratio of the proved run's times"],
    );
    [
        measure_widths("1,000 MVMULs, cleared Src", |mode| {
            jobs::cleared_multiplies(mode, 1000)
        }),
        measure_widths("800 MVMULs, loaded Src", |mode| {
            jobs::loaded_multiplies(&mut Rng(1), mode, 800)
        }),
        measure_widths("1,000 zeroings of 512 rows", |mode| {
            jobs::zeroings(mode, 1000)
        }),
        measure_widths("2 loads of 60 rows", |mode| {
            jobs::dst_loads(&mut Rng(1), mode)
        }),
    ]
}

fn target(name: &str, most: f64, ratios: &[f64]) {
    let printed: Vec<String> = ratios.iter().map(|r| format!("{r:.2}")).collect();
    // what is printed decides, so that the table does not contradict itself
    let met = printed.iter().all(|r| r.parse::<f64>().unwrap() <= most);
    let verdict = if met { "met" } else { "missed" };
    println!("| {name} | {most} | {} | {verdict} |", printed.join(", "));
}

fn target_table(runs: &[Vec<f64>], widths: [f64; 4], prechecks: &[f64], scalar_step: f64) {
    table("Targets", &["Target", "At most", "Measured", ""]);
    let ratio = |job: usize, other: usize| runs[job][0] / runs[job][other];
    let second = "against the second program";
    target(&format!("scalar-heavy {second}"), 0.8, &[ratio(4, 1)]);
    target(
        &format!("load-heavy {second}"),
        1.0,
        &[ratio(5, 1), ratio(6, 1)],
    );
    target(
        &format!("pre-check alone, each job {second}"),
        1.0,
        prechecks,
    );
    let tuned = "multiply-heavy against the tuned version";
    target(
        &format!("{tuned}, 32-bit Dst"),
        0.9,
        &[ratio(0, 2), ratio(1, 2)],
    );
    target(
        &format!("{tuned}, BF16 Dst"),
        1.1,
        &[ratio(2, 2), ratio(3, 2)],
    );
    target(
        "single step, scalar word, against plain Rust",
        1.2,
        &[scalar_step],
    );
    let widths_name = "16-bit rows against 32-bit ones";
    target(&format!("multiplies, {widths_name}"), 1.2, &widths[..2]);
    target(&format!("zeroing, {widths_name}"), 3.0, &widths[2..3]);
}

fn precheck_table(named: &[Named]) -> Vec<f64> {
    table(
        "The pre-check alone, in microseconds",
        &["Job", "Bytes", "Proved", "Second program", "Ratio"],
    );
    let measured = named.iter().map(|(name, job)| measure_precheck(name, job));
    measured.collect()
}

/// Answers the scalar word's ratio.
fn step_table() -> f64 {
    table(
        "The single step, in nanoseconds",
        &[
            "Word",
            "Proved, through C",
            "Plain Rust",
            "Ratio",
            "Plain Rust, slots not written back",
            "Ratio",
        ],
    );
    let job = jobs::loaded_multiplies(&mut Rng(1), Mode::Tf32, 1);
    let start = left("loaded Src", &job);
    let scalar = measure_step("scalar: 0x5B883141", 0x5B88_3141, &start);
    let fields = [Name::CounterD, Name::CounterB, Name::CounterA, Name::Which];
    let setrwc = SETRWC.word(&fields.map(|name| (name, 15)));
    measure_step("SETRWC of all counters", setrwc, &start);
    // A slot that moves nothing, so that each step is over the same rows.
    let mvmul = MVMUL.word(&[(Name::Slot, 2)]);
    measure_step("MVMUL, loaded Src; the plain one tuned", mvmul, &start);
    scalar
}

fn growth_table(runs: &[Vec<f64>]) {
    table(
        "Growth of the proved run with the job's size, in microseconds for each",
        &["Each", "1/16 of the job", "1/8", "1/4", "1/2", "The job"],
    );
    let multiplies: Maker = |_, n| jobs::cleared_multiplies(Mode::Tf32, n);
    growth(
        "MVMUL, cleared Src, of 1,000",
        (1000, runs[0][0]),
        multiplies,
    );
    growth(
        "scalar instruction of 980",
        (980, runs[4][0]),
        jobs::scalars,
    );
    growth("row loaded of 124", (124, runs[5][0]), jobs::row_loads);
    growth(
        "register loaded of 890",
        (890, runs[6][0]),
        jobs::register_loads,
    );
}

fn process_table(emulate: &str, named: &[Named]) {
    table(
        "The job program as a whole process",
        &[
            "Job",
            "Bytes",
            "Bytes printed",
            "Milliseconds",
            "Peak memory, KiB",
        ],
    );
    let outputs = ("output-heavy: 64 rows, over and over", jobs::outputs());
    for (name, job) in named.iter().chain([&outputs]) {
        process::measure(emulate, name, job);
    }
}

fn main() -> ExitCode {
    let arguments: Vec<String> = std::env::args().skip(1).collect();
    let [emulate] = &arguments[..] else {
        eprintln!("perf EMULATE");
        return ExitCode::from(2);
    };
    let named = named_jobs();
    let runs = run_table(&named);
    println!();
    phase_table();
    println!();
    let widths = width_table();
    println!();
    let prechecks = precheck_table(&named);
    println!();
    let scalar_step = step_table();
    println!();
    target_table(&runs, widths, &prechecks, scalar_step);
    println!();
    growth_table(&runs);
    println!();
    process_table(emulate, &named);
    ExitCode::SUCCESS
}
