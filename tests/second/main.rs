//! The second program: document 01 and orders 1, 3, 4, 6 and 8 of document 02 written once more,
//! independently, to check the emulator from outside. One call builds it:
//! rustc -O --edition 2021 tests/second/main.rs -o second

mod bf16;
mod check;
mod coverage;
mod engine;
mod explain;
mod generate;
mod selftest;
mod worked;

use std::error::Error;
use std::io::{Read, Write};
use std::path::Path;
use std::process::ExitCode;

use engine::{output, precheck, State, JOB_BYTES};
use generate::numbers::state;
use generate::rng::Rng;
use worked::{bit_jobs, half_jobs, kept_jobs, left_jobs, legacy_jobs, paper_jobs, tiny_jobs};

const USAGE: &str = "\
second run FILE [--seed N]       what the job program prints, over zeros or a state of the seed
second precheck FILE             passed N, or refused N at P, a 3 with bit B behind it
second explain FILE              the job field by field
second generate SEED COUNT DIR   writes DIR/0000.job and so on
second vectors SEED COUNT        lines of job in hexadecimal, space, output with | for newlines
second coverage SEED COUNT       what so many generated jobs cover
second check SEED COUNT          holds the engine against itself over generated jobs
second store SEED COUNT FILE..   the stored jobs: the papers', those of the files, and so many generated ones
second stored FILE               what the stored jobs print, each below a line -- N
second selftest                  the papers' worked numbers
FILE can be - for standard input
";

type Failure = Box<dyn Error>;

/// From so many jobs on, a row that none of them covers is a failure.
const MUST_COVER: u64 = 20_000;
/// At most one byte more than a job may have is read and stored, enough to tell that it is too long.
const MOST: usize = JOB_BYTES + 1;

fn read_job(name: &str) -> Result<Vec<u8>, Failure> {
    let source: Box<dyn Read> = match name {
        "-" => Box::new(std::io::stdin()),
        _ => Box::new(std::fs::File::open(name)?),
    };
    let mut bytes = Vec::new();
    source.take(MOST as u64).read_to_end(&mut bytes)?;
    Ok(bytes)
}

/// So many jobs of a seed.
fn jobs(seed: &str, count: &str) -> Result<impl Iterator<Item = Vec<u8>>, Failure> {
    let mut rng = Rng(seed.parse()?);
    let count: u64 = count.parse()?;
    Ok((0..count).map(move |_| generate::job(&mut rng)))
}

fn over_zeros(job: &[u8]) -> String {
    output(job, &mut State::zero())
}

fn write_jobs(seed: &str, count: &str, directory: &str) -> Result<(), Failure> {
    let jobs = jobs(seed, count)?;
    std::fs::create_dir_all(directory)?;
    for (n, job) in jobs.enumerate() {
        std::fs::write(Path::new(directory).join(format!("{n:04}.job")), job)?;
    }
    Ok(())
}

fn vector(job: &[u8]) -> String {
    let hex: String = job.iter().map(|byte| format!("{byte:02x}")).collect();
    format!("{hex} {}\n", over_zeros(job).replace('\n', "|"))
}

/// The jobs to store one after another, each behind its length in two bytes, the low byte first.
fn store(seed: &str, count: &str, files: &[&str], out: &mut impl Write) -> Result<(), Failure> {
    let mut all = [
        paper_jobs(),
        half_jobs(),
        legacy_jobs(),
        tiny_jobs(),
        bit_jobs(),
        left_jobs(),
        kept_jobs(),
    ]
    .concat();
    for file in files {
        all.push(read_job(file)?);
    }
    all.extend(jobs(seed, count)?);
    for job in &all {
        let job = &job[..job.len().min(MOST)];
        out.write_all(&(job.len() as u16).to_le_bytes())?;
        out.write_all(job)?;
    }
    Ok(())
}

/// The stored jobs again.
fn stored(bytes: &[u8]) -> Result<Vec<&[u8]>, Failure> {
    let (mut jobs, mut rest) = (Vec::new(), bytes);
    while let [low, high, after @ ..] = rest {
        let length = usize::from(u16::from_le_bytes([*low, *high]));
        if length > MOST || length > after.len() {
            return Err("a stored job is too long or cut off".into());
        }
        jobs.push(&after[..length]);
        rest = &after[length..];
    }
    if !rest.is_empty() {
        return Err("a byte is left over".into());
    }
    Ok(jobs)
}

/// Text, and whether all is well.
fn coverage(seed: &str, count: &str) -> Result<(String, bool), Failure> {
    let (count, seed) = (count.parse()?, seed.parse()?);
    let (mut text, missing) = coverage::coverage(seed, count);
    text.extend(missing.iter().map(|row| format!("missing {row}\n")));
    Ok((text, missing.is_empty() || count < MUST_COVER))
}

fn command(arguments: &[&str]) -> Result<bool, Failure> {
    let mut out = std::io::BufWriter::new(std::io::stdout().lock());
    let mut good = true;
    let mut text = String::new();
    match *arguments {
        ["run", file] => text = over_zeros(&read_job(file)?),
        ["run", file, "--seed", seed] => {
            text = output(&read_job(file)?, &mut state(&mut Rng(seed.parse()?)));
        }
        ["precheck", file] => text = precheck(&read_job(file)?).line("passed") + "\n",
        ["explain", file] => text = explain::explain(&read_job(file)?),
        ["generate", seed, count, directory] => write_jobs(seed, count, directory)?,
        ["vectors", seed, count] => {
            for job in jobs(seed, count)? {
                out.write_all(vector(&job).as_bytes())?;
            }
        }
        ["coverage", seed, count] => (text, good) = coverage(seed, count)?,
        ["check", seed, count] => (text, good) = check::check(seed.parse()?, count.parse()?),
        ["store", seed, count, ref files @ ..] => store(seed, count, files, &mut out)?,
        ["stored", file] => {
            for (n, job) in stored(&std::fs::read(file)?)?.iter().enumerate() {
                write!(out, "-- {n}\n{}", over_zeros(job))?;
            }
        }
        ["selftest"] => (text, good) = selftest::selftest(),
        _ => return Err(USAGE.into()),
    }
    out.write_all(text.as_bytes())?;
    out.flush()?;
    Ok(good)
}

fn main() -> ExitCode {
    let arguments: Vec<String> = std::env::args().skip(1).collect();
    let arguments: Vec<&str> = arguments.iter().map(String::as_str).collect();
    match command(&arguments) {
        Ok(true) => ExitCode::SUCCESS,
        Ok(false) => ExitCode::from(1),
        Err(failure) => {
            eprintln!("{failure}");
            ExitCode::from(2)
        }
    }
}
