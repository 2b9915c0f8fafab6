//! Whole runs of the job program: time from the start of the process to its end, and peak memory.

use std::io::{Read, Write};
use std::process::{Child, Command, Stdio};
use std::time::{Duration, Instant};

fn start(program: &str, job: &[u8]) -> Child {
    let mut child = Command::new(program)
        .stdin(Stdio::piped())
        .stdout(Stdio::piped())
        .spawn()
        .expect("the job program starts");
    // A job is smaller than a pipe, so this waits for nobody; the pipe is closed at once.
    let mut input = child.stdin.take().expect("a pipe");
    input.write_all(job).expect("the job program reads its job");
    child
}

fn finish(mut child: Child) -> usize {
    let mut printed = Vec::new();
    let mut output = child.stdout.take().expect("a pipe");
    output
        .read_to_end(&mut printed)
        .expect("the job program prints");
    assert!(child.wait().expect("the job program ends").success());
    printed.len()
}

/// The peak of the memory that a process has held so far, in KiB.
fn peak(child: &Child) -> Option<u64> {
    let status = std::fs::read_to_string(format!("/proc/{}/status", child.id())).ok()?;
    let line = status.lines().find(|line| line.starts_with("VmHWM:"))?;
    line.split_whitespace().nth(1)?.parse().ok()
}

/// A process that prints more than its pipe holds waits; its peak is read then.
fn waiting_peak(program: &str, job: &[u8]) -> Option<u64> {
    let child = start(program, job);
    std::thread::sleep(Duration::from_millis(200));
    let peak = peak(&child);
    finish(child);
    peak
}

pub fn measure(program: &str, name: &str, job: &[u8]) {
    let mut least = f64::INFINITY;
    let mut printed = 0;
    for _ in 0..50 {
        let begin = Instant::now();
        printed = finish(start(program, job));
        least = least.min(begin.elapsed().as_secs_f64() * 1e3);
    }
    print!("| {name} | {} | {printed} | {least:.2} |", job.len());
    match waiting_peak(program, job).filter(|_| printed > 1 << 20) {
        Some(peak) => println!(" {peak} |"),
        None => println!(" |"),
    }
}
