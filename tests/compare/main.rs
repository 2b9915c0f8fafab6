//! Holds the proved emulator, linked through its C interface, against the independent second
//! program over fresh jobs, and as many fresh single steps, of a seed: compare SEED COUNT.
//! `tests/compare/run` builds and runs it.

// The second program's files serve other programs too.
#[path = "../second/engine/mod.rs"]
mod engine;
#[path = "../second/generate/mod.rs"]
mod generate;
mod jobs;
mod lent;
mod proved;
mod record;
mod steps;

use std::collections::BTreeMap;
use std::process::ExitCode;

use engine::Refusal;
use generate::rng::Rng;

/// How often each number was given, and each bit beside a 3.
#[derive(Default)]
struct Refusals {
    numbers: BTreeMap<u8, u64>,
    bits: BTreeMap<u8, u64>,
}

impl Refusals {
    fn count(&mut self, refusal: Refusal) {
        *self.numbers.entry(refusal.number()).or_default() += 1;
        if let Some(bit) = refusal.bit() {
            *self.bits.entry(bit).or_default() += 1;
        }
    }

    fn print(&self, name: &str) {
        for (number, times) in &self.numbers {
            println!("{times} {name} refused with {number}");
        }
        let bits = self.bits.iter();
        let bits: Vec<String> = bits.map(|(bit, times)| format!("{bit}: {times}")).collect();
        println!("bits of the {name} refused with 3: {}", bits.join(", "));
    }
}

/// Both programs' packed answers, the proved one's first: a refusal's number has to be one that the
/// entry gives, be it the same in both.
fn given(numbers: &[u8], packed: [u64; 2]) -> Result<(), String> {
    for (program, answer) in ["proved", "second"].into_iter().zip(packed) {
        if let Some(number) = proved::number(answer).filter(|number| !numbers.contains(number)) {
            return Err(format!("the {program} program gives the number {number}"));
        }
    }
    Ok(())
}

/// Holds the two together so many times, and says how often they differed.
fn hold(
    name: &str,
    seed: u64,
    count: u64,
    mut compare: impl FnMut(&mut Rng) -> Result<(), String>,
) -> u64 {
    let (mut rng, mut failed) = (Rng(seed), 0);
    for n in 0..count {
        let start = rng.0;
        if let Err(what) = compare(&mut rng) {
            failed += 1;
            if failed <= 20 {
                println!("{name} {n} (seed {start} as the first): {what}");
            }
        }
    }
    failed
}

fn main() -> ExitCode {
    let arguments: Vec<u64> = std::env::args().skip(1).flat_map(|n| n.parse()).collect();
    let [seed, count] = arguments[..] else {
        eprintln!("compare SEED COUNT");
        return ExitCode::from(2);
    };
    let mut tally = jobs::Tally::default();
    let mut failed = hold("job", seed, count, |rng| jobs::compare(rng, &mut tally));
    tally.print();
    let mut tally = steps::Tally::default();
    failed += hold("step", seed, count, |rng| steps::compare(rng, &mut tally));
    tally.print(count);
    println!("{} passed, {failed} failed", 2 * count - failed);
    ExitCode::from(u8::from(failed > 0))
}
