//! The proved emulator through its C interface, as include/vintrazzola.h has it.

// A program that takes this file by its path may need only a part of it.
#![allow(dead_code)]

use crate::engine::{Answer, State};

/// Declares a function that takes the four files last, and calls it on those of a state.
macro_rules! over_files {
    ($function:ident($($argument:ident: $type:ty),*)) => {
        unsafe fn $function($($argument: $type,)* state: &mut State) -> u64 {
            extern "C" {
                fn $function(
                    $($argument: $type,)*
                    srca: *mut u32,
                    srca_length: usize,
                    srcb: *mut u32,
                    srcb_length: usize,
                    dst: *mut u32,
                    dst_length: usize,
                    registers: *mut u32,
                    registers_length: usize,
                ) -> u64;
            }
            let State { srca, srcb, dst, registers } = state;
            $function(
                $($argument,)*
                srca.as_mut_ptr(),
                srca.len(),
                srcb.as_mut_ptr(),
                srcb.len(),
                dst.as_mut_ptr(),
                dst.len(),
                registers.as_mut_ptr(),
                registers.len(),
            )
        }
    };
}

over_files!(vintrazzola_run(job: *const u8, job_length: usize));
over_files!(vintrazzola_step(record: *mut u32, record_length: usize, thread: u32, word: u32));

#[link(name = "capi", kind = "static")]
extern "C" {
    fn vintrazzola_precheck(job: *const u8, job_length: usize) -> u64;
}

pub fn precheck(job: &[u8]) -> u64 {
    // SAFETY: the slice is readable for its length, and the function only reads it.
    unsafe { vintrazzola_precheck(job.as_ptr(), job.len()) }
}

pub fn run(job: &[u8], state: &mut State) -> u64 {
    // SAFETY: five slices that do not overlap, each with its own length.
    unsafe { vintrazzola_run(job.as_ptr(), job.len(), state) }
}

pub fn step(record: &mut [u32], thread: u32, word: u32, state: &mut State) -> u64 {
    // SAFETY: five slices that do not overlap, each with its own length.
    unsafe { vintrazzola_step(record.as_mut_ptr(), record.len(), thread, word, state) }
}

/// The number of a packed refusal.
pub fn number(packed: u64) -> Option<u8> {
    (packed >> 63 == 1).then_some((packed >> 32) as u8)
}

/// An answer as one number: a count, or 2^63 with the refusal's bit from 2^40 on, its number from
/// 2^32 on and its place. Only a refusal 3 has a bit.
pub fn packed(answer: &Answer) -> u64 {
    match *answer {
        Answer::Finished(count) => count,
        Answer::Refused { refusal, place } => {
            let (bit, number) = (refusal.bit().unwrap_or(0), refusal.number());
            1 << 63 | u64::from(bit) << 40 | u64::from(number) << 32 | place as u64
        }
    }
}
