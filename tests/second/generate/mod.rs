//! Jobs and lent states from a seed. A job is built while the engine's own record and marks are
//! tracked, so that it passes; about half of the jobs are then damaged on purpose.

// A program that takes this folder by its path may need only a part of it.
#![allow(dead_code)]

mod builder;
mod counter;
mod damage;
mod edges;
mod grow;
mod halfway;
mod keep;
mod legacy;
mod passing;
mod raw;
mod tiny;

pub mod numbers;
pub mod records;
pub mod rng;
pub mod words;

use crate::engine::{row_bytes, shape, width_of, write, Field, JOB_BYTES};
use builder::load_register;
use damage::{damage, damage_bytes};
use grow::grow;
use numbers::numbers;
use passing::build;
use rng::Rng;

pub fn job(rng: &mut Rng) -> Vec<u8> {
    let wild = rng.one_in(8);
    let mut fields = build(rng, wild);
    if rng.one_in(40) {
        let size = rng.pick(&[JOB_BYTES, JOB_BYTES, JOB_BYTES + 1, JOB_BYTES + 500]);
        grow(rng, &mut fields, size);
    }
    let kind = rng.below(21);
    if (11..=18).contains(&kind) {
        damage(rng, &mut fields);
    }
    // The first of two broken rules counts.
    if kind == 18 && !fields.is_empty() {
        damage(rng, &mut fields);
    }
    let mut job = fields.concat();
    if kind > 18 {
        damage_bytes(rng, &mut job);
    }
    job
}

/// The same job with other values in its load fields, each as its field allows; behind the first
/// wrong place it stays as it is.
pub fn reload(rng: &mut Rng, job: &[u8]) -> Vec<u8> {
    let mut bytes = job.to_vec();
    let fields = shape(job).0;
    let width = width_of(&fields);
    for (place, field) in fields {
        let new = match field {
            Field::LoadRows { file, first, rows } => {
                let rows = &row_bytes(&numbers(rng, width, file, rows.len() / 4));
                write(&Field::LoadRows { file, first, rows })
            }
            Field::LoadRegister {
                thread, register, ..
            } => write(&load_register(rng, thread, register)),
            _ => continue,
        };
        bytes[place..place + new.len()].copy_from_slice(&new);
    }
    bytes
}
