//! Document 01, with orders 1, 3, 4, 6 and 8 of document 02, a second time: plain loops over plain
//! numbers, written from the papers alone, so that another program can be held against it from
//! outside. Nothing here uses the files beside this folder.

// A program that takes this folder by its path may need only a part of it.
#![allow(dead_code)]
// Files are compiled in parts: `inline` stands where one calls another's function for every field.

mod answer;
mod bytes;
mod counters;
mod datum;
mod fields;
mod files;
mod job;
mod judge;
mod marks;
mod named;
mod numbers;
mod ranges;
mod record;
mod rules;
mod shape;
mod sizes;
mod state;
mod step;
mod table;
mod width;
mod word;

pub(crate) use named::named;
#[allow(unused_imports)]
pub use {
    answer::*, bytes::*, counters::*, datum::*, fields::*, files::*, job::*, judge::*, marks::*,
    numbers::*, ranges::*, record::*, rules::*, shape::*, sizes::*, state::*, step::*, table::*,
    width::*, word::*,
};
