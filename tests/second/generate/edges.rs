//! Numbers put on the ends of their ranges.

use super::raw::raw_width;
use super::rng::Rng;
use crate::engine::{ranged, Ranged, What, HEADER};

/// Puts one ranged number on an end of its range, or one past it.
pub fn to_edge(rng: &mut Rng, fields: &mut [Vec<u8>]) {
    let width = raw_width(fields);
    let mut found: Vec<(usize, Ranged)> = Vec::new();
    for (n, field) in fields.iter().enumerate() {
        let ranges = ranged(width, field[0], &field[HEADER..]);
        found.extend(ranges.into_iter().map(|range| (n, range)));
    }
    // By name first, as a load has hundreds of values and but one first row.
    let has = |what: &What| found.iter().any(|(_, range)| range.what == *what);
    let names: Vec<What> = What::ALL.iter().copied().filter(has).collect();
    if names.is_empty() {
        return;
    }
    // Every job has settings, and many have little of Dst.
    let dst: Vec<What> = names
        .iter()
        .copied()
        .filter(|what| what.is_of_dst())
        .collect();
    let what = if dst.is_empty() || rng.one_in(2) {
        rng.pick(&names)
    } else {
        rng.pick(&dst)
    };
    found.retain(|(_, range)| range.what == what);
    let (n, range) = &found[rng.index(found.len())];
    let value = match rng.below(6) {
        0 => range.low,
        1..=3 if range.low > 0 => range.low - 1,
        1 => range.high,
        _ => range.high + 1,
    };
    let place = &mut fields[*n][HEADER + range.at..][..range.size];
    place.copy_from_slice(&value.to_le_bytes()[..range.size]);
}
