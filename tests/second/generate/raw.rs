//! Fields that are looked at as bytes, right or wrong.

use crate::engine::{read, width_of, Stands, Tag, Width, HEADER};

pub fn is(field: &[u8], tag: Tag) -> bool {
    field[0] == tag.byte()
}

/// Dst's width under the settings that raw fields begin with.
pub fn raw_width(fields: &[Vec<u8>]) -> Width {
    let settings = fields.first().filter(|field| is(field, Tag::Settings));
    let settings = settings.and_then(|field| read(field[0], &field[HEADER..]));
    let settings = settings.filter(|field| field.fits(Width::Bits32));
    width_of(&settings.map_or(Vec::new(), |field| vec![(0, field)]))
}

/// The place of the first output.
pub fn first_output(fields: &[Vec<u8>]) -> usize {
    let output =
        |field: &Vec<u8>| Tag::of(field[0]).is_some_and(|tag| tag.stands() == Stands::Last);
    fields.iter().position(output).unwrap_or(fields.len())
}
