//! A job's bytes as fields, and the first wrong place.

use super::{raw_at, read, Field, Stands, Width, HEADER, JOB_BYTES};

/// A field and its place.
pub type Placed<'a> = (usize, Field<'a>);

/// Walks a job's bytes from field to field, as far as each is whole and of a right length.
pub struct Fields<'a> {
    job: &'a [u8],
    at: usize,
}

pub fn fields(job: &[u8]) -> Fields<'_> {
    Fields { job, at: 0 }
}

impl<'a> Iterator for Fields<'a> {
    type Item = Placed<'a>;

    #[inline]
    fn next(&mut self) -> Option<Placed<'a>> {
        let (tag, payload) = raw_at(self.job, self.at)?;
        let placed = (self.at, read(tag, payload)?);
        self.at += HEADER + payload.len();
        Some(placed)
    }
}

/// Dst's width in a job, from its fields; settings that are right stand first among them.
pub fn width_of(fields: &[Placed]) -> Width {
    match fields.first() {
        Some((_, Field::Settings(payload))) => Width::of(payload[0], payload[1]),
        _ => Width::Bits32,
    }
}

/// The place of the first wrong field, or the job's length when no output stands.
pub fn wrong_place(job: &[u8]) -> Option<usize> {
    if job.len() > JOB_BYTES {
        return Some(0);
    }
    let mut fields = fields(job);
    let (mut width, mut outputs) = (Width::Bits32, false);
    for (place, field) in fields.by_ref() {
        let stands = field.tag().stands();
        let first = stands == Stands::FirstAndOnce;
        let last = stands == Stands::Last;
        if !field.fits(width) || first != (place == 0) || (outputs && !last) {
            return Some(place);
        }
        if let Field::Settings(payload) = field {
            width = Width::of(payload[0], payload[1]);
        }
        outputs |= last;
    }
    if fields.at < job.len() || !outputs {
        return Some(fields.at);
    }
    None
}

/// The fields with their places, up to the first wrong place, and that place where there is one.
pub fn shape(job: &[u8]) -> (Vec<Placed<'_>>, Option<usize>) {
    let wrong = wrong_place(job);
    let end = wrong.unwrap_or(job.len());
    let right = fields(job).take_while(|(place, _)| *place < end);
    (right.collect(), wrong)
}
