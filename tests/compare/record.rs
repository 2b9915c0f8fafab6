//! A single step's record as numbers, in the order of include/vintrazzola.h.

use crate::engine::{
    Control, Owner, Slot, Thread, A, B, DST_CARRY, DST_CLEAR, DST_COPY, FIDELITY_CLEAR, FLAGS,
    FP16A, FP32, INT8, KEEP, SRC, SRC_CARRY, SRC_CLEAR,
};

/// Where a number stands in the record.
enum Place<'a> {
    Byte(&'a mut u8),
    Pair(&'a mut u16),
    /// A number that is 0 or 1.
    Bit(&'a mut u8),
    /// One bit of flags.
    Flag(&'a mut u8, u8),
    Owner(&'a mut Owner),
}

impl Place<'_> {
    fn get(&self) -> u32 {
        match self {
            Place::Byte(place) | Place::Bit(place) => (**place).into(),
            Place::Pair(place) => (**place).into(),
            Place::Flag(flags, flag) => u32::from(**flags & flag != 0),
            Place::Owner(owner) => u32::from(**owner == Owner::Matrix),
        }
    }

    /// Nothing, where the number does not fit its field or is no flag.
    fn set(&mut self, number: u32) -> Option<()> {
        match self {
            Place::Byte(place) => **place = number.try_into().ok()?,
            Place::Pair(place) => **place = number.try_into().ok()?,
            _ if number > 1 => return None,
            Place::Bit(place) => **place = number as u8,
            Place::Flag(flags, flag) => **flags |= *flag * number as u8,
            Place::Owner(owner) if number == 1 => **owner = Owner::Matrix,
            Place::Owner(_) => {}
        }
        Some(())
    }
}

/// Where the first flag stands.
const FIRST_FLAG: usize = 1;

type Each<'a> = &'a mut dyn FnMut(Place) -> Option<()>;

fn walk_slot(s: &mut Slot, each: Each) -> Option<()> {
    for file in SRC {
        each(Place::Byte(&mut s.src_step[file]))?;
        for flag in [SRC_CLEAR[file], SRC_CARRY[file]] {
            each(Place::Flag(&mut s.flags, flag))?;
        }
    }
    each(Place::Pair(&mut s.dst_step))?;
    for flag in [DST_CLEAR, DST_CARRY, DST_COPY] {
        each(Place::Flag(&mut s.flags, flag))?;
    }
    each(Place::Byte(&mut s.fidelity_step))?;
    each(Place::Flag(&mut s.flags, FIDELITY_CLEAR))
}

fn walk_thread(t: &mut Thread, each: Each) -> Option<()> {
    each(Place::Pair(&mut t.dst))?;
    each(Place::Pair(&mut t.dst_cr))?;
    for file in SRC {
        each(Place::Byte(&mut t.src[file]))?;
        each(Place::Byte(&mut t.src_cr[file]))?;
    }
    each(Place::Byte(&mut t.phase))?;
    each(Place::Bit(&mut t.extra))?;
    each(Place::Pair(&mut t.offset))?;
    each(Place::Byte(&mut t.fidelity_base))?;
    for slot in &mut t.slots {
        walk_slot(slot, each)?;
    }
    Some(())
}

/// All numbers in their order.
fn walk(c: &mut Control, each: Each) -> Option<()> {
    each(Place::Byte(&mut c.format))?;
    for flag in [FP32, INT8, FP16A] {
        each(Place::Flag(&mut c.flags, flag))?;
    }
    each(Place::Pair(&mut c.base))?;
    for flag in KEEP {
        each(Place::Flag(&mut c.flags, flag))?;
    }
    for file in [A, B] {
        each(Place::Byte(&mut c.matrix[file]))?;
        each(Place::Byte(&mut c.unpackers[file]))?;
        for owner in &mut c.owner[file] {
            each(Place::Owner(owner))?;
        }
    }
    each(Place::Byte(&mut c.last))?;
    for t in &mut c.threads {
        walk_thread(t, each)?;
    }
    Some(())
}

pub fn numbers(c: &Control) -> Vec<u32> {
    let mut numbers = Vec::new();
    walk(&mut c.clone(), &mut |place| {
        numbers.push(place.get());
        Some(())
    });
    // A bit above the flags has no place of its own: it makes the first flag no flag.
    numbers[FIRST_FLAG] += 2 * u32::from(c.flags & !FLAGS != 0);
    numbers
}

/// The record that the numbers stand for: none where there are too few or too many, where a flag is
/// above 1 or where a number does not fit its field.
pub fn control(numbers: &[u32]) -> Option<Control> {
    let mut rest = numbers.iter();
    let mut c = Control::start();
    walk(&mut c, &mut |mut place| place.set(*rest.next()?))?;
    rest.next().is_none().then_some(c)
}
