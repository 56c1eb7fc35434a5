//! Cases for the driver, and its answers.

use std::io::{self, Read, Write};

use outside::wire::{begin, bytes, put, slice, stray};

use crate::call::{Case, Outcome};

const RUN: u8 = 1;

pub fn put_case(out: &mut impl Write, case: &Case) -> io::Result<()> {
    out.write_all(&[RUN, case.null.into()])?;
    for slice in [&case.vertices, &case.walks, &case.hops] {
        put(out, slice)?;
    }
    let q = case.query;
    for number in [case.hop_size, q.record, q.offset, q.arrival as u32, q.duration, q.speed, case.boarding, case.limit] {
        out.write_all(&number.to_be_bytes())?;
    }
    [&case.settled, &case.scratch, &case.answer].into_iter().try_for_each(|slice| put(out, slice))
}

/// What the driver tells of a case, and whether anything else was changed.
pub fn get_outcome(from: &mut impl Read, _: &Case) -> io::Result<(Outcome, bool)> {
    begin(from, RUN)?;
    let outcome = Outcome { value: u32::from_be_bytes(bytes(from)?), settled: slice(from)?, scratch: slice(from)?, answer: slice(from)? };
    Ok((outcome, stray(from)?))
}
