//! Cases to the driver and its answers back.

use std::io::{self, Read, Write};

use outside::wire::{begin, bytes, put, slice, stray};

use crate::call::{Case, Outcome};

const CASE: u8 = 1;

pub fn put_case(out: &mut impl Write, case: &Case) -> io::Result<()> {
    out.write_all(&[CASE, u8::from(case.null)])?;
    [&case.stop_times, &case.stops, &case.trips, &case.hops, &case.answer].into_iter().try_for_each(|slice| put(out, slice))
}

/// An outcome of the driver, and whether a byte was changed beside its slices or in a text.
pub fn get_outcome(from: &mut impl Read, _: &Case) -> io::Result<(Outcome, bool)> {
    begin(from, CASE)?;
    let outcome = Outcome { value: u32::from_be_bytes(bytes(from)?), hops: slice(from)?, answer: slice(from)? };
    Ok((outcome, stray(from)?))
}
