//! Cases for the driver, and its answers.

use std::io::{self, Read, Write};

use outside::wire::{begin, bytes, put, slice, stray};

use crate::call::{Case, Kind, Outcome};

fn kind(case: &Case) -> u8 {
    match case.kind {
        Kind::List => 1,
        Kind::Run => 2,
        Kind::Parts => 3,
    }
}

pub fn put_case(out: &mut impl Write, case: &Case) -> io::Result<()> {
    out.write_all(&[kind(case), case.null.into()])?;
    for slice in [&case.vertices, &case.walks, &case.hops, &case.list] {
        put(out, slice)?;
    }
    out.write_all(&case.hop_size.to_be_bytes())?;
    if case.kind == Kind::List {
        return Ok(());
    }
    let q = case.query;
    for number in [q.record, q.offset, q.arrival as u32, q.duration, q.speed, case.limit] {
        out.write_all(&number.to_be_bytes())?;
    }
    let slices = match case.kind {
        Kind::Run => [&case.held, &case.settled, &case.answer],
        _ => [&case.entries, &case.parts, &case.answer],
    };
    slices.into_iter().try_for_each(|slice| put(out, slice))
}

/// What the driver tells of a case, and whether anything else was changed.
pub fn get_outcome(from: &mut impl Read, case: &Case) -> io::Result<(Outcome, bool)> {
    begin(from, kind(case))?;
    let mut outcome = Outcome { value: u64::from_be_bytes(bytes(from)?), list: vec![], held: vec![], settled: vec![], parts: vec![], answer: vec![] };
    match case.kind {
        Kind::List => outcome.list = slice(from)?,
        Kind::Run => {
            outcome.held = slice(from)?;
            outcome.settled = slice(from)?;
            outcome.answer = slice(from)?;
        }
        Kind::Parts => {
            outcome.parts = slice(from)?;
            outcome.answer = slice(from)?;
        }
    }
    Ok((outcome, stray(from)?))
}
