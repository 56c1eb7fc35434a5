//! `framing self|mutants|make|judge SEED CASES`: the frame of RULES 21 judged from outside. `make` writes cases for the driver and `judge` reads what the
//! library answered; both begin with the fixed cases. The last line is 'N passed, M failed'.

use std::io::{self, Read, Write};
use std::process::exit;

use framing::rules::{by_bits, by_floats, Case, Outcome};
use framing::{cases, wrong};
use outside::commands::{program, seeded, Tally};
use outside::wire::{self, begin, bytes, put, slice, stray};

const USAGE: &str = "framing self|mutants|make|judge SEED CASES";

const CASE: u8 = 1;

fn all(seed: u64, count: u64) -> impl Iterator<Item = Case> {
    cases::fixed().into_iter().map(|(case, _)| case).chain((0..count).map(move |i| cases::made(seed, i)))
}

/// What RULES 21 says of the fixed cases, then the two programs on one another. At the limits one way alone: the other takes every pair.
fn own(seed: u64, count: u64) -> Tally {
    let mut tally = Tally::new();
    for (case, numbers) in cases::fixed() {
        let right = Outcome { value: 0, answer: numbers.iter().flat_map(|n| n.to_be_bytes()).collect() };
        compare(&mut tally, &case, &right, &by_floats(&case));
        if case.list.len() < 8_000 {
            compare(&mut tally, &case, &right, &by_bits(&case));
        }
    }
    for i in 0..count {
        let case = cases::made(seed, i);
        compare(&mut tally, &case, &by_bits(&case), &by_floats(&case));
    }
    tally
}

/// One outcome, beside the right one.
fn compare(tally: &mut Tally, case: &Case, right: &Outcome, got: &Outcome) {
    tally.compare(|| format!("{case:x?}"), right, got, |outcome| format!("{outcome:x?}"));
}

fn mutants(seed: u64, count: u64) -> Tally {
    let mut tally = Tally::new();
    for (name, version) in wrong::ALL {
        let caught = all(seed, count).any(|case| version(&case) != by_floats(&case));
        tally.count(caught, || format!("not caught: {name}"));
    }
    tally
}

fn put_case(out: &mut impl Write, case: &Case) -> io::Result<()> {
    out.write_all(&[CASE, u8::from(case.null)])?;
    [&case.vertices, &case.list, &case.coordinates, &case.answer].into_iter().try_for_each(|slice| put(out, slice))
}

/// An outcome of the driver, and whether a byte was written that is not the answer's.
fn get_outcome(from: &mut impl Read, _: &Case) -> io::Result<(Outcome, bool)> {
    begin(from, CASE)?;
    let outcome = Outcome { value: u32::from_be_bytes(bytes(from)?), answer: slice(from)? };
    Ok((outcome, stray(from)?))
}

fn judge(seed: u64, count: u64) -> io::Result<Tally> {
    wire::judge(all(seed, count), get_outcome, |tally, case, (got, stray)| {
        compare(tally, case, &by_floats(case), &got);
        if stray {
            tally.count(false, || format!("{case:x?}\nwritten beside the answer"));
        }
    })
}

fn command(words: &[&str]) -> Option<io::Result<Tally>> {
    let (&name, rest) = words.split_first()?;
    let (seed, count) = seeded(rest, 20_000)?;
    let count = count as u64;
    Some(match name {
        "self" => Ok(own(seed, count)),
        "mutants" => Ok(mutants(seed, count)),
        "make" => wire::make(all(seed, count), put_case).map(|()| exit(0)),
        "judge" => judge(seed, count),
        _ => return None,
    })
}

fn main() {
    program("framing", USAGE, command)
}
