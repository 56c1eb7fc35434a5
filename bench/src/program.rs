//! A program that can be called: the library, or the Rust program.

use std::hint::black_box;
use std::time::Duration;

use outside::mutant::Sound;
use outside::outcome::{Case, Outcome};

use crate::clock::timed;

/// The independent program in Rust.
pub use outside::outcome::{Fast as Rust, Program};

/// The right version of it, which the library is measured and held against.
pub const RUST: Rust<Sound> = Rust(Sound);

/// Makes the call in buffers of a case's sizes. They are filled afresh and what
/// is only read is read through before the clock starts, so that every call
/// finds its memory in the same state, whichever call was made before.
pub fn call<P: Program>(program: &P, case: &Case, after: &mut Outcome) -> Duration {
    after.held.copy_from_slice(&case.held);
    after.settled.copy_from_slice(&case.settled);
    after.parts.copy_from_slice(&case.parts);
    after.answer.copy_from_slice(&case.answer);
    after.parts_answer.copy_from_slice(&case.parts_answer);
    after.target.copy_from_slice(&case.target);
    after.report.copy_from_slice(&case.report);
    let case = black_box(case);
    for table in [&case.vertices, &case.walks, &case.hops, &case.list] {
        black_box(table.iter().fold(0u8, |sum, byte| sum ^ byte));
    }
    let (time, returned) = timed(|| case.call_in(program, after));
    after.returned = returned;
    time
}

/// What a call leaves behind, if the Rust program leaves the very same.
pub fn agreed<P: Program>(program: &P, case: &Case) -> Result<Outcome, String> {
    let mut after = case.before();
    call(program, case, &mut after);
    match after == case.fast(Sound) {
        true => Ok(after),
        false => Err("the answers differ".to_string()),
    }
}
