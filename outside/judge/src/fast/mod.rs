//! The rules with a binary heap and ordinary arrays: judge and speed baseline.

mod bought;
mod check;
mod held;
mod hops;
mod job;
mod list;
mod many;
mod moves;
mod newcomers;
mod order;
mod parts;
mod patients;
mod run;
mod search;
mod waits;

pub use check::{asked, check, judge_lengths, judge_records};
pub use job::{print, read, Job};
pub use parts::parts;
pub use run::{one_run, run};

use crate::mutant::{Fault, Mutant};
use crate::records::{Evening, Lent, Query, Refusal, Tables, Way, ANSWER, PARTS_ANSWER};

/// The check as C sees it.
pub fn call_check<F: Fault>(tables: Tables, fault: F) -> u64 {
    in_one(check(hops::named(tables, fault), fault))
}

/// A move as C sees it.
pub fn call_move<F: Fault>(way: Way, source: &[u8], target: &mut [u8], fault: F) -> u64 {
    in_one(moves::moved(way, source, target, fault))
}

/// The judgement of a bought list as C sees it.
pub fn call_judge<F: Fault>(tables: Tables, query: Query, list: &[u8], fault: F) -> u64 {
    in_one(bought::judged(
        hops::named(tables, fault),
        query,
        list,
        fault,
    ))
}

/// Many queries as C sees them.
pub fn call_runs<F: Fault>(
    tables: Tables,
    queries: &[u8],
    lent: Lent,
    answers: &mut [u8],
    fault: F,
) -> u32 {
    let fits = many::fits(queries, answers, fault);
    if fits || fault.is(Mutant::RunsLate) {
        many::runs(hops::named(tables, fault), queries, lent, answers, fault);
    }
    u32::from(!fits)
}

/// An evening as C sees it.
pub fn call_patients<F: Fault>(
    tables: Tables,
    evening: Evening,
    patients: &[u8],
    mut lent: Lent,
    report: &mut [u8],
    answer: &mut [u8],
    fault: F,
) -> u32 {
    let tables = hops::named(tables, fault);
    let fits = answers(answer, ANSWER, fault);
    if !fits && !fault.is(Mutant::PatientsLate) {
        return 1;
    }
    let six = patients::patients(tables, evening, patients, &mut lent, report, fault);
    if fits {
        answer[..ANSWER].copy_from_slice(&six.bytes());
    }
    u32::from(!fits)
}

/// Refusal and place in one number.
fn in_one(refused: Option<Refusal>) -> u64 {
    match refused {
        None => 0,
        Some(refusal) => u64::from(refusal.number) << 32 | u64::from(refusal.place),
    }
}

/// Whether an answer slice of this length is filled.
fn answers<F: Fault>(answer: &[u8], size: usize, fault: F) -> bool {
    let loose = fault.is(Mutant::AnswerLoose) && answer.len() > size;
    answer.len() == size || loose
}

/// The run as C sees it.
pub fn call_run<F: Fault>(
    tables: Tables,
    query: Query,
    limit: u32,
    mut lent: Lent,
    answer: &mut [u8],
    fault: F,
) -> u32 {
    let tables = hops::named(tables, fault);
    if !answers(answer, ANSWER, fault) {
        if fault.is(Mutant::AnswerLate) {
            run(tables, query, limit, &mut lent, fault);
        }
        return 1;
    }
    let mut six = run(tables, query, limit, &mut lent, fault);
    if fault.is(Mutant::AnswerOrder) {
        std::mem::swap(&mut six.settled, &mut six.held);
    }
    if fault.is(Mutant::RunPartCount) {
        six.parts = six.settled;
    }
    answer[..ANSWER].copy_from_slice(&six.bytes());
    0
}

/// The parts operation as C sees it.
pub fn call_parts<F: Fault>(
    tables: Tables,
    query: Query,
    list: &[u8],
    buffer: &mut [u8],
    answer: &mut [u8],
    fault: F,
) -> u32 {
    let tables = hops::named(tables, fault);
    if !answers(answer, PARTS_ANSWER, fault) {
        if fault.is(Mutant::PartsAnswerLate) {
            parts(tables, query, list, buffer, fault);
        }
        return 1;
    }
    let three = parts(tables, query, list, buffer, fault);
    answer[..PARTS_ANSWER].copy_from_slice(&three.bytes());
    0
}
