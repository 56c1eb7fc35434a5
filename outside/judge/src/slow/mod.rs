//! The same answers straight from the definitions: distances by a fixpoint
//! over all records, every set of every step computed from scratch.

mod bought;
mod check;
mod job;
mod journeys;
mod many;
mod model;
mod moves;
mod order;
mod parts;
mod patients;
mod points;
mod run;
mod write;

pub use bought::{is_settled, judged};
pub use check::{asked, check, hops, lengths, records, vertices, walks};
pub use job::print;
pub use journeys::mistimed;
pub use order::misplaced;
pub use parts::parts;
pub use points::uncovered;
pub use run::{one_run, run};

use crate::records::{Evening, Lent, Query, Tables, Way};

/// The check as C sees it.
pub fn call_check(tables: Tables) -> u64 {
    check(tables).map_or(0, |(number, place)| number * (1 << 32) + place)
}

/// A move as C sees it.
pub fn call_move(way: Way, source: &[u8], target: &mut [u8]) -> u64 {
    moves::moved(way, source, target).map_or(0, |(number, place)| number * (1 << 32) + place)
}

/// The judgement of a bought list as C sees it.
pub fn call_judge(tables: Tables, query: Query, list: &[u8]) -> u64 {
    judged(tables, query, list).map_or(0, |(number, place)| number * (1 << 32) + place)
}

/// Many queries as C sees them.
pub fn call_runs(tables: Tables, queries: &[u8], lent: Lent, answers: &mut [u8]) -> u32 {
    u32::from(!many::runs(tables, queries, lent, answers))
}

/// An evening as C sees it.
pub fn call_patients(
    tables: Tables,
    evening: Evening,
    patients: &[u8],
    lent: Lent,
    report: &mut [u8],
    answer: &mut [u8],
) -> u32 {
    if answer.len() == 24 {
        let six = patients::patients(tables, evening, patients, lent, report);
        answer.copy_from_slice(&six.bytes());
        0
    } else {
        1
    }
}

/// The run as C sees it.
pub fn call_run(tables: Tables, query: Query, limit: u32, lent: Lent, answer: &mut [u8]) -> u32 {
    if answer.len() == 24 {
        let six = run(tables, query, limit, lent);
        answer.copy_from_slice(&six.bytes());
        0
    } else {
        1
    }
}

/// The parts operation as C sees it.
pub fn call_parts(
    tables: Tables,
    query: Query,
    list: &[u8],
    buffer: &mut [u8],
    answer: &mut [u8],
) -> u32 {
    if answer.len() == 12 {
        let three = parts(tables, query, list, buffer);
        answer.copy_from_slice(&three.bytes());
        0
    } else {
        1
    }
}
