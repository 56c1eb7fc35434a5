//! Many queries over the base job, where D is 3,000: what RULES 24 says of each,
//! worked out by hand.

use super::Wanted::{Answers, From, HeldBytes, HeldKept, Returned, SettledKept};
use super::{base, filled, marked, Marked, BASE_HELD, BASE_SETTLED};
use crate::outcome::Case;
use crate::records::{Asked, Query, ANSWER, HELD, NONE, SETTLED};

/// A field of the base query, changed.
type Change = fn(&mut Query);

const GOOD: (Change, u32) = (|_| (), NONE);
/// Settles 1, 0 and 3.
const SHORT: (Change, u32) = (|q| q.duration = 299, NONE);
const ONE_STEP: (Change, u32) = (|_| (), 1);
const BAD_SPEED: (Change, u32) = (|q| q.speed = 0, NONE);
const BAD_ARRIVAL: (Change, u32) = (|q| q.arrival = -1, NONE);

/// Refusal, place, settled, held, finished.
const BASE: [u32; 5] = [0, 0, 4, 1, 1];
const THREE: [u32; 5] = [0, 0, 3, 2, 1];

const THREE_SETTLED: &[(u32, u32)] = &[(1, 500), (0, 1500), (3, 2400)];

const ONE: &[(u32, u32, u32, u32)] = &[
    (0, 1500, 0, 0),
    (1, 500, 1, 2),
    (2, 3000, 0, 0),
    (3, 2400, 0, 1),
];

#[rustfmt::skip] // a row a line
pub const ALL: &[Marked] = &[
    marked("no query", || made(&[], 5, 40), &[Returned(0), Answers(&[]), SettledKept(0), HeldKept]),
    marked("one query", || made(&[GOOD], 5, 40), &[Returned(0), Answers(&[BASE]), From(0, BASE_SETTLED), From(4, &[(0, 0)]), HeldBytes(BASE_HELD)]),
    marked("two queries, 11 records", || made(&[GOOD, SHORT], 5, 88), &[Answers(&[BASE, THREE]), From(0, BASE_SETTLED), From(5, THREE_SETTLED), From(8, &[(0, 0), (0, 0)]), SettledKept(80)]),
    marked("two queries, 10 records and 7 bytes", || made(&[GOOD, SHORT], 5, 87), &[Answers(&[BASE, THREE]), From(5, THREE_SETTLED), SettledKept(80)]),
    marked("the last query's held", || made(&[GOOD, ONE_STEP], 5, 80), &[Answers(&[BASE, [0, 0, 1, 4, 0]]), From(5, &[(1, 500), (0, 0)]), HeldBytes(ONE)]),
    marked("a limit of its own each", || made(&[ONE_STEP, GOOD], 5, 80), &[Answers(&[[0, 0, 1, 4, 0], BASE]), HeldBytes(BASE_HELD)]),
    // 7 leaves share and held as they are, and the next query is answered.
    marked("a bad query between", || made(&[GOOD, BAD_SPEED, SHORT], 5, 120), &[Answers(&[BASE, [7, 4, 0, 0, 0], THREE]), From(10, THREE_SETTLED)]),
    marked("a bad query last", || made(&[GOOD, BAD_ARRIVAL], 5, 80), &[Answers(&[BASE, [7, 2, 0, 0, 0]]), SettledKept(40), HeldBytes(BASE_HELD)]),
    marked("bad queries alone", || made(&[BAD_ARRIVAL, BAD_SPEED], 5, 80), &[Answers(&[[7, 2, 0, 0, 0], [7, 4, 0, 0, 0]]), SettledKept(0), HeldKept]),
    // Shares exact, one record short, and of no record.
    marked("shares of four records", || made(&[GOOD, GOOD], 4, 64), &[Answers(&[BASE, BASE]), From(0, BASE_SETTLED), From(4, BASE_SETTLED)]),
    marked("shares of three records", || made(&[GOOD, SHORT], 4, 63), &[Answers(&[[9, 4, 0, 0, 0], THREE]), From(0, &[(0, 0), (0, 0), (0, 0)]), From(3, THREE_SETTLED), SettledKept(48)]),
    marked("shares of no record", || made(&[GOOD, BAD_SPEED], 5, 15), &[Answers(&[[9, 1, 0, 0, 0], [7, 4, 0, 0, 0]]), SettledKept(0), HeldBytes(&[])]),
    marked("three held slots", || made(&[GOOD, BAD_SPEED, GOOD], 3, 120), &[Answers(&[[8, 1, 0, 0, 0], [7, 4, 0, 0, 0], [8, 1, 0, 0, 0]]), SettledKept(120), HeldBytes(&[])]),
    // The tables are told to each query, and before its own faults.
    marked("a bad table", || harmed(|case| case.vertices[11] = 1), &[Answers(&[[6, 0, 0, 0, 0]; 2]), SettledKept(0), HeldKept]),
    marked("a hop of 17 bytes", || harmed(|case| case.hop_size = 17), &[Answers(&[[1, 2, 0, 0, 0]; 2]), SettledKept(0), HeldKept]),
    marked("a cut held buffer", || harmed(|case| case.held.truncate(79)), &[Answers(&[[1, 3, 0, 0, 0]; 2]), SettledKept(0), HeldKept]),
    // Lengths that do not fit.
    marked("a cut query", || harmed(|case| { case.queries.push(0); }), &[Returned(1), SettledKept(0), HeldKept]),
    marked("an answer missing", || harmed(|case| case.answer.truncate(ANSWER)), &[Returned(1), SettledKept(0), HeldKept]),
    marked("an answer too many", || harmed(|case| case.answer.extend([0; ANSWER])), &[Returned(1), SettledKept(0), HeldKept]),
    marked("no query, an answer", || { let mut case = made(&[], 5, 40); case.answer = vec![9; ANSWER]; case }, &[Returned(1), SettledKept(0), HeldKept]),
];

/// These queries with so many held slots and settled bytes.
fn made(changes: &[(Change, u32)], slots: usize, settled: usize) -> Case {
    let scene = base();
    let asked = |&(change, limit): &(Change, u32)| {
        let mut query = scene.query;
        change(&mut query);
        Asked { query, limit }
    };
    let asked: Vec<Asked> = changes.iter().map(asked).collect();
    let mut case = scene.runs_case(&asked);
    case.held = vec![0; slots * HELD];
    case.settled = vec![0; settled];
    filled(case)
}

/// A good query and a bad one, with something else changed.
fn harmed(change: fn(&mut Case)) -> Case {
    let mut case = made(&[GOOD, BAD_SPEED], 5, 10 * SETTLED);
    change(&mut case);
    case
}
