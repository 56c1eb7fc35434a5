//! Evenings over the base job, where D is 3,000: what RULES 25 says of each,
//! worked out by hand. At 35,900 the hop comes too late for the way from its end,
//! at 35,930 just in time, and then vertex 4 is within D too; at 36,000 it is the
//! base job, and at 36,070 the hop leaves before the window.

use super::Wanted::{self, Finished, Held, HeldKept, Order, Refusal, Report, Returned};
use super::{base, filled, marked, Marked};
use crate::outcome::Case;
use crate::records::{ANSWER, HELD, SETTLED};

const COUNTS: &[u32] = &[10, 20, 300, 4_000, 50_000];

const KEPT: Wanted = Wanted::ReportKept;
const ZERO: Wanted = Wanted::Report(&[0; 9]);

#[rustfmt::skip] // a row a line
pub const ALL: &[Marked] = &[
    marked("three arrivals", || evening(35_930, 70, 3), &[Refusal(0, 0), Report(&[3, 3, 3, 2, 1, 54_330, 4_330, 330, 54_330]), Order(&[1, 0, 2]), Held(&[(3, 3_100, 0, 1)]), Finished(1)]),
    marked("one arrival", || evening(36_000, 3_600, 1), &[Refusal(0, 0), Report(&[1, 1, 1, 1, 0, 4_330, 54_330]), Order(&[1, 0, 3, 2])]),
    marked("the total is of all", || evening(36_070, 1, 2), &[Report(&[2, 2, 2, 0, 0, 330, 330, 54_330])]),
    marked("from too late to just in time", || evening(35_900, 30, 2), &[Report(&[2, 2, 2, 1, 1, 330, 54_330, 54_330]), Order(&[1, 0, 3, 4, 2])]),
    marked("the last arrival at the limit", || evening(165_600, 3_600, 3), &[Refusal(0, 0), Report(&[3, 3, 3, 0, 0, 330, 330, 330, 54_330])]),
    marked("a second beyond it", || evening(165_601, 3_600, 3), &[Refusal(20, 2), KEPT, HeldKept]),
    // Room: of the first run that lacks it, by its step.
    marked("five settled records", || room(evening(35_930, 70, 3), 5, 5), &[Refusal(0, 0), Report(&[3, 3, 3, 2, 1, 54_330, 4_330, 330, 54_330])]),
    marked("four settled records", || room(evening(35_930, 70, 3), 5, 4), &[Refusal(9, 5), ZERO]),
    marked("a later arrival lacks room", || room(evening(35_900, 30, 3), 5, 3), &[Refusal(9, 4), ZERO]),
    marked("four held records", || room(evening(35_930, 70, 3), 4, 5), &[Refusal(0, 0)]),
    marked("three held records", || room(evening(35_930, 70, 3), 3, 5), &[Refusal(8, 1), ZERO]),
    // 19 and 20, and what comes before them.
    marked("65,535 patients", || changed(|case| case.patients[16..].copy_from_slice(&[0, 0, 255, 255])), &[Refusal(0, 0)]),
    marked("65,536 patients", || changed(|case| case.patients[16..].copy_from_slice(&[0, 1, 0, 0])), &[Refusal(19, 4), KEPT, HeldKept]),
    marked("the first of two", || changed(|case| { case.patients[0] = 128; case.patients[4] = 1; }), &[Refusal(19, 0), KEPT]),
    marked("19 before 20", || changed(|case| { case.patients[4] = 1; case.gap = 0; }), &[Refusal(19, 1), KEPT]),
    marked("7 before 19", || changed(|case| { case.patients[4] = 1; case.query.arrival = -1; }), &[Refusal(7, 2), KEPT]),
    marked("gap 0", || changed(|case| case.gap = 0), &[Refusal(20, 0), KEPT, HeldKept]),
    marked("gap 3,600", || changed(|case| case.gap = 3_600), &[Refusal(0, 0)]),
    marked("gap 3,601", || changed(|case| case.gap = 3_601), &[Refusal(20, 0), KEPT]),
    marked("no arrival", || evening(36_000, 70, 0), &[Refusal(20, 1), KEPT, HeldKept]),
    marked("96 arrivals", || evening(36_000, 70, 96), &[Refusal(0, 0)]),
    marked("97 arrivals", || evening(36_000, 70, 97), &[Refusal(20, 1), KEPT]),
    marked("the gap before the number", || { let mut case = evening(36_000, 70, 97); case.gap = 0; case }, &[Refusal(20, 0), KEPT]),
    marked("the number before the last", || evening(172_800, 70, 97), &[Refusal(20, 1), KEPT]),
    // Lengths, in exact numbers.
    marked("a patient missing", || changed(|case| case.patients.truncate(16)), &[Refusal(1, 6), KEPT, HeldKept]),
    marked("a patient table of bytes", || changed(|case| case.patients.truncate(19)), &[Refusal(1, 6), KEPT]),
    marked("a report too short", || changed(|case| case.report.truncate(35)), &[Refusal(1, 7), KEPT, HeldKept]),
    marked("a report too long", || changed(|case| case.report.extend([9; 4])), &[Refusal(1, 7), KEPT]),
    marked("both, the patients first", || changed(|case| { case.patients.clear(); case.report.clear(); }), &[Refusal(1, 6)]),
    marked("FFFFFFFF arrivals", || { let mut case = evening(36_000, 70, 0); case.report.truncate(20); case.arrivals = u32::MAX; case }, &[Refusal(1, 7), KEPT]),
    marked("1 before 2", || changed(|case| { case.walks[3] = 99; case.report.clear(); }), &[Refusal(1, 7)]),
    marked("a cut held buffer first", || changed(|case| { case.held.truncate(79); case.patients.clear(); }), &[Refusal(1, 3)]),
    marked("an answer of 25 bytes", || changed(|case| case.answer = vec![9; ANSWER + 1]), &[Returned(1), KEPT, HeldKept]),
];

/// The base job with this first arrival, gap and number, and the counts.
fn evening(first: i32, gap: u32, arrivals: u32) -> Case {
    let mut scene = base();
    scene.query.arrival = first;
    filled(scene.patients_case(gap, arrivals, COUNTS))
}

fn room(mut case: Case, held: usize, settled: usize) -> Case {
    case.held.truncate(held * HELD);
    case.settled.truncate(settled * SETTLED);
    case
}

/// Three arrivals, with something changed.
fn changed(change: fn(&mut Case)) -> Case {
    let mut case = evening(35_930, 70, 3);
    change(&mut case);
    case
}
