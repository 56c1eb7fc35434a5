//! Many queries: the tables are judged once, and each query that is good is
//! searched in its share of the settled buffer.

use super::check::{asked, judge_tables};
use super::run::searched;
use crate::mutant::{Fault, Mutant};
use crate::records::{Answer, Asked, Lent, Refusal, Tables, ANSWER, ASKED, HELD, SETTLED};

/// Whether the queries are whole records, and there is an answer for each.
pub fn fits<F: Fault>(queries: &[u8], answers: &[u8], fault: F) -> bool {
    let count = queries.len() / ASKED;
    let whole = queries.len() % ASKED == 0 || fault.is(Mutant::RunsCut);
    let loose = fault.is(Mutant::RunsAnswersLoose) && answers.len() > count * ANSWER;
    let none = fault.is(Mutant::RunsNoneRefused) && count == 0;
    whole && (answers.len() == count * ANSWER || loose) && !none
}

/// Where the share of a query stands in the settled buffer, in bytes.
fn share<F: Fault>(settled: usize, count: usize, index: usize, fault: F) -> (usize, usize) {
    let records = settled / SETTLED;
    let mut size = records / count;
    let mut start = index * size;
    if fault.is(Mutant::RunsRoundUp) {
        size = records.div_ceil(count);
        start = (index * size).min(records);
    }
    let mut end = start + size;
    match fault {
        _ if fault.is(Mutant::RunsOverlap) => start = start.saturating_sub(1),
        _ if fault.is(Mutant::RunsWhole) => (start, end) = (0, records),
        _ if fault.is(Mutant::RunsBackward) => {
            (start, end) = ((count - 1 - index) * size, (count - index) * size)
        }
        _ if fault.is(Mutant::RunsLastLonger) && index + 1 == count => end = records,
        _ => {}
    }
    (start * SETTLED, end.min(records) * SETTLED)
}

pub fn runs<F: Fault>(tables: Tables, queries: &[u8], lent: Lent, answers: &mut [u8], fault: F) {
    let count = queries.len() / ASKED;
    let (held, settled) = (lent.held.len(), lent.settled.len());
    let mut refused = judge_tables(tables, &[(3, held, HELD)], fault);
    if fault.is(Mutant::RunsSettledCut) && settled % SETTLED != 0 {
        refused = refused.or(Some(Refusal::at(1, 4)));
    }
    for index in 0..count {
        let Asked { query, mut limit } = Asked::read(queries, index);
        if fault.is(Mutant::RunsOneLimit) {
            limit = Asked::read(queries, 0).limit;
        }
        let (start, end) = share(settled, count, index, fault);
        let mut own = Lent {
            held: &mut *lent.held,
            settled: &mut lent.settled[start..end],
        };
        if fault.is(Mutant::RunsHeldCleared) && index > 0 {
            own.held.fill(0);
        }
        let six = match refused.or_else(|| asked(tables, query, fault)) {
            Some(refusal) => Answer::refused(refusal),
            None => searched(tables, query, limit, &mut own, fault),
        };
        // One behind for a mutant: the last answer has no slot then.
        let slot = index + usize::from(fault.is(Mutant::RunsBehind));
        if let Some(answer) = answers.chunks_exact_mut(ANSWER).nth(slot) {
            answer.copy_from_slice(&six.bytes());
        }
        if six.refusal > 7 && fault.is(Mutant::RunsAllZero) {
            lent.settled.fill(0);
        }
        let stops = six.refusal != 0 && fault.is(Mutant::RunsStop);
        if stops || (refused.is_some() && fault.is(Mutant::RunsTablesOnce)) {
            return;
        }
    }
    if fault.is(Mutant::RunsRestZero) {
        let used = settled / SETTLED / count.max(1) * count * SETTLED;
        lent.settled[used..].fill(0);
    }
}
