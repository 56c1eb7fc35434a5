//! Many queries: a whole run for each, one after the other.

use super::run;
use crate::records::{Asked, Lent, Tables};

/// Whether queries and answers have lengths that fit; otherwise nothing is done.
pub fn runs(tables: Tables, queries: &[u8], lent: Lent, answers: &mut [u8]) -> bool {
    let count = queries.len() / 24;
    if count * 24 != queries.len() || answers.len() != queries.len() {
        return false;
    }
    for i in 0..count {
        let Asked { query, limit } = Asked::read(queries, i);
        let share = lent.settled.len() / 8 / count;
        let own = Lent {
            held: &mut *lent.held,
            settled: &mut lent.settled[8 * share * i..8 * share * (i + 1)],
        };
        let six = run(tables, query, limit, own);
        answers[24 * i..24 * (i + 1)].copy_from_slice(&six.bytes());
    }
    true
}
