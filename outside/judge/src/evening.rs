//! What holds of an evening, whoever answers: it is its single runs together.

use crate::outcome::{Call, Case, Outcome, Program};
use crate::records::{word, Answer, VERTEX};

/// Whether the figures of the vertices add up to what the single runs settle, and
/// held, settled and answer are as the last of them leaves these. None where no
/// evening is accepted.
pub fn adds_up<P: Program>(case: &Case, after: &Outcome, program: &P) -> Option<bool> {
    let told = case.call == Call::Patients && after.returned == 0;
    if !told || case.refusal(after) != (0, 0) {
        return None;
    }
    let single = |index: u32| {
        let mut run = case.clone();
        run.call = Call::Run;
        run.limit = u32::MAX;
        run.query.arrival += (case.gap * index) as i32;
        run.by(program)
    };
    let runs: Vec<Outcome> = (0..case.arrivals).map(single).collect();
    let settled = |run: &Outcome| u64::from(Answer::read(&run.answer).settled);
    let vertices = case.vertices.len() / VERTEX;
    let figures = (0..vertices).map(|v| u64::from(word(&after.report, 4 * v)));
    let last = runs.last()?;
    let left = (&last.held, &last.settled, &last.answer);
    let sums = figures.sum::<u64>() == runs.iter().map(settled).sum();
    Some(sums && left == (&after.held, &after.settled, &after.answer))
}
