//! A run and the parts of its own list, beside the one run of RULES 11.7 that
//! writes all three lists itself.

use crate::fast;
use crate::mutant::Sound;
use crate::outcome::{Call, Case, Fast, Outcome, Program};
use crate::records::{
    Answer, Evening, Lent, PartsAnswer, Query, Tables, Way, ANSWER, PARTS_ANSWER,
};
use crate::slow;

/// What the one run leaves in the three buffers.
struct Old {
    six: Answer,
    held: Vec<u8>,
    settled: Vec<u8>,
    parts: Vec<u8>,
}

/// Straight from the definitions where `slow` is asked, which should be
/// wherever it can look at every step.
fn old(case: &Case, ask_slow: bool) -> Old {
    let (tables, query, limit) = (case.tables(), case.query, case.limit);
    let mut before = case.before();
    let mut lent = Lent {
        held: &mut before.held,
        settled: &mut before.settled,
    };
    let six = match ask_slow {
        true => slow::one_run(tables, query, limit, lent, &mut before.parts),
        false => fast::one_run(tables, query, limit, &mut lent, &mut before.parts),
    };
    Old {
        six,
        held: before.held,
        settled: before.settled,
        parts: before.parts,
    }
}

/// Whether the outcome of a pair is what the one run says: the same bytes where
/// that is accepted, otherwise the same refusal. Two things are told apart by
/// the run alone: it knows nothing of the part buffer's length, and it goes on
/// where only room for parts is short. None for other calls, and for answer
/// slices of another length.
pub fn gives_old_bytes(case: &Case, after: &Outcome, ask_slow: bool) -> Option<bool> {
    let sizes = (case.answer.len(), case.parts_answer.len());
    if case.call != Call::Pair || sizes != (ANSWER, PARTS_ANSWER) {
        return None;
    }
    let Old {
        six,
        held,
        settled,
        parts,
    } = old(case, ask_slow);
    let run = Answer::read(&after.answer);
    let three = PartsAnswer::read(&after.parts_answer);
    let refused = (six.refusal, six.place);
    let told = run.refusal == 0 && (three.refusal, three.place) == refused && three.parts == 0;
    Some(match refused {
        (0, _) => {
            let counts = Answer { parts: 0, ..six };
            let bytes = after.held == held && after.settled == settled && after.parts == parts;
            let count = PartsAnswer {
                parts: six.parts,
                ..PartsAnswer::default()
            };
            run == counts && three == count && bytes
        }
        (1, 5) => told || run.refusal != 0,
        (10, step) => told || ((8..10).contains(&run.refusal) && run.place > step),
        _ => run == six && after.held == held && after.settled == settled,
    })
}

/// The one run of the fast program in the place of a pair, with the answers of
/// a pair: the baseline for the two operations together.
pub struct OneRun;

impl Program for OneRun {
    fn check(&self, tables: Tables) -> u64 {
        Fast(Sound).check(tables)
    }

    fn run(&self, tables: Tables, query: Query, limit: u32, lent: Lent, answer: &mut [u8]) -> u32 {
        Fast(Sound).run(tables, query, limit, lent, answer)
    }

    fn parts(
        &self,
        tables: Tables,
        query: Query,
        list: &[u8],
        parts: &mut [u8],
        answer: &mut [u8],
    ) -> u32 {
        Fast(Sound).parts(tables, query, list, parts, answer)
    }

    fn move_hops(&self, way: Way, source: &[u8], target: &mut [u8]) -> u64 {
        Fast(Sound).move_hops(way, source, target)
    }

    fn judge(&self, tables: Tables, query: Query, list: &[u8]) -> u64 {
        Fast(Sound).judge(tables, query, list)
    }

    fn runs(&self, tables: Tables, queries: &[u8], lent: Lent, answers: &mut [u8]) -> u32 {
        Fast(Sound).runs(tables, queries, lent, answers)
    }

    fn patients(
        &self,
        tables: Tables,
        evening: Evening,
        patients: &[u8],
        lent: Lent,
        report: &mut [u8],
        answer: &mut [u8],
    ) -> u32 {
        Fast(Sound).patients(tables, evening, patients, lent, report, answer)
    }

    /// For accepted runs with room for all parts.
    fn pair(&self, case: &Case, after: &mut Outcome) -> [u32; 2] {
        let mut lent = Lent {
            held: &mut after.held,
            settled: &mut after.settled,
        };
        let (tables, query, limit) = (case.tables(), case.query, case.limit);
        let six = fast::one_run(tables, query, limit, &mut lent, &mut after.parts);
        let three = PartsAnswer {
            parts: six.parts,
            ..PartsAnswer::default()
        };
        let six = Answer { parts: 0, ..six };
        after.answer.copy_from_slice(&six.bytes());
        after.parts_answer.copy_from_slice(&three.bytes());
        [0, 0]
    }
}
