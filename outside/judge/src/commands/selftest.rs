//! `outside self`: fast against slow.

use super::Tally;
use crate::cases::{big, jobs, stream};
use crate::evening;
use crate::fast;
use crate::mutant::{Fault, Sound};
use crate::outcome::{Call, Case, Outcome, Slow};
use crate::pair;
use crate::records::{Answer, Walk, ANSWER, WALK};
use crate::show;
use crate::slow;
use crate::trips;

pub fn run<F: Fault>(seed: u64, cases: usize, fault: F) -> Result<(), String> {
    let mut tally = Tally::new();
    for (number, case) in stream(seed).take(cases).enumerate() {
        let (fast, slow) = (case.fast(fault), case.slow());
        let same = fast == slow;
        tally.count(same, || {
            told(&format!("case {number}"), &case, &fast, &slow)
        });
        if let Some(same) = pair::gives_old_bytes(&case, &slow, case.small()) {
            tally.count(same, || {
                format!("case {number}: not the old bytes\n{}", show::case(&case))
            });
        }
        let unchanged = trips::change_nothing(&case, &slow, &Slow);
        if let Some(same) = unchanged.or_else(|| trips::go_back(&case, &slow, &Slow)) {
            tally.count(same, || {
                let shown = show::case(&case);
                format!("case {number}: trips matter, or the way back differs\n{shown}")
            });
        }
        if let Some(same) = evening::adds_up(&case, &slow, &Slow) {
            tally.count(same, || {
                let shown = show::case(&case);
                format!("case {number}: an evening is not its runs\n{shown}")
            });
        }
        if let Some(same) = passes_settled(&case, &slow) {
            tally.count(same, || {
                format!(
                    "case {number}: what passes is not settled\n{}",
                    show::case(&case)
                )
            });
        }
        if finished(&case, &slow) {
            let stray = strayed(&case);
            tally.count(stray.is_none(), || {
                let stray = stray.clone().unwrap_or_default();
                format!("case {number}: {stray}\n{}", show::case(&case))
            });
        }
    }
    for number in 0..jobs_for(cases) as u64 {
        let job = jobs::job(seed, number);
        let (fast, slow) = (fast::print(&job, fault), slow::print(&job));
        tally.count(fast == slow, || {
            format!("job {number} of seed {seed}:\nfast\n{fast}slow\n{slow}")
        });
    }
    for big in big::ALL {
        judge_big(big, fault, &mut tally);
    }
    tally.close()
}

/// `outside show`: one case of a seed and what both programs answer.
pub fn show_one(seed: u64, number: usize) -> Result<(), String> {
    let case = stream(seed).nth(number).ok_or("there is no such case")?;
    print!("{}", show::case(&case));
    print!("fast\n{}", show::outcome(&case, &case.fast(Sound)));
    print!("slow\n{}", show::outcome(&case, &case.slow()));
    Ok(())
}

/// Jobs go along with the calls, four calls to a job.
pub fn jobs_for(cases: usize) -> usize {
    cases / 4
}

/// Is the answer the one the case was built for, and the one of `slow`?
fn judge_big<F: Fault>(big: &big::Big, fault: F, tally: &mut Tally) {
    let case = (big.make)();
    let (fast, slow) = (case.fast(fault), case.slow());
    let built = big.fits(case.refusal(&fast));
    let old = pair::gives_old_bytes(&case, &fast, case.small()).unwrap_or(true);
    tally.count(built && old && fast == slow, || {
        told(big.name, &case, &fast, &slow)
    });
}

/// Whether a bought list that passes has what is settled, with its distances, by
/// the journeys. None where none passes.
fn passes_settled(case: &Case, outcome: &Outcome) -> Option<bool> {
    let passed = case.call == Call::Judge && outcome.returned == 0;
    let right = || {
        let (tables, query) = (case.tables(), case.query);
        slow::is_settled(tables, query, &case.list) && slow::mistimed(tables, query).is_none()
    };
    passed.then(right)
}

/// An accepted run to the end.
fn finished(case: &Case, outcome: &Outcome) -> bool {
    let whole = case.call.runs() && outcome.answer.len() == ANSWER;
    whole && outcome.returned == 0 && Answer::read(&outcome.answer).finished == 1
}

/// Where distances, order or parts and their definitions disagree. Steps are
/// looked at in small networks and points on short walks only, there are too
/// many elsewhere.
fn strayed(case: &Case) -> Option<String> {
    if let Some(vertex) = slow::mistimed(case.tables(), case.query) {
        return Some(format!("the journeys of vertex {vertex} disagree"));
    }
    if case.small() {
        if let Some(step) = slow::misplaced(case.tables(), case.query) {
            return Some(format!("step {step} settles another vertex"));
        }
    }
    let length = |i| Walk::read(&case.walks, i).length;
    if (0..case.walks.len() / WALK).any(|i| length(i) > 200) {
        return None;
    }
    let (record, offset) = slow::uncovered(case.tables(), case.query)?;
    Some(format!(
        "the journeys on walk {record} at {offset} disagree"
    ))
}

pub fn told(name: &str, case: &Case, fast: &Outcome, slow: &Outcome) -> String {
    format!(
        "{name}: fast and slow differ\n{}fast\n{}slow\n{}",
        show::case(case),
        show::outcome(case, fast),
        show::outcome(case, slow)
    )
}
