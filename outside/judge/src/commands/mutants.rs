//! `outside mutants`: every wrong version has to be told from `slow`.

use std::panic::{catch_unwind, set_hook, take_hook};

use super::selftest::jobs_for;
use super::Tally;
use crate::cases::{big, jobs, stream};
use crate::fast;
use crate::mutant::Mutant;
use crate::outcome::{Case, Outcome};
use crate::slow;

/// What the mutants are held against, made once for all of them.
struct Bench {
    cases: Vec<(Case, Outcome)>,
    jobs: Vec<(Vec<u8>, String)>,
    big: Vec<(&'static str, Case, Outcome)>,
}

pub fn run(seed: u64, cases: usize) -> Result<(), String> {
    let bench = Bench::new(seed, cases);
    let mut tally = Tally::new();
    // A mutant that breaks off is caught as well, and quietly.
    let hook = take_hook();
    set_hook(Box::new(|_| {}));
    for &mutant in Mutant::ALL {
        let caught = bench.catch(mutant);
        let line = match &caught {
            Some(place) => format!("caught    {mutant:?} ({}): {place}", mutant.note()),
            None => format!("SURVIVED  {mutant:?} ({})", mutant.note()),
        };
        println!("{line}");
        tally.count(caught.is_some(), || format!("{mutant:?} survived"));
    }
    set_hook(hook);
    tally.close()
}

impl Bench {
    fn new(seed: u64, cases: usize) -> Self {
        let with_slow = |case: Case| {
            let slow = case.slow();
            (case, slow)
        };
        let job = |number| {
            let job = jobs::job(seed, number);
            let text = slow::print(&job);
            (job, text)
        };
        let big = |big: &big::Big| {
            let (case, slow) = with_slow((big.make)());
            (big.name, case, slow)
        };
        Bench {
            cases: stream(seed).take(cases).map(with_slow).collect(),
            jobs: (0..jobs_for(cases) as u64).map(job).collect(),
            big: big::ALL.iter().map(big).collect(),
        }
    }

    /// Where the mutant is caught first.
    fn catch(&self, mutant: Mutant) -> Option<String> {
        let differs = |case: &Case, slow: &Outcome| {
            catch_unwind(|| case.fast(mutant) != *slow).unwrap_or(true)
        };
        let prints = |job: &[u8], text: &str| {
            catch_unwind(|| fast::print(job, mutant) != text).unwrap_or(true)
        };
        if let Some(i) = self.cases.iter().position(|(c, o)| differs(c, o)) {
            return Some(format!("case {i}"));
        }
        if let Some(i) = self.jobs.iter().position(|(j, t)| prints(j, t)) {
            return Some(format!("job {i}"));
        }
        let big = self.big.iter().find(|(_, c, o)| differs(c, o))?;
        Some(big.0.to_string())
    }
}
