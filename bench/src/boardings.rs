//! The run with a boarding time beside two programs in Rust, over vehicles that go through stops, and on tables that were made to take long: one with a heap and
//! hash maps, by which the aim is judged, and one with a heap and sorted arrays, which is quicker.

use std::hint::black_box;
use std::time::Duration;

use boarding::call::{Case, Outcome, Program as Boarding};
use boarding::cases::Ground;
use boarding::mapped::Mapped;
use boarding::quick::Quick;
use boarding::scenes::{measured, Ridden};
use boarding::wrong::Sound;
use outside::records::{NONE, SETTLED};

use crate::clock::timed;
use crate::page::{grouped, head, row};
use crate::speed::{kept, told, Spent, Times};

/// What a run may take at most beside the program with hash maps.
const AT_MOST: Option<f64> = Some(1.5);

const COLUMNS: [&str; 9] = ["a boarding time of 60 s", "part", "library ms", "hash maps ms", "ratio", "at most", "arrays ms", "ratio", "ratio of the least"];

/// Makes the call in buffers that are filled afresh, after what is only read was read through.
fn call<B: Boarding>(program: &B, case: &Case, after: &mut Outcome) -> Duration {
    after.settled.copy_from_slice(&case.settled);
    after.scratch.copy_from_slice(&case.scratch);
    after.answer.copy_from_slice(&case.answer);
    let case = black_box(case);
    for table in [&case.vertices, &case.walks, &case.hops] {
        black_box(table.iter().fold(0u8, |sum, byte| sum ^ byte));
    }
    let (time, value) = timed(|| case.call_in(program, after));
    after.value = value;
    time
}

/// One limit, with buffers for each program.
struct Stand {
    case: Case,
    library: Outcome,
    mapped: Outcome,
    arrays: Outcome,
    /// Beside the program with hash maps, and beside that with arrays.
    beside_mapped: Times,
    beside_arrays: Times,
}

impl Stand {
    fn new(ground: &Ground, limit: u32) -> Self {
        let case = Case { limit, settled: vec![7; SETTLED * ground.settled.len()], ..ground.roomy() };
        let [library, mapped, arrays] = [(); 3].map(|()| case.before());
        Stand { library, mapped, arrays, case, beside_mapped: Times::new(), beside_arrays: Times::new() }
    }

    /// All three in turn; who is first changes from round to round.
    fn round<B: Boarding>(&mut self, library: &B, round: usize) -> Result<(), String> {
        let mut times = [Duration::ZERO; 3];
        for turn in 0..3 {
            let program = (round + turn) % 3;
            times[program] = match program {
                0 => call(library, &self.case, &mut self.library),
                1 => call(&Mapped, &self.case, &mut self.mapped),
                _ => call(&Quick(Sound), &self.case, &mut self.arrays),
            };
        }
        self.beside_mapped.push((times[0], times[1]));
        self.beside_arrays.push((times[0], times[2]));
        match self.library == self.arrays && self.mapped == self.arrays && self.case.refusal(&self.arrays) == Some((0, 0)) {
            true => Ok(()),
            false => Err("the answers differ, or are refusals".to_string()),
        }
    }
}

/// The numbers of a row: beside the program with hash maps, whether the aim is kept, beside that with arrays.
fn cells(mapped: &Spent, arrays: &Spent, most: Option<f64>) -> Vec<String> {
    let ([library, hash_maps], [_, sorted]) = (mapped.medians(), arrays.medians());
    let [ratio, _] = mapped.ratios().map(told);
    let [stricter, least] = arrays.ratios().map(told);
    vec![library, hash_maps, ratio, kept(most, mapped), sorted, stricter, least]
}

/// The rows of a network; an error where a byte differs.
fn measure<B: Boarding>(library: &B, name: &str, ridden: Ridden, rounds: usize) -> Result<String, String> {
    let ground = Ground::new(ridden, true);
    let mut stands = [0, NONE].map(|limit| Stand::new(&ground, limit));
    for round in 0..rounds {
        for stand in &mut stands {
            stand.round(library, round)?;
        }
    }
    let [start, run] = stands.map(|stand| [stand.beside_mapped, stand.beside_arrays].map(|times| Spent::of(&times)));
    let rest = [0, 1].map(|beside| run[beside].less(&start[beside]));
    let name = format!("{name}, {} settled", grouped(ground.settled.len()));
    let parts = [("run, limit 0", &start, None), ("run", &run, AT_MOST), ("run less limit 0", &rest, None)];
    let line = |(part, [mapped, arrays], most): (&str, &[Spent; 2], Option<f64>)| row(&[&[name.clone(), part.to_string()][..], &cells(mapped, arrays, most)].concat());
    Ok(parts.into_iter().map(line).collect())
}

pub fn table<B: Boarding>(library: &B, rounds: usize) -> Result<String, String> {
    let mut table = head(2, &COLUMNS);
    for (name, ridden) in measured() {
        table += &measure(library, name, ridden, rounds).map_err(|error| format!("{name}: {error}"))?;
    }
    Ok(table)
}

#[cfg(test)]
mod tests {
    use boarding::scenes::lines;
    use boarding::wrong::Wrong;

    use super::*;

    #[test]
    fn wrong_runs_end_the_measurement() {
        let town = || lines(20, 400, 900, 1_200, 60);
        assert!(measure(&Quick(Sound), "", town(), 2).is_ok());
        assert!(measure(&Mapped, "", town(), 2).is_ok());
        for wrong in [Wrong::StayInTime, Wrong::BoardingNever, Wrong::ScratchKept, Wrong::TailKept] {
            assert!(measure(&Quick(wrong), "", town(), 2).is_err(), "{wrong:?}");
        }
    }
}
