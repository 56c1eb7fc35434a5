//! The courier beside the Rust program, and his run beside the ordinary run of the same library on the tables turned round, which
//! leaves the very same bytes.

use std::hint::black_box;
use std::time::Duration;

use courier::call::{Case, Kind, Outcome, Program as Courier};
use courier::cases::Ground;
use courier::quick::Quick;
use courier::scenes::turned;
use courier::wrong::Sound;
use outside::commands::bench::city_scenes;
use outside::network::Scene;
use outside::records::NONE;
use outside::rng::Rng;

use crate::clock::timed;
use crate::page::{head, row};
use crate::program::{self, Program};
use crate::speed::{kept, Spent, Times, COLUMNS};

/// What a run may take at most beside the Rust program, and beside the ordinary run.
const AT_MOST: Option<f64> = Some(1.0);
const AS_ORDINARY: Option<f64> = Some(1.1);

/// Makes the call in buffers that are filled afresh, after what is only read was read through.
fn call<C: Courier>(courier: &C, case: &Case, after: &mut Outcome) -> Duration {
    let before = case.before();
    let both = [(&mut after.list, &before.list), (&mut after.held, &before.held), (&mut after.settled, &before.settled)];
    both.into_iter().for_each(|(after, before)| after.copy_from_slice(before));
    [(&mut after.parts, &before.parts), (&mut after.answer, &before.answer)].into_iter().for_each(|(after, before)| after.copy_from_slice(before));
    let case = black_box(case);
    for table in [&case.vertices, &case.walks, &case.hops, &case.list] {
        black_box(table.iter().fold(0u8, |sum, byte| sum ^ byte));
    }
    let (time, value) = timed(|| case.call_in(courier, after));
    after.value = value;
    time
}

/// One kind of call of the library, beside the Rust program.
struct Stand {
    case: Case,
    library: Outcome,
    rust: Outcome,
    times: Times,
}

impl Stand {
    fn new(case: Case) -> Self {
        Stand { library: case.before(), rust: case.before(), case, times: Times::new() }
    }

    fn round<C: Courier>(&mut self, library: &C, library_first: bool) -> Result<Duration, String> {
        let mut pair = (Duration::ZERO, Duration::ZERO);
        for turn in [library_first, !library_first] {
            match turn {
                true => pair.0 = call(library, &self.case, &mut self.library),
                false => pair.1 = call(&Quick(Sound), &self.case, &mut self.rust),
            }
        }
        self.times.push(pair);
        let refused = self.case.refusal(&self.rust) != Some((0, 0));
        match self.library == self.rust && !refused {
            true => Ok(pair.0),
            false => Err("the answers differ, or are refusals".to_string()),
        }
    }
}

/// The rows of a network for both tables; an error where a byte differs.
fn measure<P: Program, C: Courier>(ordinary: &P, library: &C, name: &str, scene: &Scene, rounds: usize) -> Result<[String; 2], String> {
    let (other, exact) = turned(scene, scene.query.arrival);
    if !exact {
        return Err("its times cannot be turned round".to_string());
    }
    let ground = Ground::new(other, None);
    let rng = &mut Rng::new(5, 0);
    let at = |limit: u32, rng: &mut Rng| {
        let mut case = Case { limit, ..ground.case(Kind::Run, rng) };
        let lent = scene.run_case(limit);
        (case.held, case.settled, case.answer) = (lent.held, lent.settled, lent.answer);
        (Stand::new(case), scene.run_case(limit))
    };
    let mut list = Stand::new(ground.case(Kind::List, rng));
    let mut runs = [at(0, rng), at(NONE, rng)];
    let mut beside = [Times::new(), Times::new()];
    for round in 0..rounds {
        list.round(library, round % 2 == 0)?;
        for ((stand, ordinary_case), times) in runs.iter_mut().zip(&mut beside) {
            let own = stand.round(library, round % 2 == 0)?;
            let mut after = ordinary_case.before();
            let usual = program::call(ordinary, ordinary_case, &mut after);
            if (&after.held, &after.settled, &after.answer) != (&stand.library.held, &stand.library.settled, &stand.library.answer) {
                return Err("the tables turned round have other answers".to_string());
            }
            times.push((own, usual));
        }
    }
    let [start, run] = runs.map(|(stand, _)| Spent::of(&stand.times));
    let [start_beside, run_beside] = beside.map(|times| Spent::of(&times));
    let line = |(part, spent, most): (&str, &Spent, Option<f64>)| row(&[&[name.to_string(), part.to_string()][..], &spent.cells(), &[kept(most, spent)]].concat());
    let rust = [("list made", &Spent::of(&list.times), None), ("run, limit 0", &start, None), ("run", &run, AT_MOST), ("search", &run.less(&start), None)];
    let usual = [("run, limit 0", &start_beside, None), ("run", &run_beside, AS_ORDINARY), ("search", &run_beside.less(&start_beside), AS_ORDINARY)];
    Ok([rust.into_iter().map(line).collect(), usual.into_iter().map(line).collect()])
}

pub fn table<P: Program, C: Courier>(ordinary: &P, library: &C, rounds: usize) -> Result<String, String> {
    let mut rust = head(2, &[&["the courier", "part"][..], &COLUMNS[..], &["at most"]].concat());
    let mut usual = head(2, &["the courier beside the ordinary run", "part", "courier ms", "ordinary ms", "ratio", "ratio of the least", "at most"]);
    for (name, scene) in city_scenes() {
        let rows = measure(ordinary, library, &name, &scene, rounds).map_err(|error| format!("{name}: {error}"))?;
        rust += &rows[0];
        usual += &rows[1];
    }
    Ok(format!("{rust}\n{usual}"))
}

#[cfg(test)]
mod tests {
    use courier::wrong::Wrong;

    use super::*;
    use crate::networks::{around, even_grid};
    use crate::program::RUST;

    #[test]
    fn wrong_couriers_end_the_measurement() {
        let scene = around(&even_grid(7), 24, 2);
        assert!(measure(&RUST, &Quick(Sound), "", &scene, 2).is_ok());
        for wrong in [Wrong::ListByTo, Wrong::DropNever, Wrong::WindowStrict] {
            assert!(measure(&RUST, &Quick(wrong), "", &scene, 2).is_err(), "{wrong:?}");
        }
    }
}
