//! The evening load: the run on the city grid beside the Rust program with a
//! binary heap, and its search alone beside both programs in Rust.

use outside::network::{grid_scene, Scene};
use outside::records::Answer;

use crate::page::{grouped, head, row};
use crate::program::{agreed, Program, RUST};
use crate::room::run_in;
use crate::speed::{aim, kept, listed, told, FlatStand, Spent, Stand, SEARCH_AT_MOST};

/// What the run may take at most, beside the Rust program.
const LOAD: f64 = 3.0;

/// A duration, and what the search may take at most beside the flat program.
const ROWS: [(u32, Option<f64>); 4] = [
    (15, Some(3.0)),
    (23, None),
    (31, SEARCH_AT_MOST),
    (120, SEARCH_AT_MOST),
];

/// What `measure` tells: whether the load is borne, and the searches.
pub struct Evening {
    pub load: String,
    pub table: String,
}

/// Times with room for every vertex.
struct Measured {
    minutes: u32,
    settled: usize,
    share: f64,
    run: Spent,
    /// The run less the check: beside the byte-reading program, and beside the
    /// flat one.
    search: Spent,
    flat: Spent,
}

/// 200 by 200 vertices and 20,000 hops.
fn city(minutes: u32) -> Scene {
    grid_scene(200, 40_000, 20_000, 60 * minutes)
}

fn timed<P: Program>(library: &P, scene: &Scene, rounds: usize) -> Result<Measured, String> {
    let vertices = scene.network.vertices.len();
    let run = run_in(scene, vertices);
    let settled = Answer::read(&agreed(library, &run)?.answer).settled as usize;
    let mut flat = FlatStand::new(&run);
    let mut check = Stand::new(scene.network.check_case());
    let mut run = Stand::new(run);
    for round in 0..rounds {
        check.round(library, &RUST, round % 2 == 0)?;
        run.round(library, &RUST, round % 2 == 0)?;
        flat.round(&listed(run.left()))?;
    }
    let [check, run, flat] = [check.times, run.times, flat.times].map(|times| Spent::of(&times));
    let search = run.less(&check);
    Ok(Measured {
        minutes: scene.query.duration / 60,
        settled,
        share: settled as f64 / vertices as f64,
        run,
        flat: search.beside(&flat),
        search,
    })
}

/// One line: the machine, both times, the ratio, and whether it is small enough.
fn load(machine: &str, measured: &[Measured]) -> String {
    let mut worst: f64 = 0.0;
    let mut times = Vec::new();
    for one in measured {
        let ([library, rust], [ratio, _]) = (one.run.medians(), one.run.ratios());
        let (minutes, settled) = (one.minutes, grouped(one.settled));
        worst = worst.max(ratio);
        times.push(format!(
            "{minutes} min, {settled} settled: {library} ms and {rust} ms, ratio {}",
            told(ratio)
        ));
    }
    let (times, kept) = (times.join("; "), aim(LOAD, worst));
    format!(
        "Evening load on {machine}: the run on the 200 by 200 grid with 20,000 hops, and the Rust program with a binary heap. {times}. At most {kept}.\n"
    )
}

fn table(measured: &[(Measured, Option<f64>)]) -> String {
    let columns = [
        "search alone, minutes",
        "settled",
        "of all",
        "library ms",
        "Rust ms",
        "flat ms",
        "library by Rust",
        "library by flat",
        "of the least",
        "at most",
    ];
    measured
        .iter()
        .fold(head(0, &columns), |table, (one, most)| {
            let [library, rust] = one.search.medians();
            let ([_, flat], [median, least]) = (one.flat.medians(), one.flat.ratios());
            table
                + &row(&[
                    one.minutes.to_string(),
                    grouped(one.settled),
                    format!("{:.0} %", 100.0 * one.share),
                    library,
                    rust,
                    flat,
                    told(one.search.ratios()[0]),
                    told(median),
                    told(least),
                    kept(*most, &one.flat),
                ])
        })
}

pub fn measure<P: Program>(library: &P, machine: &str, rounds: usize) -> Result<Evening, String> {
    let one = |&(minutes, most): &(u32, Option<f64>)| {
        let measured = timed(library, &city(minutes), rounds);
        let measured = measured.map_err(|error| format!("{minutes} minutes: {error}"))?;
        Ok::<_, String>((measured, most))
    };
    let measured = ROWS.iter().map(one).collect::<Result<Vec<_>, _>>()?;
    let table = table(&measured);
    let all: Vec<Measured> = measured.into_iter().map(|(measured, _)| measured).collect();
    Ok(Evening {
        load: load(machine, &all),
        table,
    })
}

#[cfg(test)]
mod tests {
    use std::time::Duration;

    use outside::mutant::{Mutant, Sound};

    use super::*;
    use crate::networks::{around, even_grid};
    use crate::program::Rust;

    #[test]
    fn wrong_answers_end_the_measurement() {
        let scene = around(&even_grid(7), 24, 2);
        assert!(timed(&Rust(Sound), &scene, 2).is_ok());
        for mutant in [Mutant::StrictWindow, Mutant::TailKept, Mutant::HeldReversed] {
            assert!(timed(&Rust(mutant), &scene, 2).is_err(), "{mutant:?}");
        }
    }

    fn took(library: u64, rust: u64) -> Spent {
        Spent::of(&vec![(
            Duration::from_millis(library),
            Duration::from_millis(rust),
        )])
    }

    /// The worst row decides.
    #[test]
    fn the_load_is_told_with_its_verdict() {
        let row = |minutes, library| Measured {
            minutes,
            settled: 1_000 * minutes as usize,
            share: 0.5,
            run: took(library, 4),
            search: took(library - 1, 3),
            flat: took(library - 1, 2),
        };
        let good = load("a machine", &[row(15, 2), row(120, 12)]);
        assert!(good.contains("15 min, 15,000 settled: 2.000 ms and 4.000 ms, ratio 0.50; 120 min"));
        assert!(good.starts_with("Evening load on a machine: "), "{good}");
        assert!(good.ends_with("ratio 3.00. At most 3.0: yes.\n"), "{good}");
        let bad = load("a machine", &[row(15, 13), row(120, 12)]);
        assert!(bad.ends_with("At most 3.0: no.\n"), "{bad}");
        let table = table(&[(row(15, 4), Some(1.3)), (row(31, 4), None)]);
        let rows: Vec<&str> = table.lines().skip(2).collect();
        assert_eq!(
            rows[0],
            "| 15 | 15,000 | 50 % | 3.000 | 3.000 | 2.000 | 1.00 | 1.50 | 1.50 | 1.3: no |"
        );
        assert!(rows[1].ends_with("| 1.50 | 1.50 |  |"));
    }

    /// About 1, 5, 25 and 100 of a hundred are settled.
    #[test]
    fn durations_settle_what_they_are_for() {
        let shares = ROWS.map(|(minutes, _)| {
            let case = city(minutes).run_case(u32::MAX);
            Answer::read(&case.fast(Sound).answer).settled / 400
        });
        assert_eq!(shares, [1, 5, 27, 100]);
    }
}
