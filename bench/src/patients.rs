//! An evening of the most arrivals: the library and the Rust program in turn.
//! Both judge the tables once and search for each arrival.

use outside::mutant::Sound;
use outside::network::{grid_scene, Scene};
use outside::records::Answer;
use outside::rng::Rng;

use crate::page::{grouped, head, row};
use crate::program::{Program, RUST};
use crate::speed::{kept, Spent, Stand, COLUMNS};

const GAP: u32 = 60;

/// What an evening may take at most beside the Rust program.
const AT_MOST: Option<f64> = Some(1.0);

/// The rows of an evening; an error where the answers differ, or it is refused.
fn measure<P: Program>(library: &P, scene: &Scene, arrivals: u32, rounds: usize) -> Result<String, String> {
    let mut rng = Rng::new(7, u64::from(arrivals));
    let count = |_| rng.below(65_536) as u32;
    let counts: Vec<u32> = (0..scene.network.vertices.len()).map(count).collect();
    let case = scene.patients_case(GAP, arrivals, &counts);
    let after = case.fast(Sound);
    if Answer::read(&after.answer).refusal != 0 {
        return Err("the evening is refused".to_string());
    }
    let figure = |bytes: &[u8]| u32::from_be_bytes([bytes[0], bytes[1], bytes[2], bytes[3]]) as usize;
    let figures = after.report.chunks(4).map(figure).take(counts.len());
    let settled: usize = figures.sum();
    let mut stands = [scene.network.check_case(), case].map(Stand::new);
    for round in 0..rounds {
        for stand in &mut stands {
            stand.round(library, &RUST, round % 2 == 0)?;
        }
    }
    let [check, evening] = stands.map(|stand| Spent::of(&stand.times));
    let minutes = scene.query.duration / 60;
    let name = format!("{arrivals} arrivals, {minutes} min each, {} settled", grouped(settled));
    let rows = [
        ("evening", &evening, AT_MOST),
        ("evening less check", &evening.less(&check), None),
    ];
    let line = |(part, spent, most): (&str, &Spent, Option<f64>)| {
        let first = [name.clone(), part.to_string()];
        row(&[&first[..], &spent.cells(), &[kept(most, spent)]].concat())
    };
    Ok(rows.into_iter().map(line).collect())
}

pub fn table<P: Program>(library: &P, rounds: usize) -> Result<String, String> {
    let first = ["grid 200x200, patients", "part"];
    let mut table = head(2, &[&first[..], &COLUMNS[..], &["at most"]].concat());
    for (arrivals, duration) in [(1, 900), (96, 900), (96, 2_700)] {
        let scene = grid_scene(200, 40_000, 20_000, duration);
        table += &measure(library, &scene, arrivals, rounds)?;
    }
    Ok(table)
}

#[cfg(test)]
mod tests {
    use outside::mutant::Mutant;

    use super::*;
    use crate::networks::{around, even_grid};
    use crate::program::Rust;

    #[test]
    fn wrong_reports_end_the_measurement() {
        let scene = around(&even_grid(7), 24, 2);
        assert!(measure(&Rust(Sound), &scene, 3, 2).is_ok());
        for mutant in [Mutant::PatientsOnce, Mutant::PatientsByStep, Mutant::StrictWindow] {
            assert!(measure(&Rust(mutant), &scene, 3, 2).is_err(), "{mutant:?}");
        }
    }
}
