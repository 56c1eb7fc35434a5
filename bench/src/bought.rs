//! The judgement of a run's own list: the library and the Rust program in turn.

use outside::cases::bought::whole;
use outside::commands::bench::city_scenes;
use outside::network::Scene;

use crate::page::{grouped, head, row};
use crate::program::{Program, RUST};
use crate::speed::{kept, Spent, Stand, COLUMNS};

/// What a judgement may take at most beside the Rust program.
const AT_MOST: Option<f64> = Some(1.0);

/// The rows of a network; an error where the answers differ.
fn measure<P: Program>(library: &P, name: &str, scene: &Scene, rounds: usize) -> Result<String, String> {
    let list = whole(scene);
    let cases = [scene.network.check_case(), scene.judge_case(&list)];
    let mut stands = cases.map(Stand::new);
    for round in 0..rounds {
        for stand in &mut stands {
            stand.round(library, &RUST, round % 2 == 0)?;
        }
    }
    let [check, judge] = stands.map(|stand| Spent::of(&stand.times));
    let name = format!("{name}, {} entries", grouped(list.len()));
    let rows = [
        ("judge", &judge, AT_MOST),
        ("judge less check", &judge.less(&check), None),
    ];
    let line = |(part, spent, most): (&str, &Spent, Option<f64>)| {
        let first = [name.clone(), part.to_string()];
        row(&[&first[..], &spent.cells(), &[kept(most, spent)]].concat())
    };
    Ok(rows.into_iter().map(line).collect())
}

pub fn table<P: Program>(library: &P, rounds: usize) -> Result<String, String> {
    let first = ["a bought list, right", "part"];
    let mut table = head(2, &[&first[..], &COLUMNS[..], &["at most"]].concat());
    for (name, scene) in city_scenes() {
        let rows = measure(library, &name, &scene, rounds);
        table += &rows.map_err(|error| format!("{name}: {error}"))?;
    }
    Ok(table)
}

#[cfg(test)]
mod tests {
    use outside::mutant::{Mutant, Sound};

    use super::*;
    use crate::networks::{around, even_grid};
    use crate::program::Rust;

    #[test]
    fn wrong_judgements_end_the_measurement() {
        let scene = around(&even_grid(7), 24, 2);
        assert!(measure(&Rust(Sound), "", &scene, 2).is_ok());
        for mutant in [Mutant::BoughtEqual, Mutant::BoughtDistanceTight] {
            assert!(measure(&Rust(mutant), "", &scene, 2).is_err(), "{mutant:?}");
        }
    }
}
