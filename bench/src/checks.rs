//! The check on the tables that are hard for it: the library and the Rust
//! program in turn.

use crate::hard::{accepted, refused, Named};
use crate::page::{head, row};
use crate::program::{call, Program, RUST};
use crate::speed::{kept, Spent, Times};

/// What a refused table may take at most, beside the Rust program.
const REFUSED: f64 = 2.0;

/// The times of the check on a table; an error where the answers differ.
fn measure<P: Program>(library: &P, table: &Named, rounds: usize) -> Result<Spent, String> {
    let case = table.1.check_case();
    let (mut ours, mut theirs) = (case.before(), case.before());
    let mut times = Times::new();
    for round in 0..rounds {
        let mut pair = (Default::default(), Default::default());
        for turn in [round % 2 == 0, round % 2 != 0] {
            match turn {
                true => pair.0 = call(library, &case, &mut ours),
                false => pair.1 = call(&RUST, &case, &mut theirs),
            }
        }
        times.push(pair);
        if ours != theirs {
            return Err(format!("check of {}: the answers differ", table.0));
        }
    }
    Ok(Spent::of(&times))
}

pub fn table<P: Program>(library: &P, rounds: usize) -> Result<String, String> {
    let columns = [
        "check of",
        "library ms",
        "Rust ms",
        "ratio",
        "ratio of the least",
        "at most",
    ];
    let mut table = head(1, &columns);
    let mut add = |what: String, most: f64, named: &Named| {
        let spent = measure(library, named, rounds)?;
        table += &row(&[&[what][..], &spent.cells(), &[kept(Some(most), &spent)]].concat());
        Ok::<(), String>(())
    };
    for (most, named) in &accepted() {
        add(named.0.to_string(), *most, named)?;
    }
    for named in &refused() {
        add(
            format!("full size, refused for {}", named.0),
            REFUSED,
            named,
        )?;
    }
    Ok(table)
}

#[cfg(test)]
mod tests {
    use outside::mutant::{Mutant, Sound};
    use outside::network::grid_scene;

    use super::*;
    use crate::program::Rust;

    #[test]
    fn wrong_answers_end_the_measurement() {
        let mut table = ("a grid", grid_scene(9, 81, 100, 900).network);
        table.1.vertices[80].zero = 1;
        assert!(measure(&Rust(Sound), &table, 2).is_ok());
        assert!(measure(&Rust(Mutant::ZeroIgnored), &table, 2).is_err());
    }
}
