//! The run as the network grows, with its parts and without: a table, and a
//! picture of what one settled vertex takes.

use outside::commands::bench::growing_scenes;
use outside::network::Scene;

use crate::limit::read;
use crate::page::{grouped, head, row};
use crate::picture::{Kind, Line, Picture};
use crate::program::Program;
use crate::speed::{kept, measure, Measured, Spent, COLUMNS, RUN_AT_MOST, SEARCH_AT_MOST};

/// The file of the picture. It is another one at each run, unlike the pictures
/// of what is counted.
pub const PICTURE: &str = "growth.svg";

pub struct Growth {
    pub table: String,
    pub picture: String,
}

/// What one network took.
struct Grown {
    settled: usize,
    measured: Measured,
    /// Nanoseconds a settled vertex that one pass over the tables takes.
    limit: f64,
}

fn grown<P: Program>(library: &P, scene: &Scene, rounds: usize) -> Result<Grown, String> {
    let measured = measure(library, scene, rounds)?;
    let settled = measured.answer.settled as usize;
    if settled != scene.network.vertices.len() {
        return Err(format!("{settled} vertices are settled"));
    }
    let once = read(&scene.network.check_case(), rounds);
    Ok(Grown {
        settled,
        measured,
        limit: once.time.as_nanos() as f64 / settled as f64,
    })
}

fn rows(one: &Grown) -> String {
    let (settled, measured) = (one.settled, &one.measured);
    let parts = [
        ("run", &measured.run, RUN_AT_MOST),
        ("search: run less check", &measured.search, None),
        (
            "search beside the flat program",
            &measured.flat,
            SEARCH_AT_MOST,
        ),
        ("parts", &measured.parts, None),
        ("run + parts", &measured.both, None),
    ];
    let rows = parts.map(|(part, spent, most)| {
        let first = [grouped(settled), part.to_string()];
        let each = spent.each(settled).map(|nanos| format!("{nanos:.0}"));
        row(&[&first[..], &spent.cells(), &[kept(most, spent)], &each].concat())
    });
    rows.concat()
}

const BLUE: &str = "#1f5fa8";
const BROWN: &str = "#b3530f";
const GREEN: &str = "#2b7a3d";

/// Time a settled vertex: the library, both programs in Rust, and what reading
/// the tables once would take.
fn picture(all: &[Grown]) -> Picture {
    let line = |name: &str, colour, kind, up: &dyn Fn(&Grown) -> f64| Line {
        name: name.to_string(),
        colour,
        kind,
        points: all
            .iter()
            .map(|one| (one.settled as f64, up(one)))
            .collect(),
    };
    let each = |spent: &Spent, one: &Grown| spent.each(one.settled);
    Picture {
        title: "Time a settled vertex, all vertices settled",
        across: "vertices",
        up: "nanoseconds",
        lines: vec![
            line("Rust, byte tables: run", BROWN, Kind::Full, &|one| {
                each(&one.measured.run, one)[1]
            }),
            line("library: run", BLUE, Kind::Full, &|one| {
                each(&one.measured.run, one)[0]
            }),
            line("library: search alone", BLUE, Kind::Hollow, &|one| {
                each(&one.measured.search, one)[0]
            }),
            line("Rust, flat: search alone", GREEN, Kind::Full, &|one| {
                each(&one.measured.flat, one)[1]
            }),
            line("the tables read once", GREEN, Kind::Formula, &|one| {
                one.limit
            }),
        ],
    }
}

pub fn growth<P: Program>(library: &P, rounds: usize) -> Result<Growth, String> {
    let scenes = growing_scenes().into_iter();
    let one = |(name, scene): (String, Scene)| {
        grown(library, &scene, rounds).map_err(|error| format!("{name}: {error}"))
    };
    let all = scenes.map(one).collect::<Result<Vec<Grown>, String>>()?;
    let last = [
        "at most",
        "library ns a settled vertex",
        "Rust ns a settled vertex",
    ];
    let first = ["vertices, all settled", "part"];
    let head = head(2, &[&first[..], &COLUMNS, &last].concat());
    Ok(Growth {
        table: all.iter().fold(head, |table, one| table + &rows(one)),
        picture: picture(&all).svg(),
    })
}

#[cfg(test)]
mod tests {
    use outside::mutant::{Mutant, Sound};
    use outside::network::grid_scene;

    use super::*;
    use crate::program::Rust;

    #[test]
    fn all_are_settled_and_right() {
        let far = grid_scene(9, 81, 40, 86_400);
        let one = grown(&Rust(Sound), &far, 2).unwrap();
        assert_eq!(one.settled, 81);
        assert_eq!(rows(&one).lines().count(), 5);
        let svg = picture(&[one]).svg();
        for line in [
            "library: run",
            "Rust, byte tables",
            "Rust, flat",
            "read once",
        ] {
            assert!(svg.contains(line), "{line}");
        }
        assert!(grown(&Rust(Sound), &grid_scene(9, 81, 40, 60), 2).is_err());
        assert!(grown(&Rust(Mutant::PartsNoStart), &far, 2).is_err());
    }
}
