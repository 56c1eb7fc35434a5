//! One vertex with as many neighbours as there can be, hopeless ones among
//! them: the run in the least held room beside the run with room for all.

use std::time::Instant;

use outside::cases::hubs;
use outside::network::Scene;

use crate::page::{grouped, head, row};
use crate::program::{Program, RUST};
use crate::room::{least_room, run_in};
use crate::speed::{aim, told, Spent, Stand, COLUMNS};
use crate::stall::{cells, enough};

/// What the run in the least room may take at most, beside that with free room.
const AT_MOST: f64 = 3.0;

const HUBS: [(&str, fn() -> Scene); 6] = [
    ("a walk each, all hopeless", hubs::walks),
    ("a walk and a hop each, all hopeless", hubs::walks_and_hops),
    (
        "four walks and four hops each, all hopeless",
        hubs::full_row,
    ),
    ("two late hops each, all hopeless", hubs::late_hops),
    (
        "a walk and a hop each, every other has a road on",
        hubs::every_other_stays,
    ),
    (
        "a walk and a hop each, every other hop in time",
        hubs::every_other_rides,
    ),
];

/// The times of the check, of the run with free room and of that in the least,
/// and the least room.
struct Measured {
    check: Spent,
    free: Spent,
    tight: Spent,
    room: usize,
}

fn measure<P: Program>(library: &P, scene: &Scene, rounds: usize) -> Result<Measured, String> {
    let room = least_room(library, scene)?;
    let cases = [
        scene.network.check_case(),
        run_in(scene, scene.network.vertices.len()),
        run_in(scene, room),
    ];
    let mut stands = cases.map(Stand::new);
    let (mut round, since) = (0, Instant::now());
    while !enough(round, rounds, since) {
        for stand in &mut stands {
            stand.round(library, &RUST, round % 2 == 0)?;
        }
        round += 1;
    }
    let [check, free, tight] = stands.map(|stand| Spent::of(&stand.times));
    Ok(Measured {
        check,
        free,
        tight,
        room,
    })
}

/// A row for free room, and one for the least room with what it takes beside
/// the other: the run, and the search, which is the run less the check. Both
/// rows tell how many ordinary runs they are.
fn rows(name: &str, vertices: usize, measured: &Measured, ordinary: &Spent) -> String {
    let Measured {
        check,
        free,
        tight,
        room,
    } = measured;
    let line = |room: usize, spent: &Spent, beside: [String; 3]| {
        let first = [name.to_string(), grouped(room)];
        row(&[&first[..], &spent.cells(), &beside, &cells(spent, ordinary)].concat())
    };
    let none = ["", "", ""].map(str::to_string);
    let (run, search) = (tight.by(free), tight.less(check).by(&free.less(check)));
    let beside = [told(run), told(search), aim(AT_MOST, run)];
    line(vertices, free, none) + &line(*room, tight, beside)
}

pub fn table<P: Program>(library: &P, ordinary: &Spent, rounds: usize) -> Result<String, String> {
    let first = ["65,535 neighbours", "held room"];
    let last = [
        "beside free room",
        "the search alone",
        "at most",
        "by the ordinary run",
        "at most",
    ];
    let mut table = head(1, &[&first[..], &COLUMNS, &last].concat());
    for (name, make) in HUBS {
        let scene = make();
        let measured = measure(library, &scene, rounds).map_err(|e| format!("{name}: {e}"))?;
        table += &rows(name, scene.network.vertices.len(), &measured, ordinary);
    }
    Ok(table)
}

#[cfg(test)]
mod tests {
    use outside::mutant::{Mutant, Sound};

    use super::*;
    use crate::program::Rust;

    #[test]
    fn wrong_answers_end_the_measurement() {
        let scene = hubs::walks_and_hops();
        let right = measure(&Rust(Sound), &scene, 2);
        assert_eq!(right.map(|measured| measured.room), Ok(1));
        for mutant in [Mutant::ForgetNever, Mutant::ForgetSlotFirst] {
            assert!(measure(&Rust(mutant), &scene, 2).is_err(), "{mutant:?}");
        }
    }
}
