//! Hard to stall: runs on networks that were made to take long, beside the
//! ordinary run of full size.

use std::time::{Duration, Instant};

use outside::network::Scene;
use outside::records::Answer;

use crate::page::{grouped, head, row};
use crate::program::{agreed, Program, RUST};
use crate::room::{least_room, run_in};
use crate::speed::{aim, told, Spent, Stand, COLUMNS};
use crate::stalling;

/// What a run may take at most, beside the ordinary one.
pub const AT_MOST: f64 = 10.0;

/// The held room that is lent.
#[derive(Clone, Copy)]
enum Room {
    Free,
    Least,
    Records(usize),
}

const FREE_AND_LEAST: &[Room] = &[Room::Free, Room::Least];
const BUCKET: &[Room] = &[Room::Records(256), Room::Records(511), Room::Free];

const ROWS: [(&str, fn() -> Scene, &[Room]); 6] = [
    (
        "grid 200x200, 2 h, numbered at random",
        stalling::mixed_city,
        FREE_AND_LEAST,
    ),
    (
        "full size, 2 h, numbered at random",
        stalling::mixed_full,
        FREE_AND_LEAST,
    ),
    ("a line of 65,536", stalling::line, FREE_AND_LEAST),
    ("grid 256x256, even roads", stalling::even, FREE_AND_LEAST),
    (
        "one bucket, every two of it joined",
        stalling::bucket_of_pairs,
        BUCKET,
    ),
    (
        "one bucket, the last of it asked for",
        stalling::bucket_of_few,
        BUCKET,
    ),
];

/// Whether a row has been measured often enough: a slow one has five rounds.
pub fn enough(done: usize, rounds: usize, since: Instant) -> bool {
    done >= rounds || (done >= 5 && since.elapsed() > Duration::from_secs(2))
}

fn run<P: Program>(
    library: &P,
    scene: &Scene,
    room: usize,
    rounds: usize,
) -> Result<Spent, String> {
    let mut stand = Stand::new(run_in(scene, room));
    let since = Instant::now();
    while !enough(stand.times.len(), rounds, since) {
        let first = stand.times.len() % 2 == 0;
        stand.round(library, &RUST, first)?;
    }
    Ok(Spent::of(&stand.times))
}

/// The ordinary run of full size.
pub fn ordinary<P: Program>(library: &P, rounds: usize) -> Result<Spent, String> {
    let scene = stalling::ordinary();
    run(library, &scene, scene.network.vertices.len(), rounds)
}

/// So many ordinary runs, and whether these are too many.
pub fn cells(spent: &Spent, ordinary: &Spent) -> [String; 2] {
    let ratio = spent.by(ordinary);
    [told(ratio), aim(AT_MOST, ratio)]
}

/// The rows of a network, one for each room.
fn rows<P: Program>(
    library: &P,
    (name, scene, rooms): (&str, &Scene, &[Room]),
    ordinary: &Spent,
    rounds: usize,
) -> Result<String, String> {
    let vertices = scene.network.vertices.len();
    let after = agreed(library, &run_in(scene, vertices))?;
    let settled = grouped(Answer::read(&after.answer).settled as usize);
    let mut rows = String::new();
    for room in rooms {
        let room = match *room {
            Room::Free => vertices,
            Room::Least => least_room(library, scene)?,
            Room::Records(count) => count,
        };
        let spent = run(library, scene, room, rounds)?;
        let first = [name.to_string(), settled.clone(), grouped(room)];
        rows += &row(&[&first[..], &spent.cells(), &cells(&spent, ordinary)].concat());
    }
    Ok(rows)
}

pub fn table<P: Program>(library: &P, ordinary: &Spent, rounds: usize) -> Result<String, String> {
    let first = ["hard to stall", "settled", "held room"];
    let last = ["by the ordinary run", "at most"];
    let mut table = head(1, &[&first[..], &COLUMNS, &last].concat());
    let all = grouped(stalling::VERTICES);
    let own = ["full size, 2 h: the ordinary run", &all, &all].map(str::to_string);
    table += &row(&[&own[..], &ordinary.cells(), &cells(ordinary, ordinary)].concat());
    for (name, make, rooms) in ROWS {
        let made = rows(library, (name, &make(), rooms), ordinary, rounds);
        table += &made.map_err(|error| format!("{name}: {error}"))?;
    }
    Ok(table)
}

#[cfg(test)]
mod tests {
    use outside::mutant::{Mutant, Sound};

    use super::*;
    use crate::networks::{around, spider};
    use crate::program::Rust;

    #[test]
    fn wrong_answers_end_the_measurement() {
        let scene = around(&spider(5, 9), 0, 7);
        let ordinary = run(&RUST, &scene, 46, 2).unwrap();
        let rows = |mutant| {
            rows(
                &Rust(mutant),
                ("a spider", &scene, FREE_AND_LEAST),
                &ordinary,
                2,
            )
        };
        for mutant in [Mutant::TailKept, Mutant::AddBeforeDrop, Mutant::DropNever] {
            assert!(rows(mutant).is_err(), "{mutant:?}");
        }
        let sound = super::rows(
            &Rust(Sound),
            ("a spider", &scene, FREE_AND_LEAST),
            &ordinary,
            2,
        );
        let sound = sound.unwrap();
        assert!(sound.starts_with("| a spider | 36 | 46 | "), "{sound}");
        assert_eq!(sound.lines().count(), 2);
    }

    #[test]
    fn slow_rows_end_early() {
        let now = Instant::now();
        assert_eq!(
            [4, 5, 21].map(|done| enough(done, 21, now)),
            [false, false, true]
        );
        let Some(long_ago) = now.checked_sub(Duration::from_secs(3)) else {
            return;
        };
        assert_eq!([4, 5].map(|done| enough(done, 21, long_ago)), [false, true]);
        assert!(enough(2, 2, now));
    }
}
