//! The moves of a hop table, beside a plain copy of as many bytes as the wider
//! of its two forms has.

use std::hint::black_box;
use std::time::Duration;

use outside::cases::trips::{fitting, widen};
use outside::outcome::Case;
use outside::records::{Way, HOP, TRIP_HOP};
use outside::rng::Rng;

use crate::clock::timed;
use crate::page::{grouped, head, row};
use crate::program::{agreed, call, Program};
use crate::room::filled;
use crate::speed::Spent;

/// Hops of any bytes, which go forward, or backward with no trip known.
fn moved(way: Way, count: usize) -> Case {
    let mut case = fitting(Way::Forward, Rng::new(2, count as u64).bytes(count * HOP));
    if way == Way::Backward {
        widen(&mut case, || 0);
    }
    filled(fitting(way, case.hops))
}

fn copied(from: &[u8], to: &mut [u8]) -> Duration {
    to.fill(0xA5);
    black_box(from.iter().fold(0u8, |sum, byte| sum ^ byte));
    let (time, ()) = timed(|| to.copy_from_slice(black_box(from)));
    black_box(to);
    time
}

/// The row of a move; an error where it is not the Rust program's.
fn measure<P: Program>(
    library: &P,
    way: Way,
    count: usize,
    rounds: usize,
) -> Result<String, String> {
    let case = moved(way, count);
    let right = agreed(library, &case)?;
    let wide = Rng::new(20, count as u64).bytes(count * TRIP_HOP);
    let mut copy = vec![0; wide.len()];
    let mut after = case.before();
    let mut times = Vec::new();
    for _ in 0..rounds {
        let time = call(library, &case, &mut after);
        times.push((time, copied(&wide, &mut copy)));
        if after != right {
            return Err("a move differs from the one before".to_string());
        }
    }
    let first = [format!("{} hops, {way:?}", grouped(count)).to_lowercase()];
    Ok(row(&[&first[..], &Spent::of(&times).cells()].concat()))
}

pub fn table<P: Program>(library: &P, rounds: usize) -> Result<String, String> {
    let columns = [
        "move of",
        "library ms",
        "plain copy in Rust ms",
        "ratio",
        "ratio of the least",
    ];
    let mut table = head(1, &columns);
    for count in [20_000, 262_144] {
        for way in [Way::Forward, Way::Backward] {
            table += &measure(library, way, count, rounds)?;
        }
    }
    Ok(table)
}

#[cfg(test)]
mod tests {
    use outside::mutant::{Mutant, Sound};

    use super::*;
    use crate::program::Rust;

    #[test]
    fn wrong_moves_end_the_measurement() {
        for way in [Way::Forward, Way::Backward] {
            assert!(measure(&Rust(Sound), way, 300, 2).is_ok());
        }
        let wrong = |mutant| measure(&Rust(mutant), Way::Forward, 300, 2);
        assert!(wrong(Mutant::MoveOldTrips).is_err());
        assert!(wrong(Mutant::MoveOnes).is_err());
    }
}
