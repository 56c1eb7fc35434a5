//! A city's timetable read into hops: the library and the Rust program, which has hash maps, in turn.

use std::hint::black_box;
use std::time::Duration;

use outside::rng::Rng;
use timetable::call::{Case, Outcome, MOST_HOPS};
use timetable::cases::feed::city;
use timetable::quick;

use crate::clock::timed;
use crate::page::{grouped, head, row};
use crate::speed::{kept, Spent, COLUMNS};

/// A program that reads timetables: the library, or one in its place.
pub trait Reader {
    fn timetable(&self, stop_times: &[u8], stops: &[u8], trips: &[u8], hops: &mut [u8], answer: &mut [u8]) -> u32;
}

/// The Rust program.
struct Quick;

impl Reader for Quick {
    fn timetable(&self, stop_times: &[u8], stops: &[u8], trips: &[u8], hops: &mut [u8], answer: &mut [u8]) -> u32 {
        quick::timetable(stop_times, stops, trips, hops, answer)
    }
}

/// What reading a feed may take at most beside the Rust program.
const AT_MOST: Option<f64> = Some(3.0);

/// A row that takes long has few rounds.
const LONG: Duration = Duration::from_secs(2);
const FEW: usize = 5;

/// Lines, stops, trips.
type Size = [usize; 3];

/// How long the target is: just for the hops, or as long as it may be, which has a record for each line.
#[derive(Clone, Copy)]
enum Room {
    Hops,
    Most,
}

/// One call, with its target as it was lent.
fn call<R: Reader>(reader: &R, case: &Case, after: &mut Outcome) -> Duration {
    after.hops.copy_from_slice(&case.hops);
    after.answer.copy_from_slice(&case.answer);
    let case = black_box(case);
    let (hops, answer) = (&mut after.hops, &mut after.answer);
    let (time, value) = timed(|| reader.timetable(&case.stop_times, &case.stops, &case.trips, hops, answer));
    after.value = value;
    time
}

/// The row of a feed; an error where a byte differs, or it is refused.
fn measure<R: Reader>(library: &R, [lines, stops, trips]: Size, room: Room, shuffled: bool, rounds: usize) -> Result<String, String> {
    let feed = city(lines, stops, trips, shuffled);
    let records = match room {
        Room::Hops => feed.hops(),
        Room::Most => MOST_HOPS,
    };
    let case = feed.case(&mut Rng::new(3, 0), records);
    let empty = || Outcome { value: 0, hops: case.hops.clone(), answer: case.answer.clone() };
    let (mut ours, mut right) = (empty(), empty());
    let mut times = Vec::new();
    for round in 0..rounds {
        let mut pair = (Duration::ZERO, Duration::ZERO);
        for library_turn in [round % 2 == 0, round % 2 != 0] {
            match library_turn {
                true => pair.0 = call(library, &case, &mut ours),
                false => pair.1 = call(&Quick, &case, &mut right),
            }
        }
        times.push(pair);
        if ours != right || right.answer[..8] != [0; 8] {
            return Err(format!("the hops of {lines} lines differ"));
        }
        if times.len() >= FEW && pair.0 > LONG {
            break;
        }
    }
    let order = if shuffled { "in any order" } else { "trip by trip" };
    let first = [
        format!("{} lines {order}, {} stops, {} trips", grouped(lines), grouped(stops), grouped(trips)),
        grouped(feed.hops()),
        grouped(records),
    ];
    let spent = Spent::of(&times);
    Ok(row(&[&first[..], &spent.cells(), &[kept(AT_MOST, &spent)]].concat()))
}

pub fn table<R: Reader>(library: &R, rounds: usize) -> Result<String, String> {
    let first = ["timetable of", "hops", "records of the target"];
    let mut table = head(1, &[&first[..], &COLUMNS[..], &["at most"]].concat());
    let sizes = [([3_000, 100, 80], Room::Hops), ([250_000, 3_000, 8_000], Room::Most), ([300_000, 3_000, 8_000], Room::Hops)];
    for (size, room) in sizes {
        for shuffled in [false, true] {
            table += &measure(library, size, room, shuffled, rounds)?;
        }
    }
    Ok(table)
}

#[cfg(test)]
mod tests {
    use super::*;

    /// The Rust program in the library's place, with bits changed in one byte of its hops: of the first, or the last of the target.
    struct Changed(u8, fn(usize) -> usize);

    impl Reader for Changed {
        fn timetable(&self, stop_times: &[u8], stops: &[u8], trips: &[u8], hops: &mut [u8], answer: &mut [u8]) -> u32 {
            let value = quick::timetable(stop_times, stops, trips, hops, answer);
            hops[(self.1)(hops.len())] ^= self.0;
            value
        }
    }

    #[test]
    fn wrong_hops_end_the_measurement() {
        for shuffled in [false, true] {
            for room in [Room::Hops, Room::Most] {
                for place in [|_| 19, |len| len - 1] {
                    assert!(measure(&Changed(0, place), [300, 20, 8], room, shuffled, 2).is_ok());
                    assert!(measure(&Changed(1, place), [300, 20, 8], room, shuffled, 2).is_err());
                }
            }
        }
    }
}
