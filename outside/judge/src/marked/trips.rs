//! Hops of 20 bytes over the base job, and moves of its hop: what RULES 3.7,
//! 12.2 and 22 say of each, written out by hand.

use super::Wanted::{Moved, Refusal};
use super::{base, filled, lent, marked, Marked, Wanted, BASE};
use crate::cases::trips::{move_case, widen};
use crate::outcome::Case;
use crate::records::Way::{Backward, Forward};
use crate::records::{Way, NONE};

/// The hop of the base job, 3 to 1, 35,760 to 35,880, and one of no meaning.
const HOP: [u8; 16] = [0, 0, 0, 3, 0, 0, 0, 1, 0, 0, 139, 176, 0, 0, 140, 40];
const ANY: [u8; 16] = [7; 16];

#[rustfmt::skip] // a row a line
pub const ALL: &[Marked] = &[
    // The trip makes no difference, whatever time it would be.
    marked("a trip", || ridden(1_001), BASE),
    marked("trip 0", || ridden(0), BASE),
    marked("a trip like a late arrival", || ridden(35_951), BASE),
    marked("the highest trip", || ridden(NONE), BASE),
    // Another size, over the hop and over none, and what comes before it.
    marked("size 0", || sized(0, false), WRONG_SIZE),
    marked("size 0, no hop", || sized(0, true), WRONG_SIZE),
    marked("size 15", || sized(15, false), WRONG_SIZE),
    marked("size 8, a whole number of times", || sized(8, false), WRONG_SIZE),
    marked("size 32, no hop", || sized(32, true), WRONG_SIZE),
    marked("size 272", || sized(272, true), WRONG_SIZE),
    marked("size 20 over 16 bytes", || sized(20, false), WRONG_SIZE),
    marked("a cut vertex, size 0", || cut(0, [1, 1, 1]), &[Refusal(1, 0)]),
    marked("a cut walk, size 0", || cut(0, [0, 1, 1]), &[Refusal(1, 1)]),
    marked("size 0, a cut held buffer", || cut(0, [0, 0, 1]), WRONG_SIZE),
    marked("size 20, a cut held buffer", || cut(20, [0, 0, 1]), &[Refusal(1, 3)]),
    // Moves that are done.
    marked("forward", || forward(&[HOP], 20), &[Moved(&[HOP], Some(0))]),
    marked("forward, any bytes", || forward(&[ANY, HOP], 40), &[Moved(&[ANY, HOP], Some(0))]),
    marked("forward, no hop", || forward(&[], 0), &[Moved(&[], Some(0))]),
    marked("backward", || backward(&[HOP], &[0], 16), &[Moved(&[HOP], None)]),
    marked("backward, any bytes", || backward(&[ANY, HOP], &[0, 0], 32), &[Moved(&[ANY, HOP], None)]),
    marked("backward, no hop", || backward(&[], &[], 0), &[Moved(&[], None)]),
    // A trip that is known: the first is told, and nothing is written.
    marked("a trip of 1", || backward(&[HOP], &[1], 16), &[Refusal(11, 0)]),
    marked("the second of two", || backward(&[HOP, HOP], &[0, 1 << 31], 32), &[Refusal(11, 1)]),
    marked("the second of three", || backward(&[HOP; 3], &[0, 256, 1], 48), &[Refusal(11, 1)]),
    // Lengths: the source, then the target, then the trips.
    marked("16 bytes forward to 16", || forward(&[HOP], 16), &[Refusal(1, 6)]),
    marked("a target of two", || forward(&[HOP], 40), &[Refusal(1, 6)]),
    marked("a target for no hop", || forward(&[], 20), &[Refusal(1, 6)]),
    marked("a cut source, a long target", || cut_source(Forward, 20), &[Refusal(1, 2)]),
    marked("a cut source, its target", || cut_source(Backward, 0), &[Refusal(1, 2)]),
    marked("a short target, a trip", || backward(&[HOP], &[1], 15), &[Refusal(1, 6)]),
];

const WRONG_SIZE: &[Wanted] = &[Refusal(1, 2)];

/// The base job with this trip behind its hop.
fn ridden(trip: u32) -> Case {
    let mut case = lent(base(), NONE);
    widen(&mut case, || trip);
    case
}

/// The check of the base job with a size named, with its hop or without.
fn sized(hop_size: u32, empty: bool) -> Case {
    let mut case = base().network.check_case();
    if empty {
        case.hops.clear();
    }
    Case { hop_size, ..case }
}

/// The run with a size named, and so many bytes taken off the vertices, the
/// walks and the held buffer. Where the size is 20 the hop has a trip.
fn cut(hop_size: u32, [vertices, walks, held]: [usize; 3]) -> Case {
    let mut case = filled(base().run_case(NONE));
    if hop_size == 20 {
        widen(&mut case, || 5);
    }
    case.vertices.truncate(5 * 12 - vertices);
    case.walks.truncate(6 * 16 - walks);
    case.held.truncate(5 * 16 - held);
    Case { hop_size, ..case }
}

fn forward(hops: &[[u8; 16]], target: usize) -> Case {
    filled(move_case(Forward, hops.concat(), target))
}

fn backward(hops: &[[u8; 16]], trips: &[u32], target: usize) -> Case {
    filled(move_case(Backward, wide(hops, trips), target))
}

/// The hops with these trips behind them.
fn wide(hops: &[[u8; 16]], trips: &[u32]) -> Vec<u8> {
    let rows = hops.iter().zip(trips);
    let row = |(hop, trip): (&[u8; 16], &u32)| [&hop[..], &trip.to_be_bytes()].concat();
    rows.flat_map(row).collect()
}

/// One byte less than a hop.
fn cut_source(way: Way, target: usize) -> Case {
    let size = if way == Forward { 16 } else { 20 };
    filled(move_case(way, vec![1; size - 1], target))
}

/// Whether these hops stand in the target, with this trip behind each.
pub fn written(target: &[u8], hops: &[[u8; 16]], trip: Option<u32>) -> bool {
    match trip {
        Some(trip) => target == wide(hops, &vec![trip; hops.len()]),
        None => target == hops.concat(),
    }
}

#[cfg(test)]
mod tests {
    use super::ALL;
    use crate::mutant::Mutant::{self, *};

    /// Wrong versions that these rows alone have to tell: all but those about
    /// the count.
    const WRONG: &[Mutant] = &[
        HopSizeZero,
        HopSizeOther,
        HopSizeWords,
        HopSizeByte,
        HopSizeEmpty,
        HopSizeFirst,
        HopSizeLate,
        TripArrival,
        TripDeparture,
        MoveCut,
        MoveTargetFirst,
        MoveTargetLonger,
        MoveTargetWhole,
        MoveTargetPlace,
        MoveTripsFirst,
        MoveDropsTrips,
        MoveLastTrip,
        MoveTripByte,
        MoveTripSigned,
        MoveLater,
        MoveHalf,
        MoveZeroes,
        MoveOldTrips,
        MoveOnes,
        MoveJudges,
    ];

    #[test]
    fn the_rows_tell_wrong_versions() {
        for &mutant in WRONG {
            let caught = ALL.iter().any(|marked| {
                let case = (marked.make)();
                !marked.fits(&case, &case.fast(mutant))
            });
            assert!(caught, "{mutant:?}");
        }
    }
}
