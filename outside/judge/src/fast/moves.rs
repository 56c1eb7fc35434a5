//! The moves of a hop table between records of 16 bytes and of 20.

use crate::mutant::{Fault, Mutant};
use crate::records::{trip, word, Refusal, Way, HOP, TRIP_HOP};

const MOST_RECORDS: usize = 262_144;

/// The trip is set to 0 on the way forward, and has to be 0 on the way back.
pub fn moved<F: Fault>(way: Way, source: &[u8], target: &mut [u8], fault: F) -> Option<Refusal> {
    let refused = refused(way, source, target.len(), fault);
    match refused {
        None => write(way, source, target, fault),
        Some(refusal) if refusal.number == 11 && fault.is(Mutant::MoveHalf) => {
            let done = refusal.place as usize;
            let (source, target) = (&source[..done * TRIP_HOP], &mut target[..done * HOP]);
            write(way, source, target, fault);
        }
        Some(_) if fault.is(Mutant::MoveZeroes) => target.fill(0),
        Some(_) => {}
    }
    refused
}

fn refused<F: Fault>(way: Way, source: &[u8], target: usize, fault: F) -> Option<Refusal> {
    let trips = || match way {
        Way::Forward => None,
        Way::Backward => tripped(source, fault),
    };
    let lengths = lengths(way, source.len(), target, fault);
    match lengths {
        Some(refusal) if refusal.place == 6 && fault.is(Mutant::MoveTripsFirst) => {
            trips().or(lengths)
        }
        None if fault.is(Mutant::MoveJudges) => trips().or_else(|| unordered(way, source)),
        _ => lengths.or_else(trips),
    }
}

/// The sizes of a record in the source and in the target.
fn sizes(way: Way) -> (usize, usize) {
    match way {
        Way::Forward => (HOP, TRIP_HOP),
        Way::Backward => (TRIP_HOP, HOP),
    }
}

/// Refusal 1: the source, then the target by its count.
fn lengths<F: Fault>(way: Way, source: usize, target: usize, fault: F) -> Option<Refusal> {
    let (own, other) = sizes(way);
    let most = MOST_RECORDS + usize::from(fault.is(Mutant::MoveCountLoose))
        - usize::from(fault.is(Mutant::MoveCountTight));
    let cut = source % own != 0 && !fault.is(Mutant::MoveCut);
    let wrong_source = cut || source / own > most;
    let need = source / own * other;
    let wrong_target = match fault {
        _ if fault.is(Mutant::MoveTargetLonger) => target < need,
        _ if fault.is(Mutant::MoveTargetWhole) => target % other != 0 || target < need,
        _ => target != need,
    };
    if wrong_target && fault.is(Mutant::MoveTargetFirst) {
        return Some(Refusal::at(1, 6));
    }
    if wrong_source {
        return Some(Refusal::at(1, 2));
    }
    let place = if fault.is(Mutant::MoveTargetPlace) {
        5
    } else {
        6
    };
    wrong_target.then(|| Refusal::at(1, place))
}

/// Refusal 11: the first record that a narrow one cannot hold.
fn tripped<F: Fault>(source: &[u8], fault: F) -> Option<Refusal> {
    if fault.is(Mutant::MoveDropsTrips) {
        return None;
    }
    let mut count = source.len() / TRIP_HOP;
    count -= usize::from(fault.is(Mutant::MoveLastTrip)).min(count);
    let mask = match fault {
        _ if fault.is(Mutant::MoveTripByte) => 0xff,
        _ if fault.is(Mutant::MoveTripSigned) => 0x7fff_ffff,
        _ => u32::MAX,
    };
    let known = |index: &usize| trip(source, *index) & mask != 0;
    let mut records = 0..count;
    let first = match fault.is(Mutant::MoveLater) {
        true => records.rfind(known),
        false => records.find(known),
    };
    first.map(|record| Refusal::at(11, record))
}

/// Only for a mutant: a table out of order.
fn unordered(way: Way, source: &[u8]) -> Option<Refusal> {
    let (own, _) = sizes(way);
    let to = |i: usize| word(source, i * own + 4);
    let falls = (1..source.len() / own).find(|&i| to(i) < to(i - 1))?;
    Some(Refusal::at(5, falls))
}

fn write<F: Fault>(way: Way, source: &[u8], target: &mut [u8], fault: F) {
    let (own, other) = sizes(way);
    let records = source.chunks_exact(own).zip(target.chunks_exact_mut(other));
    for (from, to) in records {
        to[..HOP].copy_from_slice(&from[..HOP]);
        if !fault.is(Mutant::MoveOldTrips) {
            to[HOP..].fill(0);
        }
        if way == Way::Forward && fault.is(Mutant::MoveOnes) {
            to[HOP..].fill(0xff);
        }
    }
}
