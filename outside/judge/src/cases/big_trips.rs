//! Hop tables with trips at their largest, and moves of them.

use super::big::full;
use super::trips::{fitting, move_case, widen};
use crate::network::Scene;
use crate::outcome::Case;
use crate::records::{Way, HOP, TRIP_HOP};

/// Trips as large as they get, all different.
fn tripped(mut case: Case) -> Case {
    let mut last = u32::MAX;
    widen(&mut case, || {
        last -= 1;
        last + 1
    });
    case
}

/// The full network with a trip behind every hop.
pub fn with_trips(call: fn(&Scene) -> Case) -> Case {
    tripped(call(&full()))
}

/// One hop more than there may be.
pub fn one_more() -> Case {
    let mut scene = full();
    let last = scene.network.hops[scene.network.hops.len() - 1];
    scene.network.hops.push(last);
    tripped(scene.run_case(u32::MAX))
}

/// The last hop arrives before it departs.
pub fn last_hop() -> Case {
    let mut scene = full();
    let last = &mut scene.network.hops[262_143];
    last.departure = last.arrival + 1;
    tripped(scene.network.check_case())
}

/// Bytes of some pattern, for so many records of this size.
fn pattern(records: usize, size: usize) -> Vec<u8> {
    (0..records * size).map(|i| (i % 251) as u8).collect()
}

pub fn forward(records: usize) -> Case {
    fitting(Way::Forward, pattern(records, HOP))
}

/// A target for one record less.
pub fn forward_short() -> Case {
    move_case(Way::Forward, pattern(262_144, HOP), 262_143 * TRIP_HOP)
}

pub fn backward(records: usize) -> Case {
    let mut case = forward(records);
    widen(&mut case, || 0);
    fitting(Way::Backward, case.hops)
}

/// Only the last record has a trip.
pub fn last_trip() -> Case {
    let mut case = backward(262_144);
    let end = case.hops.len();
    case.hops[end - 4] = 0x80;
    case
}
