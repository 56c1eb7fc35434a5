//! Small networks in which many vertices are hopeless: at once, later, by
//! parallel records, by hops that are too late, and nearly.

use super::small;
use crate::network::{Plan, Scene};
use crate::records::Query;
use crate::rng::Rng;

/// Some inner vertices that lie near one another, and outer ones whose records
/// mostly lead to these and offer about D, more, or nothing.
pub fn scene(rng: &mut Rng) -> Scene {
    let query = Query {
        record: 0,
        offset: 0,
        arrival: rng.pick(&[40, 1_000, 36_000]),
        duration: rng.range(3, 20) as u32,
        speed: rng.pick(&[1, 1, 2, 3, 10]),
    };
    let inner = rng.pick(&[1, 2, 3, 4, 7, 10]);
    let outer = rng.range(1, 8) as usize;
    let mut plan = Plan {
        vertices: inner + outer,
        ..Plan::default()
    };
    for vertex in 1..inner {
        near_road(&mut plan, vertex, query, rng);
    }
    for vertex in inner..inner + outer {
        let most = rng.pick(&[1, 1, 2, 2, 3, 5]);
        for _ in 0..most {
            outer_record(&mut plan, vertex, inner, query, rng);
        }
    }
    // There is a place, also where every record is a hop.
    if plan.walks.is_empty() {
        plan.one_way(0, inner, rng.range(1, 9) as u32);
    }
    small::mix(&mut plan, rng);
    let mut scene = Scene {
        network: plan.build(),
        query,
    };
    small::place(&mut scene, rng);
    if rng.chance(30) {
        small::window_at_distance(&mut scene, rng);
    }
    scene
}

/// Joins an inner vertex to one before it.
fn near_road(plan: &mut Plan, vertex: usize, query: Query, rng: &mut Rng) {
    let to = rng.below(vertex);
    let length = rng.range(1, 3 * i64::from(query.speed)) as u32;
    match rng.below(4) {
        0 => plan.one_way(vertex, to, length),
        _ => plan.road(vertex, to, length),
    }
}

/// A record from an outer vertex, mostly to an inner one; several of them may
/// lead to the same.
fn outer_record(plan: &mut Plan, from: usize, inner: usize, query: Query, rng: &mut Rng) {
    let mut to = rng.below(inner);
    if rng.chance(12) {
        to = rng.below(plan.vertices);
    }
    if to == from {
        return;
    }
    let window = i64::from(query.duration * query.speed);
    let second = i64::from(query.speed);
    let length = match rng.below(6) {
        0 => rng.range(1, window),
        1 => window + rng.range(-2, 2),
        2 => window + rng.range(-3, 3) * second,
        _ => window + rng.range(1, 2 * window),
    };
    let length = length.clamp(1, 100_000) as u32;
    match rng.below(8) {
        0..=2 => plan.one_way(from, to, length),
        3 => plan.road(from, to, length),
        _ => {
            let (departure, arrival) = ride(query, rng);
            plan.hop(from, to, departure, arrival);
        }
    }
}

/// A ride that is too late, begins before the window, or is in time.
fn ride(query: Query, rng: &mut Rng) -> (i32, i32) {
    let (last, first) = (query.arrival, query.arrival - query.duration as i32);
    let departure = match rng.below(5) {
        0..=1 => last - rng.range(0, 1) as i32,
        2 => first + rng.range(-1, 1) as i32,
        3 => first - rng.range(1, 9) as i32,
        _ => rng.range(i64::from(first), i64::from(last)) as i32,
    };
    (departure, departure + rng.range(0, 4) as i32)
}
