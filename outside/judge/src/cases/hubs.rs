//! One vertex and as many neighbours as there can be, most of them hopeless in
//! the one step that settles it.

use crate::mutant::Sound;
use crate::network::{Plan, Scene};
use crate::outcome::Case;
use crate::records::{Answer, Query, HELD};

/// The road on which the place lies ends here, and is not walked.
const LAST: usize = 65_535;

/// D is 60 seconds of 10 ticks.
const WINDOW: u32 = 600;
const ARRIVAL: i32 = 36_000;

/// The place is vertex 0, at the beginning of a road to the last vertex, so
/// that vertex 0 stays held. `records` gives the others their records.
fn around(records: fn(&mut Plan)) -> Scene {
    let mut plan = Plan {
        vertices: LAST + 1,
        ..Plan::default()
    };
    plan.one_way(0, LAST, 1);
    records(&mut plan);
    let network = plan.build();
    let record = network.walks.iter().position(|walk| walk.from == 0);
    let query = Query {
        record: record.unwrap_or(0) as u32,
        offset: 0,
        arrival: ARRIVAL,
        duration: 60,
        speed: 10,
    };
    Scene { network, query }
}

/// A walk from each neighbour that is too long, by one tick and by more.
fn long_walks(plan: &mut Plan) {
    for vertex in 1..=LAST {
        plan.one_way(vertex, 0, WINDOW + 1 + vertex as u32 % 500);
    }
}

/// A hop from each neighbour, in the other order than the walks: one that is
/// too late, or begins before the window.
fn useless_hops(plan: &mut Plan) {
    for vertex in (1..=LAST).rev() {
        let departure = ARRIVAL - [61, 1][vertex % 2];
        plan.hop(vertex, 0, departure, departure + 2);
    }
}

/// Each neighbour has one walk to the vertex in the middle.
pub fn walks() -> Scene {
    around(long_walks)
}

/// Each has a walk and a hop to it, far apart in its row of records.
pub fn walks_and_hops() -> Scene {
    around(|plan| {
        long_walks(plan);
        useless_hops(plan);
    })
}

/// Each has four walks and four hops to it: as many records as there can be.
pub fn full_row() -> Scene {
    around(|plan| {
        for _ in 0..4 {
            long_walks(plan);
            useless_hops(plan);
        }
    })
}

/// Each has two hops to it that come too late, so that nothing is known.
pub fn late_hops() -> Scene {
    around(|plan| {
        for vertex in (1..=LAST).chain(1..=LAST) {
            plan.hop(vertex, 0, ARRIVAL, ARRIVAL + 1);
        }
    })
}

/// The same as `walks_and_hops`, but every other neighbour has a road on and
/// stays held.
pub fn every_other_stays() -> Scene {
    around(|plan| {
        long_walks(plan);
        useless_hops(plan);
        for vertex in (1..LAST).step_by(2) {
            plan.one_way(vertex, LAST, 1);
        }
    })
}

/// The same, but the hop of every other neighbour is in time: it is met beyond
/// D by its walk, and within D by its hop.
pub fn every_other_rides() -> Scene {
    around(|plan| {
        long_walks(plan);
        useless_hops(plan);
        for hop in plan.hops.iter_mut().step_by(2) {
            (hop.departure, hop.arrival) = (ARRIVAL - 60, ARRIVAL);
        }
    })
}

/// How many are held at most in the first step.
pub fn most(scene: &Scene) -> usize {
    let held = |limit| Answer::read(&scene.run_case(limit).fast(Sound).answer).held;
    held(0).max(held(1)) as usize
}

/// One step in room for as many as are held, less so many.
pub fn one_step(scene: Scene, less: usize) -> Case {
    let mut case = scene.pair_case(1);
    case.held = vec![0xee; (most(&scene) - less) * HELD];
    case
}

#[cfg(test)]
mod tests {
    use super::*;

    #[test]
    fn hubs_hold_what_they_are_built_for() {
        let half = LAST / 2;
        let all = [
            (walks(), 1, 1),
            (walks_and_hops(), 1, 1),
            (full_row(), 1, 1),
            (late_hops(), 1, 1),
            (every_other_stays(), 1 + half, 1),
            (every_other_rides(), 2 + half, 2 + half),
        ];
        for (index, (scene, held, settled)) in all.into_iter().enumerate() {
            assert_eq!(most(&scene), held, "{index}");
            let end = scene.run_case(u32::MAX).fast(Sound).answer;
            assert_eq!(Answer::read(&end).settled as usize, settled, "{index}");
        }
    }
}
