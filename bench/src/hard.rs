//! Tables on which the check has most to do: numbers at random, vertices that
//! many records leave, roads without twins, and tables whose one fault is late.

use outside::network::{full_scene, grid_scene, Network, Plan};
use outside::records::{Walk, NONE};
use outside::rng::Rng;

use crate::networks::shuffled;

/// The records of a network as a plan: twins name places in this very list.
pub fn plan_of(network: Network) -> Plan {
    Plan {
        vertices: network.vertices.len(),
        walks: network.walks,
        hops: network.hops,
    }
}

/// 200 by 200 vertices and 20,000 hops.
fn city() -> Plan {
    plan_of(grid_scene(200, 40_000, 20_000, 900).network)
}

/// As many vertices, walks and hops as there can be.
fn full() -> Plan {
    plan_of(full_scene(600).network)
}

/// The same network with its vertices numbered at random.
fn mixed(plan: Plan) -> Plan {
    shuffled(plan, 0).0
}

/// So many records leave the vertex in the middle: it takes hops from others.
fn hub(mut plan: Plan, departing: usize) -> Plan {
    let hub = plan.vertices as u32 / 2;
    let walks = plan.walks.iter().filter(|walk| walk.from == hub).count();
    let hops = plan.hops.iter().filter(|hop| hop.from == hub).count();
    let others = plan.hops.iter_mut();
    let others = others.filter(|hop| hop.from != hub && hop.to != hub);
    for hop in others.take(departing - walks - hops) {
        hop.from = hub;
    }
    plan
}

/// All hops leave so many stops, which stand at even distances.
fn stops(mut plan: Plan, count: usize) -> Plan {
    let mut rng = Rng::new(7, count as u64);
    let apart = plan.vertices / count;
    for hop in &mut plan.hops {
        let (stop, next) = (rng.below(count), rng.below(count - 1));
        let other = (stop + 1 + next) % count;
        let stop = [stop, other].map(|stop| (stop * apart) as u32);
        hop.from = stop[usize::from(stop[0] == hop.to)];
    }
    plan
}

/// Every record stands alone.
fn without_twins(mut plan: Plan) -> Plan {
    for walk in &mut plan.walks {
        walk.twin = NONE;
    }
    plan
}

/// One street in five is for one way, and either way is as likely.
fn one_way_streets(plan: Plan) -> Plan {
    let mut rng = Rng::new(7, plan.walks.len() as u64);
    let mut left = Plan {
        vertices: plan.vertices,
        hops: plan.hops,
        ..Plan::default()
    };
    let streets = plan.walks.iter().enumerate();
    for (_, street) in streets.filter(|(index, walk)| *index < walk.twin as usize) {
        let &Walk {
            from, to, length, ..
        } = street;
        let (from, to) = (from as usize, to as usize);
        match (rng.chance(20), rng.chance(50)) {
            (false, _) => left.road(from, to, length),
            (true, false) => left.one_way(from, to, length),
            (true, true) => left.one_way(to, from, length),
        }
    }
    left
}

/// Tables with a name.
pub type Named = (&'static str, Network);

/// Good tables, with the most that the library's time may be of Rust's.
pub fn accepted() -> [(f64, Named); 8] {
    let row = |most, name, plan: Plan| (most, (name, plan.build()));
    [
        row(0.6, "grid of 200 by 200, 20,000 hops", city()),
        row(0.6, "this grid, shuffled", mixed(city())),
        row(1.0, "full size", full()),
        row(1.0, "full size, shuffled", mixed(full())),
        row(
            1.6,
            "full size, 65,535 records leave one vertex",
            hub(full(), 65_535),
        ),
        row(
            1.6,
            "full size, all hops leave 3,000 stops",
            stops(full(), 3_000),
        ),
        row(1.6, "full size, no twins", without_twins(full())),
        row(
            1.6,
            "the grid, one street in five for one way",
            one_way_streets(city()),
        ),
    ]
}

/// Tables with one fault each, and what the check answers.
fn faults(good: &Network) -> [(&'static str, Network, (u32, usize)); 7] {
    let row = |name, answer, change: &dyn Fn(&mut Network)| {
        let mut network = good.clone();
        change(&mut network);
        (name, network, answer)
    };
    let last = good.vertices.len() - 1;
    let (walk, hop) = (good.walks.len() - 1, good.hops.len() - 1);
    [
        // Its twin lets go of it, so that no record before it is at fault.
        row("the last walk", (2, walk), &|network| {
            let twin = network.walks[walk].twin as usize;
            network.walks[twin].twin = NONE;
        }),
        row("the last hop", (3, hop), &|network| {
            network.hops[hop].arrival = network.hops[hop].departure - 1;
        }),
        row("the last vertex's zero", (6, last), &|network| {
            network.vertices[last].zero = 1;
        }),
        row("the last vertex's count", (6, last), &|network| {
            network.vertices[last].departing += 1;
        }),
        row("a count in the middle", (6, last / 2), &|network| {
            network.vertices[last / 2].departing += 1;
        }),
        row("the last vertex's first walk", (6, last), &|network| {
            network.vertices[last].first_walk -= 1;
        }),
        row("the last vertex's first hop", (6, last), &|network| {
            network.vertices[last].first_hop -= 1;
        }),
    ]
}

/// Tables of full size, each refused for one fault that is found late.
pub fn refused() -> [Named; 7] {
    faults(&full().build()).map(|(name, network, _)| (name, network))
}

#[cfg(test)]
mod tests {
    use outside::mutant::Sound;
    use outside::outcome::{Case, Fast, Program};

    use super::*;

    fn checked(network: &Network) -> u64 {
        let case: Case = network.check_case();
        Fast(Sound).check(case.tables())
    }

    fn small() -> Plan {
        plan_of(grid_scene(20, 400, 3_000, 900).network)
    }

    fn leaving(plan: &Plan, vertex: u32) -> usize {
        let walks = plan.walks.iter().filter(|walk| walk.from == vertex);
        let hops = plan.hops.iter().filter(|hop| hop.from == vertex);
        walks.count() + hops.count()
    }

    #[test]
    fn hard_tables_are_good() {
        let plans = [
            small(),
            mixed(small()),
            hub(small(), 1_000),
            stops(small(), 30),
            without_twins(small()),
            one_way_streets(small()),
        ];
        for (index, plan) in plans.iter().enumerate() {
            assert_eq!(checked(&plan.build()), 0, "{index}");
            assert_eq!(plan.hops.len(), 3_000, "{index}");
        }
    }

    #[test]
    fn hard_tables_are_what_they_are_called() {
        assert_eq!(leaving(&hub(small(), 1_000), 200), 1_000);
        let stops = stops(small(), 30);
        assert!(stops.hops.iter().all(|hop| hop.from % 13 == 0));
        let alone = |plan: Plan| {
            let alone = plan.walks.iter().filter(|walk| walk.twin == NONE);
            (alone.count(), plan.walks.len())
        };
        assert_eq!(alone(small()), (0, 1_520));
        assert_eq!(alone(without_twins(small())), (1_520, 1_520));
        let (one, all) = alone(one_way_streets(small()));
        assert_eq!(2 * one + (all - one), 1_520);
        assert!((100..200).contains(&one), "{one}");
    }

    #[test]
    fn each_fault_is_the_one_that_is_named() {
        for (name, network, (number, place)) in faults(&small().build()) {
            let answer = (u64::from(number) << 32) + place as u64;
            assert_eq!(checked(&network), answer, "{name}");
        }
    }
}
