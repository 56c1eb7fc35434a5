//! Rides of no minutes: what RULES 4.3 and 8.1 say of the order of settling,
//! at each limit with its held table, worked out by hand. Everywhere a second
//! has ten ticks and T is second 1,000.

use super::Wanted::{self, Finished, Held, Order, Parts, PartsRefusal, Refusal, Settled};
use super::{alone, filled, lent, listed, marked, ride, Marked, BASE_SETTLED};
use crate::network::{Plan, Scene};
use crate::outcome::Case;
use crate::records::{Query, HELD, NONE, SETTLED};

#[rustfmt::skip] // a row a line
pub const ALL: &[Marked] = &[
    // Times: equal ones are good at either end of the day, falling ones never.
    marked("M10, check", || ride(35_880, 35_880).network.check_case(), &[Refusal(0, 0)]),
    marked("M10, parts alone", || listed(ride(35_880, 35_880), M10_SETTLED, 7), &[Parts(M10_PARTS)]),
    marked("a ride at the first second", || ride(-86_400, -86_400).network.check_case(), &[Refusal(0, 0)]),
    marked("a ride at the last second", || ride(172_800, 172_800).network.check_case(), &[Refusal(0, 0)]),
    marked("a second beyond", || ride(172_801, 172_801).network.check_case(), &[Refusal(3, 0)]),
    marked("a second before", || ride(-86_401, -86_401).network.check_case(), &[Refusal(3, 0)]),
    marked("a second back, check", || ride(35_881, 35_880).network.check_case(), &[Refusal(3, 0)]),
    marked("a second back", || lent(ride(35_881, 35_880), NONE), &[Refusal(3, 0)]),
    marked("a second back, parts", || listed(ride(35_881, 35_880), BASE_SETTLED, 8), &[PartsRefusal(3, 0)]),
    // 4 rides to 0 and 0 to 5: the numbers fall and rise again at one distance.
    marked("chain", || lent(chain(), NONE), CHAIN),
    marked("chain, limit 0", || lent(chain(), 0), &[Held(&[(3, 20, 0, 1), (5, 20, 0, 1)])]),
    marked("chain, limit 1", || lent(chain(), 1), &[Order(&[3]), Held(&[(2, 20, 0, 0), (3, 20, 1, 1), (5, 20, 0, 0)])]),
    marked("chain, limit 2", || lent(chain(), 2), &[Order(&[3, 2]), Held(&[(3, 20, 1, 1), (5, 20, 0, 0)])]),
    marked("chain, limit 3", || lent(chain(), 3), &[Order(&[3, 2, 5]), Held(&[(0, 20, 0, 1)])]),
    marked("chain, limit 4", || lent(chain(), 4), &[Order(&[3, 2, 5, 0]), Held(&[(0, 20, 1, 1), (1, 50, 0, 1), (4, 20, 0, 0)])]),
    marked("chain, limit 5", || lent(chain(), 5), &[Order(&[3, 2, 5, 0, 4]), Held(&[(0, 20, 1, 1), (1, 45, 0, 0)]), Finished(0)]),
    marked("chain, limit 6", || lent(chain(), 6), CHAIN),
    marked("chain, its parts by number", || listed(chain(), &[(0, 20), (2, 20), (3, 20), (4, 20), (5, 20)], 6), BY_NUMBER),
    // 0 and 1 ride to each other, and 1 to the place; 3, 4 and 5 only in a circle.
    marked("circles", || lent(circles(), NONE), &[Settled(&[(6, 0), (1, 30), (0, 30), (2, 40)]), Held(&[]), Finished(1)]),
    marked("circles, limit 1", || lent(circles(), 1), &[Held(&[(1, 30, 0, 1), (2, 40, 0, 0), (6, 0, 1, 1)])]),
    marked("circles, limit 2", || lent(circles(), 2), &[Held(&[(0, 30, 0, 0), (1, 30, 1, 1), (2, 40, 0, 0), (6, 0, 1, 1)])]),
    marked("circles, limit 3", || lent(circles(), 3), &[Held(&[(2, 40, 0, 0), (6, 0, 1, 1)])]),
    // 2 walks and 4 rides, and at that distance 0 rides to 4 and 1 to 0; what 1 walks is longer.
    marked("ties", || lent(ties(10), NONE), &[Settled(TIES), Parts(&[(2, 0, 60), (1, 0, 40), (0, 0, 15)]), Held(&[]), Finished(1)]),
    marked("ties, limit 1", || lent(ties(10), 1), &[Held(&[(2, 40, 0, 0), (3, 60, 0, 0), (4, 40, 0, 0)])]),
    marked("ties, limit 2", || lent(ties(10), 2), &[Held(&[(1, 55, 0, 1), (3, 60, 0, 0), (4, 40, 0, 0)])]),
    marked("ties, limit 3", || lent(ties(10), 3), &[Held(&[(0, 40, 0, 0), (1, 55, 0, 1), (3, 60, 0, 0)])]),
    marked("ties, limit 4", || lent(ties(10), 4), &[Held(&[(1, 40, 0, 0), (3, 60, 0, 0)])]),
    marked("ties, limit 5", || lent(ties(10), 5), &[Held(&[(3, 60, 0, 0)]), Finished(0)]),
    marked("ties at D", || lent(ties(4), NONE), &[Order(&[5, 2, 4, 0, 1]), Parts(&[(2, 20, 60), (1, 0, 40)]), Finished(1)]),
    marked("ties a second beyond D", || lent(ties(3), NONE), &[Order(&[5]), Finished(1)]),
    // Room that ends inside the tie.
    marked("ties, held room 3", || room(3, 6), &[Settled(TIES), Finished(1)]),
    marked("ties, held room 2", || room(2, 6), &[Refusal(8, 1)]),
    marked("ties, settled room 3", || room(3, 3), &[Refusal(9, 4)]),
];

/// M10, by hand as the others: 3 rides at 1,200 ticks and 4 walks to 3.
pub const M10: &[Wanted] = &[
    Refusal(0, 0),
    Settled(M10_SETTLED),
    Parts(M10_PARTS),
    Held(&[]),
    Finished(1),
];

const M10_SETTLED: &[(u32, u32)] = &[(1, 500), (3, 1200), (0, 1500), (4, 2100), (2, 3000)];

const M10_PARTS: &[(u32, u32, u32)] = &[
    (1, 0, 1500),
    (0, 0, 500),
    (1, 1500, 2000),
    (2, 0, 2500),
    (4, 0, 900),
    (0, 500, 2000),
    (5, 0, 900),
];

const CHAIN: &[Wanted] = &[
    Settled(&[(3, 20), (2, 20), (5, 20), (0, 20), (4, 20), (1, 45)]),
    Parts(&[
        (2, 0, 20),
        (4, 0, 20),
        (2, 20, 40),
        (4, 20, 40),
        (0, 0, 30),
        (3, 0, 25),
        (1, 0, 30),
    ]),
    Held(&[]),
    Finished(1),
];

/// The parts keep the order of the list, whatever a run would settle first.
const BY_NUMBER: &[Wanted] = &[Parts(&[
    (2, 0, 20),
    (4, 0, 20),
    (0, 0, 30),
    (2, 20, 40),
    (3, 0, 25),
    (4, 20, 40),
])];

const TIES: &[(u32, u32)] = &[(5, 0), (2, 40), (4, 40), (0, 40), (1, 40), (3, 60)];

fn plan(vertices: usize) -> Plan {
    Plan {
        vertices,
        ..Plan::default()
    }
}

fn asked(plan: &Plan, record: u32, offset: u32, duration: u32) -> Scene {
    Scene {
        network: plan.build(),
        query: Query {
            record,
            offset,
            arrival: 1_000,
            duration,
            speed: 10,
        },
    }
}

/// The place is in the middle of the road from 5 to 3, which is walk 2.
fn chain() -> Scene {
    let mut plan = plan(6);
    plan.road(5, 3, 40);
    plan.road(1, 0, 30);
    plan.one_way(1, 4, 25);
    for (from, to) in [(0, 5), (4, 0), (2, 3)] {
        plan.hop(from, to, 998, 998);
    }
    asked(&plan, 2, 20, 10)
}

/// The place is vertex 6, where walk 0 begins.
fn circles() -> Scene {
    let mut plan = plan(7);
    plan.road(6, 2, 40);
    for (from, to) in [(0, 1), (1, 0), (1, 6), (3, 4), (4, 5), (5, 3)] {
        plan.hop(from, to, 997, 997);
    }
    asked(&plan, 0, 0, 10)
}

/// The place is vertex 5, where walk 2, from 3, ends.
fn ties(duration: u32) -> Scene {
    let mut plan = plan(6);
    plan.one_way(1, 2, 15);
    plan.one_way(2, 5, 40);
    plan.one_way(3, 5, 60);
    for (from, to) in [(4, 5), (0, 4), (1, 0)] {
        plan.hop(from, to, 996, 996);
    }
    asked(&plan, 2, 60, duration)
}

fn room(held: usize, settled: usize) -> Case {
    let mut case = alone(ties(10), NONE);
    case.held = vec![0; held * HELD];
    case.settled = vec![0; settled * SETTLED];
    filled(case)
}

#[cfg(test)]
mod tests {
    use super::ALL;
    use crate::mutant::Mutant::{self, *};

    /// Wrong versions that these rows alone have to tell.
    const WRONG: &[Mutant] = &[
        HopStill,
        HopBack,
        HopTimesTight,
        HopFirstTight,
        StillRide,
        StrictArrival,
        TiesReversed,
        OrderByNumber,
        OrderAnyOffer,
        OrderCircle,
        CircleStarts,
        TieByRounds,
        TiePassed,
        ListByDistance,
    ];

    #[test]
    fn the_rows_tell_wrong_versions() {
        for &mutant in WRONG {
            let caught = ALL.iter().any(|marked| {
                let case = (marked.make)();
                !marked.fits(&case, &case.fast(mutant))
            });
            assert!(caught, "{mutant:?}");
        }
    }
}
