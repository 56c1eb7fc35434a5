//! Bought lists, over the base job where D is 3,000 and the hop is record 6, and
//! over rides of no minutes: what RULES 23 says of each, worked out by hand.

use super::Wanted::{self, Refusal};
use super::{base, marked, ride, window, Marked};
use crate::network::{Plan, Scene};
use crate::outcome::Case;
use crate::records::{Listed, Query, NONE};

/// Vertex, distance, record.
type Entries = &'static [(u32, u32, u32)];

const SEED: u32 = NONE;
/// The places of the seeds.
const FROM: u32 = 0xffff_fffe;
const TO: u32 = 0xffff_ffff;

const RIGHT: &[Wanted] = &[Refusal(0, 0)];

/// What the run settles, with the record of each.
const OWN: Entries = &[(1, 500, SEED), (0, 1500, SEED), (3, 2400, 6), (2, 3000, 2)];
const WITH_4: Entries = &[
    (1, 500, SEED),
    (0, 1500, SEED),
    (3, 2400, 6),
    (2, 3000, 2),
    (4, 3300, 4),
];

#[rustfmt::skip] // a row a line
pub const ALL: &[Marked] = &[
    marked("a run's own list", || made(base(), OWN), RIGHT),
    marked("another order", || made(base(), &[(0, 1500, SEED), (1, 500, SEED), (2, 3000, 2), (3, 2400, 6)]), RIGHT),
    marked("D one second less", || made(window(299), &[(1, 500, SEED), (3, 2400, 6), (0, 1500, SEED)]), RIGHT),
    marked("D at the fifth vertex", || made(window(330), WITH_4), RIGHT),
    marked("D just below it", || made(window(329), OWN), RIGHT),
    // No list at all: right exactly where every seed is above D.
    marked("no entry", || made(base(), &[]), &[Refusal(28, FROM)]),
    marked("no entry, both seeds above D", || made(window(49), &[]), RIGHT),
    marked("no entry, 'to' at D", || made(window(50), &[]), &[Refusal(28, TO)]),
    // 25: a vertex that does not exist, or of an earlier entry.
    marked("no such vertex", || made(base(), &[(1, 500, SEED), (5, 0, SEED)]), &[Refusal(25, 1)]),
    marked("65,536 beyond a vertex", || made(base(), &[(65_537, 500, SEED)]), &[Refusal(25, 0)]),
    marked("an entry twice", || made(base(), &[(1, 500, SEED), (0, 1500, SEED), (1, 500, SEED)]), &[Refusal(25, 2)]),
    marked("a vertex above D twice", || made(base(), &[(0, NONE, 9), (0, NONE, 9)]), &[Refusal(25, 1)]),
    marked("25 before 26", || made(base(), &[(0, 3001, SEED), (1, 500, SEED), (1, 500, SEED)]), &[Refusal(25, 2)]),
    marked("25 before 27", || made(base(), &[(0, 7, 9), (5, 500, SEED)]), &[Refusal(25, 1)]),
    // 26: above D.
    marked("a distance of D and 1", || made(base(), &[(1, 500, SEED), (2, 3001, 2)]), &[Refusal(26, 1)]),
    marked("a distance of none", || made(base(), &[(1, NONE, SEED)]), &[Refusal(26, 0)]),
    marked("26 before 27", || made(base(), &[(1, 499, SEED), (0, 3001, SEED)]), &[Refusal(26, 1)]),
    marked("above D, where it was at D", || made(window(299), OWN), &[Refusal(26, 3)]),
    // 27: the record or the seed is not the reason.
    marked("a seed one less", || made(base(), &[(1, 499, SEED), (0, 1500, SEED)]), &[Refusal(27, 0)]),
    marked("a seed one more", || made(base(), &[(1, 501, SEED), (0, 1500, SEED)]), &[Refusal(27, 0)]),
    marked("the other seed's distance", || made(base(), &[(1, 1500, SEED)]), &[Refusal(27, 0)]),
    marked("no seed", || made(base(), &[(1, 500, SEED), (2, 3000, SEED)]), &[Refusal(27, 1)]),
    marked("FFFFFFFE is no seed", || made(base(), &[(0, 1500, FROM)]), &[Refusal(27, 0)]),
    marked("a later entry", || made(base(), &[(0, 1500, SEED), (2, 3000, 2), (1, 500, SEED), (3, 2400, 6)]), &[Refusal(27, 1)]),
    marked("an unlisted far end", || made(base(), &[(0, 1500, SEED), (2, 3000, 2)]), &[Refusal(27, 1)]),
    marked("from another vertex", || made(base(), &[(1, 500, SEED), (0, 1500, SEED), (2, 2500, 1)]), &[Refusal(27, 2)]),
    marked("the way there for the way back", || made(base(), &[(1, 500, SEED), (2, 3000, 3)]), &[Refusal(27, 1)]),
    marked("more than is offered", || made(base(), &[(1, 500, SEED), (3, 2401, 6)]), &[Refusal(27, 1)]),
    marked("a record too many", || made(base(), &[(1, 500, SEED), (3, 2400, 7)]), &[Refusal(27, 1)]),
    marked("a hop's own number", || made(base(), &[(1, 500, SEED), (3, 2400, 0)]), &[Refusal(27, 1)]),
    marked("a hop too late", || made(ride(35_760, 35_951), OWN), &[Refusal(27, 2)]),
    marked("a hop at the last moment", || made(ride(35_760, 35_950), OWN), RIGHT),
    marked("a hop that is not needed", || made(ride(35_760, 35_951), &[(1, 500, SEED), (0, 1500, SEED), (2, 3000, 2)]), RIGHT),
    // 28: the seeds, then the lowest record.
    marked("both seeds unlisted", || made(window(150), &[]), &[Refusal(28, FROM)]),
    marked("'to' unlisted", || made(base(), &[(0, 1500, SEED)]), &[Refusal(28, TO)]),
    marked("a seed offers less", || made(base(), &[(1, 500, SEED), (0, 2500, 1), (3, 2400, 6)]), &[Refusal(28, FROM)]),
    marked("the seeds alone", || made(base(), &[(0, 1500, SEED), (1, 500, SEED)]), &[Refusal(28, 2)]),
    marked("without the rider", || made(base(), &[(0, 1500, SEED), (1, 500, SEED), (2, 3000, 2)]), &[Refusal(28, 6)]),
    marked("an offer of D", || made(window(330), OWN), &[Refusal(28, 4)]),
    // The far end counts as it is listed, not as it is.
    marked("from a listed distance", || made(detour(), &[(1, 0, SEED), (2, 30, 1), (0, 50, 4), (3, 60, 0)]), &[Refusal(28, 2)]),
    // Waits are part of what is offered.
    marked("a wait", || made(waiting(), OWN), &[Refusal(27, 3)]),
    marked("a wait leads beyond D", || made(waiting(), &[(1, 500, SEED), (0, 1500, SEED), (3, 2400, 6)]), RIGHT),
    // Rides of no minutes.
    marked("two rides, each for the other", || made(circle(), &[(4, 0, SEED), (0, 40, SEED), (1, 30, 2), (2, 30, 1)]), &[Refusal(27, 2)]),
    marked("a chain at one moment", || made(circle(), &[(4, 0, SEED), (3, 30, 3), (0, 40, SEED)]), RIGHT),
    // The order of the refusals.
    marked("a cut list, a broken walk", || cut(broken()), &[Refusal(1, 4)]),
    marked("a broken walk, a bad entry", || made(broken(), &[(5, 0, 0)]), &[Refusal(2, 0)]),
    marked("speed 101, a bad entry", || made(too_fast(), &[(5, 0, 0)]), &[Refusal(7, 4)]),
];

fn made(scene: Scene, list: Entries) -> Case {
    let entry = |&(vertex, distance, record): &(u32, u32, u32)| Listed {
        vertex,
        distance,
        record,
    };
    scene.judge_case(&list.iter().map(entry).collect::<Vec<_>>())
}

fn cut(scene: Scene) -> Case {
    let mut case = made(scene, OWN);
    case.list.pop();
    case
}

fn broken() -> Scene {
    let mut scene = base();
    scene.network.walks[0].length = 0;
    scene
}

fn too_fast() -> Scene {
    let mut scene = base();
    scene.query.speed = 101;
    scene
}

/// One second of waiting on the walk from 2 to 1.
fn waiting() -> Scene {
    let mut scene = base();
    scene.network.walks[2].wait = 1;
    scene
}

fn asked(plan: &Plan, record: u32, offset: u32) -> Scene {
    Scene {
        network: plan.build(),
        query: Query {
            record,
            offset,
            arrival: 1_000,
            duration: 10,
            speed: 10,
        },
    }
}

/// The place is vertex 1, where walk 3 from 4 ends. From 0 one gets there by 2
/// (walks 4 and 1) in 50 and straight (walk 2) in 40, from 3 by 0 (walk 0) in 10
/// more; D is 100.
fn detour() -> Scene {
    let mut plan = Plan {
        vertices: 5,
        ..Plan::default()
    };
    plan.one_way(3, 0, 10);
    plan.one_way(2, 1, 30);
    plan.one_way(0, 1, 40);
    plan.one_way(4, 1, 1_000);
    plan.one_way(0, 2, 20);
    asked(&plan, 3, 1_000)
}

/// The place is vertex 4, where walk 0 from 0 ends. 1 and 2 ride to each other at
/// 997 (records 2 and 1), and nowhere else; 3 rides to 4 then (record 3).
fn circle() -> Scene {
    let mut plan = Plan {
        vertices: 5,
        ..Plan::default()
    };
    plan.one_way(0, 4, 40);
    for (from, to) in [(1, 2), (2, 1), (3, 4)] {
        plan.hop(from, to, 997, 997);
    }
    asked(&plan, 0, 40)
}

#[cfg(test)]
mod tests {
    use super::ALL;
    use crate::mutant::Mutant::{self, *};

    /// Wrong versions that these rows alone have to tell.
    const WRONG: &[Mutant] = &[
        BoughtCut,
        BoughtByEntry,
        BoughtEarlier,
        BoughtDistanceTight,
        BoughtReasonFirst,
        BoughtLater,
        BoughtTrue,
        BoughtTrueOffers,
        BoughtAnyFrom,
        BoughtOfferLess,
        BoughtSeedAnyVertex,
        BoughtSeedAnyDistance,
        BoughtNoReason,
        BoughtHopsFirst,
        BoughtLastFree,
        BoughtWaitFree,
        BoughtStrictArrival,
        BoughtTight,
        BoughtUnlisted,
        BoughtEqual,
        BoughtLess,
        BoughtEmpty,
        BoughtSeedsLate,
        BoughtSeedsSwapped,
        BoughtHopPlace,
        BoughtOffersFirst,
    ];

    #[test]
    fn the_rows_tell_wrong_versions() {
        for &mutant in WRONG {
            let caught = ALL.iter().any(|marked| {
                let case = (marked.make)();
                !marked.fits(&case, &case.fast(mutant))
            });
            assert!(caught, "{mutant:?}");
        }
    }
}
