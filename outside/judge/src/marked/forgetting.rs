//! Forgotten vertices over the base job, worked out by hand: hopeless at once,
//! later, by several records, with none, as a seed, and nearly.

use super::Wanted::{self, Finished, Order, Refusal};
use super::{base, held_in, lent, marked, ride, walk, window, Marked};
use crate::network::Scene;
use crate::outcome::Case;
use crate::records::NONE;

pub const ALL: &[Marked] = &[
    marked(
        "M5, step limit 1: 2 is above D",
        || lent(window(299), 1),
        &[Wanted::Held(&[
            (0, 1500, 0, 0),
            (1, 500, 1, 2),
            (3, 2400, 0, 1),
        ])],
    ),
    marked(
        "M5, held room 3",
        || held_in(window(299), NONE, 3),
        &[
            Order(&[1, 0, 3]),
            Wanted::Held(&[(1, 500, 1, 1), (3, 2400, 1, 1)]),
            Finished(1),
        ],
    ),
    marked(
        "M5, two walks from 2 to 1, held room 3",
        || held_in(with_walk(window(299), 3, (2, 1, 2600)), 1, 3),
        &[Wanted::Held(&[
            (0, 1500, 0, 0),
            (1, 500, 1, 2),
            (3, 2400, 0, 1),
        ])],
    ),
    marked(
        "M5, held room 2",
        || held_in(window(299), NONE, 2),
        &[Refusal(8, 1)],
    ),
    marked(
        "M6, 35951, to the end: none, but a record remains",
        || lent(ride(35_760, 35_951), NONE),
        &[
            Order(&[1, 0, 2]),
            Wanted::Held(&[(3, NONE, 0, 1)]),
            Finished(1),
        ],
    ),
    marked("none, and no record remains, room 3", || late(3), LATE),
    marked("none, room 2", || late(2), &[Refusal(8, 1)]),
    marked(
        "two records above D in one step",
        || lent(second_walk(3, 700), 3),
        &[Wanted::Held(&[
            (1, 500, 1, 1),
            (2, 3000, 0, 0),
            (3, 2400, 1, 1),
        ])],
    ),
    marked(
        "the second record a tick above D",
        || lent(second_walk(3, 601), 3),
        &[Wanted::Held(&[
            (1, 500, 1, 1),
            (2, 3000, 0, 0),
            (3, 2400, 1, 1),
        ])],
    ),
    marked(
        "the second record exactly at D",
        || lent(second_walk(3, 600), 3),
        &[Wanted::Held(&[
            (1, 500, 1, 1),
            (2, 3000, 0, 0),
            (3, 2400, 1, 1),
            (4, 3000, 0, 0),
        ])],
    ),
    marked(
        "exactly at D, to the end",
        || lent(second_walk(3, 600), NONE),
        &[Order(&[1, 0, 3, 2, 4]), Wanted::Held(&[]), Finished(1)],
    ),
    marked(
        "above D, and a record to 2 remains",
        || lent(second_walk(2, 500), 3),
        &[Wanted::Held(&[
            (1, 500, 1, 1),
            (2, 3000, 0, 0),
            (3, 2400, 1, 1),
            (4, 3300, 0, 1),
        ])],
    ),
    marked(
        "it is forgotten when 2 is settled",
        || lent(second_walk(2, 500), NONE),
        &[
            Order(&[1, 0, 3, 2]),
            Wanted::Held(&[(3, 2400, 1, 1)]),
            Finished(1),
        ],
    ),
    marked(
        "a seed above D is held at first",
        || lent(far_seed(), 0),
        &[Wanted::Held(&[(1, 0, 0, 2), (2, 2500, 0, 1)])],
    ),
    marked(
        "and forgotten, room 2",
        || held_in(far_seed(), NONE, 2),
        &[
            Wanted::Settled(&[(1, 0)]),
            Wanted::Held(&[(1, 0, 1, 2), (3, 2400, 0, 1)]),
            Finished(1),
        ],
    ),
    marked(
        "two seeds in room 1",
        || held_in(far_seed(), NONE, 1),
        &[Refusal(8, 0)],
    ),
];

const LATE: &[Wanted] = &[Wanted::Held(&[
    (0, 1500, 0, 0),
    (1, 500, 1, 2),
    (2, 3000, 0, 0),
])];

/// Vertex 3 with a hop that is too late and nothing else, after one step.
fn late(slots: usize) -> Case {
    let mut scene = ride(35_760, 35_951);
    scene.network.walks.truncate(4);
    scene.network.count(5);
    held_in(scene, 1, slots)
}

/// One more walk, without a twin, at this place of the walk table.
fn with_walk(mut scene: Scene, at: u32, (from, to, length): (u32, u32, u32)) -> Scene {
    let walks = &mut scene.network.walks;
    for walk in walks.iter_mut().filter(|walk| walk.twin != NONE) {
        walk.twin += u32::from(walk.twin >= at);
    }
    walks.insert(at as usize, walk((from, to, length, NONE)));
    scene.network.count(5);
    scene
}

/// Besides its walk of 900 to 3, vertex 4 has another one.
fn second_walk(to: u32, length: u32) -> Scene {
    with_walk(base(), to + 2, (4, to, length))
}

/// The place is vertex 1, at the end of the road from 2, and D is 1000.
fn far_seed() -> Scene {
    let mut scene = window(100);
    scene.query.record = 2;
    scene.query.offset = 2_500;
    scene
}
