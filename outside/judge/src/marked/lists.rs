//! The parts of lists over the base job, where D is 3,000: what RULES 10.6,
//! 10.7 and 12.14 to 12.17 say of each, worked out by hand.

use super::Wanted::{self, Parts, PartsRefusal};
use super::{base, listed, marked, Marked, BASE_PARTS, BASE_SETTLED};
use crate::network::Scene;
use crate::outcome::Case;
use crate::records::NONE;

type Entries = &'static [(u32, u32)];

#[rustfmt::skip] // a row a line
pub const ALL: &[Marked] = &[
    // Any list: none, a part of the run's, another order, distances of no run.
    marked("no entry", || made(&[], 2), &[Parts(STEP_0)]),
    marked("backwards", || made(BACKWARDS, 6), &[Parts(PARTS_BACK)]),
    marked("two of four", || made(&[(3, 2400), (0, 1500)], 4), TWO),
    marked("at D, and just within", || made(&[(4, 3000), (3, 2999)], 3), &[Parts(NEAR_D)]),
    // Behind a list stand the zeros of its buffer.
    marked("one zero record", || made(&[(1, 500), (0, 0)], 5), &[Parts(ONE_ZERO)]),
    marked("two zero records", || made(&[(1, 500), (0, 0), (0, 0)], 9), BAD_2),
    marked("zeros behind vertex 0", || made(&[(1, 500), (0, 1500), (0, 0)], 9), BAD_2),
    // An entry that is bad; of several the first, for whatever reason.
    marked("a distance of D and 1", || made(&[(4, 3001)], 9), BAD_0),
    marked("a distance of none", || made(&[(4, NONE)], 9), BAD_0),
    marked("no such vertex", || made(&[(5, 0)], 9), BAD_0),
    marked("65,536 beyond a vertex", || made(&[(65_537, 500)], 9), BAD_0),
    marked("a repeat", || made(&[(1, 500), (0, 1500), (1, 500)], 9), BAD_2),
    marked("a repeat elsewhere", || made(&[(1, 500), (0, 1500), (1, 0)], 9), BAD_2),
    marked("three of one vertex", || made(&[(0, 0), (1, 0), (1, 0), (1, 0)], 9), BAD_2),
    marked("a vertex before a repeat", || made(&[(1, 0), (5, 0), (1, 0)], 9), BAD_1),
    marked("a distance before a vertex", || made(&[(1, 0), (2, 3001), (5, 0)], 9), BAD_1),
    marked("a repeat before a distance", || made(&[(1, 0), (1, 0), (2, 3001)], 9), BAD_1),
    // Room exact, and one less, behind step 0 and behind each entry.
    marked("step 0, one less", || made(&[], 1), FULL_0),
    marked("no room at all", || made(BASE_SETTLED, 0), FULL_0),
    marked("entry 0, step 0 fits", || made(BASE_SETTLED, 2), FULL_1),
    marked("entry 0, one less", || made(&BASE_SETTLED[..1], 3), FULL_1),
    marked("entry 0, exact", || made(&BASE_SETTLED[..1], 4), &[Parts(BASE_PARTS.split_at(4).0)]),
    marked("entry 1, one less", || made(&BASE_SETTLED[..2], 4), FULL_2),
    marked("entry 1, exact", || made(&BASE_SETTLED[..2], 5), &[Parts(BASE_PARTS.split_at(5).0)]),
    marked("entry 2, one less", || made(&BASE_SETTLED[..3], 5), &[PartsRefusal(10, 3)]),
    marked("entry 2, exact", || made(&BASE_SETTLED[..3], 6), &[Parts(BASE_PARTS)]),
    marked("entry 3 gives none", || made(BASE_SETTLED, 6), &[Parts(BASE_PARTS)]),
    // The order of the refusals.
    marked("a bad entry without room", || made(&[(1, 500), (1, 500)], 0), BAD_1),
    marked("cut vertices, cut list", || cut(base(), [1, 1, 1]), &[PartsRefusal(1, 0)]),
    marked("cut list, cut parts", || cut(walk_broken(), [0, 1, 1]), &[PartsRefusal(1, 4)]),
    marked("cut parts, a broken walk", || cut(walk_broken(), [0, 0, 1]), &[PartsRefusal(1, 5)]),
    marked("a broken walk, a bad entry", || listed(walk_broken(), BAD, 9), &[PartsRefusal(2, 0)]),
    marked("a broken vertex, a bad entry", || listed(vertex_broken(), BAD, 9), &[PartsRefusal(6, 4)]),
    marked("speed 101, a bad entry", || listed(too_fast(), BAD, 9), &[PartsRefusal(7, 4)]),
];

const STEP_0: &[(u32, u32, u32)] = BASE_PARTS.split_at(2).0;

const TWO: &[Wanted] = &[Parts(&[
    (1, 0, 1500),
    (0, 0, 500),
    (4, 300, 900),
    (0, 500, 2000),
])];

const NEAR_D: &[(u32, u32, u32)] = &[(1, 0, 1500), (0, 0, 500), (4, 899, 900)];

const ONE_ZERO: &[(u32, u32, u32)] = &[
    (1, 0, 1500),
    (0, 0, 500),
    (1, 1500, 2000),
    (2, 0, 2500),
    (0, 500, 2000),
];

const BACKWARDS: Entries = &[(2, 3000), (3, 2400), (0, 1500), (1, 500)];

const PARTS_BACK: &[(u32, u32, u32)] = &[
    (1, 0, 1500),
    (0, 0, 500),
    (4, 300, 900),
    (0, 500, 2000),
    (1, 1500, 2000),
    (2, 0, 2500),
];

const BAD: Entries = &[(5, 0)];
const BAD_0: &[Wanted] = &[PartsRefusal(21, 0)];
const BAD_1: &[Wanted] = &[PartsRefusal(21, 1)];
const BAD_2: &[Wanted] = &[PartsRefusal(21, 2)];
const FULL_0: &[Wanted] = &[PartsRefusal(10, 0)];
const FULL_1: &[Wanted] = &[PartsRefusal(10, 1)];
const FULL_2: &[Wanted] = &[PartsRefusal(10, 2)];

fn made(list: Entries, slots: usize) -> Case {
    listed(base(), list, slots)
}

fn walk_broken() -> Scene {
    let mut scene = base();
    scene.network.walks[0].length = 0;
    scene
}

fn vertex_broken() -> Scene {
    let mut scene = base();
    scene.network.vertices[4].departing = 0;
    scene
}

fn too_fast() -> Scene {
    let mut scene = base();
    scene.query.speed = 101;
    scene
}

/// Vertices, list and part buffer with so many bytes less than whole records.
fn cut(scene: Scene, less: [usize; 3]) -> Case {
    let mut case = listed(scene, BAD, 2);
    let slices = [&mut case.vertices, &mut case.list, &mut case.parts];
    for (slice, less) in slices.into_iter().zip(less) {
        slice.truncate(slice.len() - less);
    }
    case
}

#[cfg(test)]
mod tests {
    use super::ALL;
    use crate::mutant::Mutant::{self, *};

    /// Wrong versions of the parts operation that these rows alone have to tell.
    const WRONG: &[Mutant] = &[
        PartsNoStart,
        PartsStartFirst,
        PartsStepOff,
        PartsLackEnd,
        PartsKept,
        PartsCounts,
        PartRoomTight,
        PartRoomLoose,
        ListCut,
        ListTail,
        ListLast,
        ListEarlier,
        ListPlaceOff,
        ListRepeats,
        ListRepeatNext,
        ListRepeatSame,
        ListByCause,
        ListVertexLoose,
        ListVertexWraps,
        ListDistance,
        ListDistanceTight,
        ListDistanceFloor,
        ListSorted,
        ListTrue,
        ListTrueDistance,
        ListByDistance,
        ListAfterRoom,
        ListZeroes,
    ];

    #[test]
    fn the_rows_tell_wrong_versions() {
        for &mutant in WRONG {
            let caught = ALL.iter().any(|marked| {
                let case = (marked.make)();
                !marked.fits(&case, &case.fast(mutant))
            });
            assert!(caught, "{mutant:?}");
        }
    }
}
