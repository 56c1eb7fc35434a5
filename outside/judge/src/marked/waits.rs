//! Waits of walks over the base job, where D is 3,000 and a second has ten
//! ticks: what RULES 3.8, 4.2, 6.2, 8.3, 8.4, 10.2 and 10.3 say, worked out by
//! hand. Walk 1 is e, from 0 to 1; its twin is walk 0.

use super::Wanted::{self, Finished, Held, Parts, PartsOn, PartsRefusal, Refusal, Settled};
use super::{base, lent, listed, marked, one_way, Marked, BASE, BASE_SETTLED};
use crate::network::Scene;
use crate::outcome::Case;
use crate::records::NONE;

#[rustfmt::skip] // a row a line
pub const ALL: &[Marked] = &[
    // The byte: 0 to 120, with any length, and for each twin its own.
    marked("120 seconds", || checked(&[(2, 120)], None), GOOD),
    marked("121 seconds", || checked(&[(2, 121)], None), &[Refusal(2, 2)]),
    marked("128 seconds", || checked(&[(2, 128)], None), &[Refusal(2, 2)]),
    marked("255 seconds", || checked(&[(2, 255)], None), &[Refusal(2, 2)]),
    marked("twins that wait 120 and 0", || checked(&[(4, 120), (5, 0)], None), GOOD),
    marked("twins that wait 7 and 8", || checked(&[(0, 7), (1, 8)], None), GOOD),
    marked("a wait and no length", || pointless().network.check_case(), &[Refusal(2, 4)]),
    marked("a wait and 100,001", || checked(&[(2, 120)], Some((2, 100_001))), &[Refusal(2, 2)]),
    marked("a wait, and the twin's length differs", || checked(&[(3, 1)], Some((3, 2_499))), &[Refusal(2, 2)]),
    marked("121 seconds, run", || waiting(&[(5, 121)], NONE), &[Refusal(2, 5)]),
    marked("121 seconds, parts", || listed(waits(&[(5, 121)]), BASE_SETTLED, 8), &[PartsRefusal(2, 5)]),
    // Offers: without waits 2 has 3,000, which is D, and 4 has 3,300.
    marked("2 waits a second", || waiting(&[(2, 1)], NONE), &[Settled(WITHOUT_2), Finished(1), PartsOn(2, &[(10, 2500)])]),
    marked("2 waits a second, in 400", || within(&[(2, 1)], 400), &[Settled(&[(1, 500), (0, 1500), (3, 2400), (2, 3010), (4, 3300)])]),
    marked("4 waits two minutes", || waiting(&[(4, 120)], NONE), &[Settled(BASE_SETTLED), PartsOn(4, &[])]),
    marked("4 waits two minutes, in 500", || within(&[(4, 120)], 500), &[Settled(&[(1, 500), (0, 1500), (3, 2400), (2, 3000), (4, 4500)])]),
    // Inside the road the place is before the lights, whatever they are.
    marked("lights at both ends, place between", || waiting(&[(0, 120), (1, 120)], 0), &[Held(&[(0, 1500, 0, 1), (1, 500, 0, 2)])]),
    // Walk 0 waits 1,200 ticks at 0, where 1,210 are left, 1,200 and 1,190.
    marked("a second beyond the wait", || within(&[(0, 120)], 271), &[PartsOn(0, &[(0, 500), (1990, 2000)])]),
    marked("no second beyond the wait", || within(&[(0, 120)], 270), &[PartsOn(0, &[(0, 500)])]),
    marked("a second less than the wait", || within(&[(0, 120)], 269), &[PartsOn(0, &[(0, 500)])]),
    // A list has any distance: what is left beyond the wait is 1, 0 and -1 tick.
    marked("a tick beyond the wait", || listed(waits(&[(4, 60)]), &[(3, 2399)], 3), &[Parts(&[(1, 0, 1500), (0, 0, 500), (4, 899, 900)])]),
    marked("just the wait", || listed(waits(&[(4, 60)]), &[(3, 2400)], 3), &[Parts(STEP_0)]),
    marked("a tick less than the wait", || listed(waits(&[(4, 60)]), &[(3, 2401)], 3), &[Parts(STEP_0)]),
    marked("the wait and the whole walk", || listed(waits(&[(4, 60)]), &[(3, 1500)], 3), &[Parts(&[(1, 0, 1500), (0, 0, 500), (4, 0, 900)])]),
    marked("a tick less than the whole walk", || listed(waits(&[(4, 60)]), &[(3, 1501)], 3), &[Parts(&[(1, 0, 1500), (0, 0, 500), (4, 1, 900)])]),
    // The step from offset length - 1 to length: one tick and the wait of e, for 0 and for step 0.
    marked("just before the lights", || placed(1_999, &[(1, 30), (0, 7)], 0), &[Held(&[(0, 1999, 0, 1), (1, 1, 0, 2)])]),
    marked("past the lights", || placed(2_000, &[(1, 30), (0, 7)], 0), &[Held(&[(0, 2300, 0, 1), (1, 0, 0, 2)])]),
    marked("just before, step 0", || first(1_999, &[(1, 30), (0, 7)], 200), &[Parts(&[(1, 0, 1999), (0, 0, 1)])]),
    marked("past, step 0", || first(2_000, &[(1, 30), (0, 7)], 200), &[Parts(&[(1, 300, 2000)])]),
    marked("past, the time is the wait", || first(2_000, &[(1, 30)], 30), &[Parts(&[])]),
    marked("past, a second more", || first(2_000, &[(1, 30)], 31), &[Parts(&[(1, 1990, 2000)])]),
    marked("past, a second less", || first(2_000, &[(1, 30)], 29), &[Parts(&[])]),
    // At offset 0 the twin's lights count, and never those of e.
    marked("offset 0", || placed(0, &[(1, 30), (0, 7)], 0), &[Held(&[(0, 0, 0, 1), (1, 2070, 0, 2)])]),
    marked("offset 1", || placed(1, &[(1, 30), (0, 7)], 0), &[Held(&[(0, 1, 0, 1), (1, 1999, 0, 2)])]),
    marked("offset 0, step 0", || first(0, &[(1, 30), (0, 7)], 200), &[Parts(&[(0, 70, 2000)])]),
    marked("offset 1, step 0", || first(1, &[(1, 30), (0, 7)], 200), &[Parts(&[(1, 0, 1), (0, 0, 1999)])]),
    marked("offset 0, the time is the wait", || first(0, &[(0, 7)], 7), &[Parts(&[])]),
    // A road for one way: past its lights "to" is there, "from" waits.
    marked("one way, past the lights", || alone_at(900), &[Held(&[(3, 1100, 0, 2), (4, 0, 0, 1)])]),
    marked("one way, just before", || alone_at(899), &[Held(&[(3, 899, 0, 2)])]),
    marked("one way, beyond", || alone_at(901), &[Refusal(7, 1)]),
    // The speed: a wait of 120 seconds at 1 and at 100 ticks a second.
    marked("speed 1", || fast(1), &[Held(&[(0, 2120, 0, 1), (1, 0, 0, 2)])]),
    marked("speed 100", || fast(100), &[Held(&[(0, 14000, 0, 1), (1, 0, 0, 2)])]),
    // Without waits the job is the base job.
    marked("waits of 0", || waiting(&[(0, 0), (1, 0)], NONE), BASE),
];

const GOOD: &[Wanted] = &[Refusal(0, 0)];

const WITHOUT_2: &[(u32, u32)] = &[(1, 500), (0, 1500), (3, 2400)];

const STEP_0: &[(u32, u32, u32)] = &[(1, 0, 1500), (0, 0, 500)];

/// The base job with these waits of these walks.
fn waits(rows: &[(usize, u32)]) -> Scene {
    waiting_on(base(), rows)
}

fn waiting_on(mut scene: Scene, rows: &[(usize, u32)]) -> Scene {
    for &(walk, wait) in rows {
        scene.network.walks[walk].wait = wait;
    }
    scene
}

/// The check, one walk perhaps with another length.
fn checked(rows: &[(usize, u32)], length: Option<(usize, u32)>) -> Case {
    let mut scene = waits(rows);
    if let Some((walk, length)) = length {
        scene.network.walks[walk].length = length;
    }
    scene.network.check_case()
}

fn waiting(rows: &[(usize, u32)], limit: u32) -> Case {
    lent(waits(rows), limit)
}

fn within(rows: &[(usize, u32)], duration: u32) -> Case {
    let mut scene = waits(rows);
    scene.query.duration = duration;
    lent(scene, NONE)
}

/// Walk 4, without a twin, is nothing but a wait.
fn pointless() -> Scene {
    let mut scene = waiting_on(one_way(0), &[(4, 120)]);
    scene.network.walks[4].length = 0;
    scene
}

fn placed(offset: u32, rows: &[(usize, u32)], limit: u32) -> Case {
    let mut scene = waits(rows);
    scene.query.offset = offset;
    lent(scene, limit)
}

/// The parts of step 0 alone.
fn first(offset: u32, rows: &[(usize, u32)], duration: u32) -> Case {
    let mut scene = waits(rows);
    scene.query.offset = offset;
    scene.query.duration = duration;
    listed(scene, &[], 3)
}

/// The query on walk 5, which has no twin and waits 20 seconds.
fn alone_at(offset: u32) -> Case {
    lent(waiting_on(one_way(offset), &[(5, 20)]), 0)
}

/// Past lights of two minutes at this speed.
fn fast(speed: u32) -> Case {
    let mut scene = waits(&[(1, 120), (0, 1)]);
    scene.query.offset = 2_000;
    scene.query.speed = speed;
    lent(scene, 0)
}

#[cfg(test)]
mod tests {
    use super::ALL;
    use crate::mutant::Mutant::{self, *};

    /// Wrong versions that these rows alone have to tell: all that are about
    /// waits.
    const WRONG: &[Mutant] = &[
        WaitLoose,
        WaitTight,
        WaitSigned,
        WaitNever,
        LengthZeroWait,
        TwinWaits,
        OffsetWide,
        WaitFree,
        WaitPlain,
        WaitAtFrom,
        SeedEndFree,
        SeedStartFree,
        SeedInnerWait,
        SeedWaitPlain,
        TwinOwnWait,
        OwnTwinWait,
        PartWaitFree,
        PartWaitTwice,
        PartWaitPlain,
        PartWaitAll,
        FirstWaitFree,
        FirstWaitTwinFree,
        FirstWaitAlways,
    ];

    #[test]
    fn the_rows_tell_wrong_versions() {
        for &mutant in WRONG {
            let caught = ALL.iter().any(|marked| {
                let case = (marked.make)();
                !marked.fits(&case, &case.fast(mutant))
            });
            assert!(caught, "{mutant:?}");
        }
    }
}
