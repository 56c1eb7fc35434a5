//! Evenings: arrivals one after the other with counts of patients, room exact and
//! one less for the first arrival and for later ones, and each limit at its last
//! good and first bad value.

use super::damage::several;
use super::many;
use crate::mutant::Sound;
use crate::network::Scene;
use crate::outcome::Case;
use crate::records::{Answer, HELD, SETTLED};
use crate::rng::Rng;

/// The cases of one of the two groups about evenings.
pub fn varied(turn: u64, scene: &Scene, rng: &mut Rng) -> Vec<Case> {
    match turn {
        0 => rooms(scene, rng),
        _ => [limits(scene, rng), lengths(scene, rng), faults(scene, rng)].concat(),
    }
}

/// A count for each vertex: few, many, none, and the most.
fn counts(scene: &Scene, rng: &mut Rng) -> Vec<u32> {
    let one = |_| match rng.below(4) {
        0 => 0,
        1 => 65_535,
        2 => rng.below(10) as u32,
        _ => rng.below(65_536) as u32,
    };
    (0..scene.network.vertices.len()).map(one).collect()
}

/// Some evening, whatever the tables are. Arrivals lie before that of the scene
/// and behind it, so that rides fall out of reach and into it.
pub fn some_case(scene: &Scene, rng: &mut Rng) -> Case {
    let mut scene = scene.clone();
    let gap = match rng.below(4) {
        0 | 1 => rng.range(1, 6),
        2 => rng.range(7, 120),
        _ => rng.range(121, 3_600),
    } as i32;
    let arrivals = rng.range(1, 5) as i32;
    let before = gap.saturating_mul(rng.below(arrivals as usize) as i32);
    let arrival = scene.query.arrival.saturating_sub(before);
    scene.query.arrival = arrival.clamp(0, 172_800 - gap * (arrivals - 1));
    let counts = counts(&scene, rng);
    scene.patients_case(gap as u32, arrivals as u32, &counts)
}

/// The runs of an evening one by one, in room for all.
fn single(scene: &Scene, case: &Case) -> Vec<Scene> {
    let at = |index: u32| {
        let mut scene = scene.clone();
        scene.query = case.query;
        scene.query.arrival += (case.gap * index) as i32;
        scene
    };
    (0..case.arrivals).map(at).collect()
}

/// The most that one run holds after any step, and what it settles.
fn need(scene: &Scene) -> [usize; 2] {
    let answer = |limit| Answer::read(&scene.run_case(limit).fast(Sound).answer);
    let settled = answer(u32::MAX).settled;
    let held = (0..=settled).map(|k| answer(k).held).max();
    [held.unwrap_or(0) as usize, settled as usize]
}

/// The same network with all rides some seconds later, so that later arrivals
/// have more of them.
fn later_rides(scene: &Scene, rng: &mut Rng) -> Scene {
    let mut scene = scene.clone();
    let more = rng.range(1, 12) as i32;
    if scene
        .network
        .hops
        .iter()
        .all(|hop| hop.arrival + more <= 172_800)
    {
        for hop in &mut scene.network.hops {
            hop.departure += more;
            hop.arrival += more;
        }
    }
    scene
}

/// An evening and what each of its runs needs: one of which a later arrival needs
/// more than the first, if such a one is soon found.
fn growing(scene: &Scene, rng: &mut Rng) -> (Case, Vec<[usize; 2]>) {
    let mut tries = 0;
    loop {
        let case = some_case(scene, rng);
        let needs: Vec<[usize; 2]> = single(scene, &case).iter().map(need).collect();
        let more = |need: &[usize; 2]| need[0] > needs[0][0] || need[1] > needs[0][1];
        tries += 1;
        if tries == 12 || needs.iter().any(more) {
            return (case, needs);
        }
    }
}

/// Room exact for all arrivals, one less, none, and what the first needs: then
/// a later one may lack it; and any room below that.
fn rooms(scene: &Scene, rng: &mut Rng) -> Vec<Case> {
    if scene.network.walks.is_empty() {
        return vec![some_case(scene, rng)];
    }
    let mut cases = Vec::new();
    for _ in 0..3 {
        let scene = &later_rides(scene, rng);
        let (whole, needs) = growing(scene, rng);
        let most = |i: usize| needs.iter().map(|need| need[i]).max().unwrap_or(0);
        let (all, first) = ([most(0), most(1)], needs[0]);
        cases.push(whole.clone());
        let less = |need: [usize; 2]| need.map(|n| n.saturating_sub(1));
        let rooms = [
            all,
            [less(all)[0], all[1]],
            [all[0], less(all)[1]],
            [first[0], all[1]],
            [all[0], first[1]],
            first,
            [less(first)[0], all[1]],
            [all[0], less(first)[1]],
            [0, all[1]],
            [all[0], 0],
        ];
        let any = all.map(|n| rng.below(n + 1));
        for room in rooms.into_iter().chain([any, [any[0], all[1]]]) {
            cases.push(Case {
                held: vec![0; room[0] * HELD],
                settled: vec![0; room[1] * SETTLED],
                ..whole.clone()
            });
        }
    }
    cases
}

/// The same evening with other hours; the report keeps its size.
fn hours(scene: &Scene, arrival: i32, gap: u32, arrivals: u32, rng: &mut Rng) -> Case {
    let mut scene = scene.clone();
    scene.query.arrival = arrival;
    let sized = arrivals.min(200);
    Case {
        arrivals,
        ..scene.patients_case(gap, sized, &counts(&scene, rng))
    }
}

/// Patients, gap, number of arrivals and the last of them at their limits and
/// beyond; several of these at once.
fn limits(scene: &Scene, rng: &mut Rng) -> Vec<Case> {
    let mut cases = Vec::new();
    let arrival = scene.query.arrival;
    for gap in [0, 1, 3_600, 3_601, 0x8000_0000, u32::MAX] {
        cases.push(hours(scene, arrival.min(100_000), gap, 2, rng));
    }
    for arrivals in [0, 1, 97, 128] {
        cases.push(hours(scene, arrival.min(100_000), 1, arrivals, rng));
    }
    let (gap, arrivals) = (rng.range(1, 3_600) as i32, rng.range(2, 4) as i32);
    for late in [-1, 0, 1, 2] {
        let first = 172_800 + late - gap * (arrivals - 1);
        cases.push(hours(scene, first, gap as u32, arrivals as u32, rng));
    }
    let vertices = scene.network.vertices.len();
    for place in [0, vertices - 1, rng.below(vertices)] {
        for count in [65_536, u32::MAX, 0x1_0000 + rng.below(9) as u32, 65_535] {
            let mut case = some_case(scene, rng);
            case.patients[4 * place..][..4].copy_from_slice(&count.to_be_bytes());
            cases.push(case);
        }
    }
    for _ in 0..5 {
        let mut case = some_case(scene, rng);
        many::spoil(scene, &mut case.query, rng);
        cases.push(case);
    }
    // Two reasons at once.
    for _ in 0..6 {
        let gap = rng.pick(&[0, 1, 3_601]);
        let arrivals = rng.pick(&[0, 2, 97]);
        let first = rng.pick(&[0, 172_799, 172_800, -1]);
        let mut case = hours(scene, first, gap, arrivals, rng);
        if rng.chance(50) {
            case.patients[1] = 1;
        }
        if rng.chance(20) {
            case.query.speed = 0;
        }
        cases.push(case);
    }
    cases
}

/// Reports and patient tables of other lengths, answers too; numbers of arrivals
/// with which a size in 32 bits would be right again.
fn lengths(scene: &Scene, rng: &mut Rng) -> Vec<Case> {
    let whole = some_case(scene, rng);
    let vertices = scene.network.vertices.len() as u32;
    let mut cases = Vec::new();
    for more in [-4, -1, 1, 3, 4, 8] {
        let mut report = whole.clone();
        let len = (report.report.len() as i64 + more).max(0);
        report.report.resize(len as usize, 0);
        let mut table = whole.clone();
        let len = (table.patients.len() as i64 + more).max(0);
        table.patients.resize(len as usize, 0);
        // Both at once.
        let both = Case {
            patients: table.patients.clone(),
            ..report.clone()
        };
        cases.extend([report, table, both]);
    }
    for arrivals in [u32::MAX, u32::MAX - 1, 0x4000_0000, 0xc000_0001, 97] {
        let figures = vertices.wrapping_add(arrivals).wrapping_add(1);
        let mut case = whole.clone();
        case.arrivals = arrivals;
        case.report = vec![0; figures.wrapping_mul(4) as usize % 4_096];
        cases.push(case);
    }
    for len in [0, 12, 23, 25, 48] {
        let mut case = whole.clone();
        case.answer = vec![0; len];
        cases.push(case);
    }
    for slice in [3, 4] {
        let mut case = whole.clone();
        super::groups::off_length(&mut case, slice, rng);
        cases.push(case);
    }
    cases.retain(|_| rng.chance(60));
    cases
}

/// Damaged tables and queries: 1 to 7 come before 19 and 20.
fn faults(scene: &Scene, rng: &mut Rng) -> Vec<Case> {
    let harmed = |_| {
        let mut scene = scene.clone();
        several(&mut scene.network, rng);
        let mut case = some_case(&scene, rng);
        match rng.below(6) {
            0 => case.hop_size = rng.pick(&super::trips::WRONG_SIZES),
            1 => case.query.duration = rng.pick(&[0, 86_401]),
            2 => case.gap = 0,
            3 if !case.patients.is_empty() => case.patients[0] = 1,
            4 => case.vertices.clear(),
            _ => {}
        }
        case
    };
    (0..5).map(harmed).collect()
}
