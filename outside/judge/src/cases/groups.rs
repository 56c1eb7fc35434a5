//! Groups of calls: one network each, varied in one respect.

use std::collections::BTreeSet;

use super::damage::{any, several, sweep};
use super::{bought, hopeless, lists, many, patients, small, trips};
use crate::mutant::Sound;
use crate::network::Scene;
use crate::outcome::{Call, Case};
use crate::records::{apart, word, Answer, PartsAnswer, HELD, HOP, PART, SETTLED};
use crate::rng::Rng;

/// The cases of one group; the kind of group follows from its number.
pub fn group(seed: u64, index: u64) -> Vec<Case> {
    let mut rng = Rng::new(seed, index);
    let rng = &mut rng;
    let cases = if index % 80 == 79 {
        few(&small::town(rng), rng)
    } else if index % 240 == 119 {
        let scene = small::scene(rng);
        few(&small::spread(scene, rng), rng)
    } else if index % 240 == 199 {
        let scene = hopeless::scene(rng);
        few(&small::spread(scene, rng), rng)
    } else if forgets(index) {
        varied(index, &hopeless::scene(rng), rng)
    } else {
        varied(index, &small::scene(rng), rng)
    };
    cases.into_iter().map(|case| dress(case, rng)).collect()
}

/// Whether the group has a network with hopeless vertices: every other one of
/// those about room, and some of those about limits.
fn forgets(index: u64) -> bool {
    (2..8).contains(&(index % TURNS)) && index / TURNS % 2 == 1
}

/// How many kinds of groups follow one another.
pub const TURNS: u64 = 33;

/// Twelve groups about the run and its pair, twelve about lists, one about the
/// size of a hop, one about the moves, three about bought lists, two about many
/// queries and two about evenings.
fn varied(index: u64, scene: &Scene, rng: &mut Rng) -> Vec<Case> {
    match index % TURNS {
        0..=3 => limits(scene, rng),
        4..=6 => rooms(scene, rng),
        7 => every_room(scene),
        8 => each_place(scene, rng),
        9 => sweep(&one_of_all(scene, rng), rng),
        10 => several_faults(scene, rng),
        11 if index % (2 * TURNS) == 11 => lengths(scene, rng),
        11 => queries(scene, rng),
        24 => trips::sizes(scene, rng),
        25 => trips::moves(scene, rng),
        turn @ 26..=28 => bought::varied(turn - 26, scene, rng),
        turn @ 29..=30 => many::varied(turn - 29, scene, rng),
        turn @ 31.. => patients::varied(turn - 31, scene, rng),
        turn => lists::varied(turn - 12, scene, rng),
    }
}

/// Garbage in whatever is lent, and sometimes trips behind the hops, and NULL
/// for what is empty.
fn dress(mut case: Case, rng: &mut Rng) -> Case {
    case.null = rng.chance(50);
    if case.call.takes_tables() && case.hop_size == HOP as u32 && rng.chance(40) {
        trips::any_trips(&mut case, rng);
    }
    let lent = [
        &mut case.held,
        &mut case.settled,
        &mut case.parts,
        &mut case.answer,
        &mut case.parts_answer,
        &mut case.target,
        &mut case.report,
    ];
    for buffer in lent {
        match rng.below(4) {
            0 => buffer.fill(0),
            1 => buffer.fill(0xff),
            _ => *buffer = rng.bytes(buffer.len()),
        }
    }
    case
}

/// A check, a run, parts, a bought list, many queries, or an evening over the
/// same tables.
pub fn one_of_all(scene: &Scene, rng: &mut Rng) -> Case {
    match rng.below(14) {
        13.. => patients::some_case(scene, rng),
        12 => many::some_case(scene, rng),
        10..=11 => bought::some_case(scene, rng),
        0..=2 => scene.network.check_case(),
        3..=5 => lists::some_case(scene, rng),
        6..=7 => scene.pair_case(u32::MAX),
        _ => scene.run_case(u32::MAX),
    }
}

/// What a run with this limit answers when there is room for all.
fn needs(scene: &Scene, limit: u32) -> Answer {
    Answer::read(&scene.run_case(limit).fast(Sound).answer)
}

/// Every limit there is to tell apart with the parts of the run's own list,
/// and the far ones.
fn limits(scene: &Scene, rng: &mut Rng) -> Vec<Case> {
    let last = needs(scene, u32::MAX).settled;
    let near = (0..=last + 1).map(|limit| scene.pair_case(limit));
    let far = [0x7fff_ffff, 0x8000_0000, u32::MAX];
    let mut cases: Vec<Case> = near.chain(far.map(|limit| scene.run_case(limit))).collect();
    for case in &mut cases {
        let more = rng.below(3);
        case.held.resize(case.held.len() + more * HELD, 0);
        case.settled.resize(case.settled.len() + more * SETTLED, 0);
        if case.call.parts() {
            case.parts.resize(case.parts.len() + more * PART, 0);
        }
    }
    cases.push(scene.network.check_case());
    cases
}

/// The room a run needs: the most that is held after any step, and the ends;
/// and then its parts.
fn exact(scene: &Scene, limit: u32) -> [usize; 3] {
    let end = needs(scene, limit);
    let held = (0..=end.settled).map(|k| needs(scene, k).held).max();
    let pair = scene.pair_case(limit).fast(Sound);
    let parts = match end.refusal {
        0 => PartsAnswer::read(&pair.parts_answer).parts,
        _ => 0,
    };
    [
        held.unwrap_or(0) as usize,
        end.settled as usize,
        parts as usize,
    ]
}

fn with_room(scene: &Scene, limit: u32, room: [usize; 3]) -> Case {
    let mut case = scene.pair_case(limit);
    case.held = vec![0; room[0] * HELD];
    case.settled = vec![0; room[1] * SETTLED];
    case.parts = vec![0; room[2] * PART];
    case
}

/// The run of a pair without its parts.
fn alone(mut case: Case) -> Case {
    case.call = Call::Run;
    case.parts.clear();
    case.parts_answer.clear();
    case
}

/// Each buffer exact, one less, none and larger; then mixtures.
fn rooms(scene: &Scene, rng: &mut Rng) -> Vec<Case> {
    let all = needs(scene, u32::MAX).settled;
    let some = rng.range(0, i64::from(all)) as u32;
    let limit = rng.pick(&[u32::MAX, all, some]);
    let need = exact(scene, limit);
    let mut cases = vec![with_room(scene, limit, need)];
    for i in 0..3 {
        for room in [0, need[i].saturating_sub(1), need[i] + 1, need[i] + 9] {
            let mut lent = need;
            lent[i] = room;
            cases.push(with_room(scene, limit, lent));
        }
    }
    // Settled room is short from the first step on, held room mostly later.
    let later = [need[0].saturating_sub(1), 0, need[2]];
    cases.push(with_room(scene, limit, later));
    for _ in 0..12 {
        let fewer = need.map(|n| rng.range(0, n as i64 + 1) as usize);
        cases.push(with_room(scene, limit, fewer));
        let one = need.map(|n| n.saturating_sub(rng.below(2)));
        cases.push(alone(with_room(scene, limit, one)));
    }
    cases
}

/// At every limit: room exact, and each buffer one less and none.
fn every_room(scene: &Scene) -> Vec<Case> {
    let last = needs(scene, u32::MAX).settled;
    let mut cases = Vec::new();
    for limit in 0..=last {
        let need = exact(scene, limit);
        cases.push(with_room(scene, limit, need));
        for i in (0..3).filter(|&i| need[i] > 0) {
            for room in BTreeSet::from([0, need[i] - 1]) {
                let mut lent = need;
                lent[i] = room;
                cases.push(with_room(scene, limit, lent));
            }
        }
    }
    cases
}

/// A larger network: few limits, and held room around what is needed.
fn few(scene: &Scene, rng: &mut Rng) -> Vec<Case> {
    let all = needs(scene, u32::MAX).settled;
    let mut cases = Vec::new();
    for limit in [u32::MAX, rng.range(0, i64::from(all)) as u32] {
        let need = exact(scene, limit);
        cases.push(scene.pair_case(limit));
        cases.push(with_room(scene, limit, need));
        for i in 0..3 {
            let mut lent = need;
            lent[i] = lent[i].saturating_sub(1);
            cases.push(with_room(scene, limit, lent));
            let fewer = need.map(|n| rng.range(n as i64 / 2, n as i64) as usize);
            cases.push(alone(with_room(scene, limit, fewer)));
        }
        cases.push(scene.run_case(limit));
    }
    cases.extend(lists::few(scene, rng));
    cases.extend(bought::few(scene, rng));
    cases
}

/// A fault done to every record of its table in turn, checked and run.
fn each_place(scene: &Scene, rng: &mut Rng) -> Vec<Case> {
    let mut cases = Vec::new();
    for _ in 0..2 {
        let harm = any(rng);
        for place in 0..harm.places(&scene.network) {
            let mut scene = scene.clone();
            harm.put(&mut scene.network, place, rng);
            cases.push(scene.network.check_case());
            cases.push(scene.run_case(u32::MAX));
            cases.push(lists::some_case(&scene, rng));
            cases.push(scene.judge_case(&[]));
            cases.push(match rng.chance(50) {
                true => many::some_case(&scene, rng),
                false => patients::some_case(&scene, rng),
            });
        }
    }
    cases
}

fn several_faults(scene: &Scene, rng: &mut Rng) -> Vec<Case> {
    let harmed = |_| {
        let mut scene = scene.clone();
        several(&mut scene.network, rng);
        if rng.chance(30) {
            scene.query.speed = rng.pick(&[0, 101]);
        }
        let mut case = one_of_all(&scene, rng);
        if rng.chance(30) {
            let odd = rng.below(7);
            off_length(&mut case, odd, rng);
        }
        case
    };
    (0..12).map(harmed).collect()
}

/// Makes one of the seven slices longer or shorter by some bytes.
pub fn off_length(case: &mut Case, slice: usize, rng: &mut Rng) {
    let slices = [
        &mut case.vertices,
        &mut case.walks,
        &mut case.hops,
        &mut case.held,
        &mut case.settled,
        &mut case.list,
        &mut case.parts,
    ];
    let Some(bytes) = slices.into_iter().nth(slice) else {
        return;
    };
    let change = rng.pick(&[1, 2, 4, 7, 8, 11, 12, 15]);
    if rng.chance(50) {
        bytes.resize(bytes.len() + change, 0);
    } else {
        bytes.truncate(bytes.len().saturating_sub(change));
    }
}

/// Lengths that are no whole number of records, empty tables, and answer
/// slices of every other length.
fn lengths(scene: &Scene, rng: &mut Rng) -> Vec<Case> {
    let mut cases = Vec::new();
    for slice in 0..7 {
        for _ in 0..3 {
            let mut case = match slice {
                0..=2 => one_of_all(scene, rng),
                3..=4 => scene.run_case(u32::MAX),
                5 => lists::some_case(scene, rng),
                _ => scene.pair_case(u32::MAX),
            };
            off_length(&mut case, slice, rng);
            if rng.chance(30) {
                off_length(&mut case, rng.below(7), rng);
            }
            cases.push(case);
        }
    }
    for empty in 0..3 {
        let mut case = one_of_all(scene, rng);
        let [vertices, walks, hops] = [&mut case.vertices, &mut case.walks, &mut case.hops];
        [vertices, walks, hops][empty].clear();
        cases.push(case);
    }
    for len in [0, 1, 4, 12, 20, 23, 25, 28, 48] {
        let mut case = scene.run_case(rng.below(4) as u32);
        case.answer = vec![0; len];
        if rng.chance(30) {
            off_length(&mut case, rng.below(7), rng);
        }
        cases.push(case);
    }
    cases
}

/// Each field of the query at its limits and beyond.
fn queries(scene: &Scene, rng: &mut Rng) -> Vec<Case> {
    let case = match rng.below(6) {
        0 | 1 => scene.run_case(u32::MAX),
        2 | 3 => lists::some_case(scene, rng),
        _ => bought::some_case(scene, rng),
    };
    let record = scene.query.record as usize;
    let at = record * 16 + 8;
    let length = match case.walks.is_empty() {
        true => 0,
        false => apart(word(&case.walks, at)).0,
    };
    let mut cases = Vec::new();
    for field in 0..5 {
        for value in super::damage::extremes(&case, length, record) {
            let mut one = case.clone();
            set(&mut one, field, value);
            // Mostly one bad field; now and then another with it.
            if rng.chance(20) {
                set(&mut one, rng.below(5), rng.draw() as u32);
            }
            cases.push(one);
        }
    }
    for value in [0, 1, 99, 100, 101, 127, 128, 255, 256] {
        let mut one = case.clone();
        one.query.speed = value;
        cases.push(one);
    }
    cases.retain(|_| rng.chance(25));
    cases
}

fn set(case: &mut Case, field: usize, value: u32) {
    match field {
        0 => case.query.record = value,
        1 => case.query.offset = value,
        2 => case.query.arrival = value as i32,
        3 => case.query.duration = value,
        _ => case.query.speed = value,
    }
}
