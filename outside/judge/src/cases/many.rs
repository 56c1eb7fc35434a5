//! Many queries over one network: good ones and bad ones between them, shares
//! exact, one record short and of no record, and lengths that do not fit.

use super::damage::several;
use crate::mutant::Sound;
use crate::network::Scene;
use crate::outcome::Case;
use crate::records::{Answer, Asked, Query, ANSWER, ASKED, HELD, SETTLED};
use crate::rng::Rng;

/// The cases of one of the two groups about many queries.
pub fn varied(turn: u64, scene: &Scene, rng: &mut Rng) -> Vec<Case> {
    match turn {
        0 => [rooms(scene, rng), places(scene, rng)].concat(),
        _ => [lengths(scene, rng), faults(scene, rng)].concat(),
    }
}

/// Some queries, whatever the tables are.
pub fn some_case(scene: &Scene, rng: &mut Rng) -> Case {
    let count = rng.below(5);
    scene.runs_case(&asked(scene, count, rng))
}

/// A query near that of the scene: another place, moment or duration.
fn near(scene: &Scene, rng: &mut Rng) -> Query {
    let mut query = scene.query;
    let walks = &scene.network.walks;
    if rng.chance(40) && !walks.is_empty() {
        query.record = rng.below(walks.len()) as u32;
        query.offset = rng.below(walks[query.record as usize].length as usize + 1) as u32;
    }
    if rng.chance(40) {
        let more = rng.range(-300, 300) as i32;
        query.arrival = query.arrival.saturating_add(more).clamp(0, 172_800);
    }
    if rng.chance(40) {
        query.duration = (query.duration / rng.range(1, 5) as u32).max(1);
    }
    query
}

/// One field out of its limits.
pub fn spoil(scene: &Scene, query: &mut Query, rng: &mut Rng) {
    let walks = &scene.network.walks;
    let length = walks.get(query.record as usize).map_or(0, |w| w.length);
    match rng.below(5) {
        0 => query.record = walks.len() as u32 + rng.pick(&[0, 1, 1 << 28]),
        1 => query.offset = length + rng.pick(&[1, 1 << 24, 1 << 31]),
        2 => query.arrival = rng.pick(&[-1, 172_801, i32::MIN, i32::MAX]),
        3 => query.duration = rng.pick(&[0, 86_401, u32::MAX]),
        _ => query.speed = rng.pick(&[0, 101, u32::MAX]),
    }
}

fn limit(rng: &mut Rng) -> u32 {
    match rng.below(4) {
        0 => rng.below(5) as u32,
        1 => rng.pick(&[0x8000_0000, 0x7fff_ffff]),
        _ => u32::MAX,
    }
}

/// So many queries, a quarter of them bad.
fn asked(scene: &Scene, count: usize, rng: &mut Rng) -> Vec<Asked> {
    let one = |_| {
        let mut query = near(scene, rng);
        if rng.chance(25) {
            spoil(scene, &mut query, rng);
        }
        let limit = limit(rng);
        Asked { query, limit }
    };
    (0..count).map(one).collect()
}

/// What each query answers in free room.
fn free(case: &Case) -> Vec<Answer> {
    let after = case.fast(Sound);
    after
        .answer
        .chunks_exact(ANSWER)
        .map(Answer::read)
        .collect()
}

/// The most held records after any step of any query.
fn held(scene: &Scene, asked: &[Asked]) -> usize {
    let most = |asked: &Asked| {
        let scene = Scene {
            query: asked.query,
            ..scene.clone()
        };
        let answer = |limit| Answer::read(&scene.run_case(limit).fast(Sound).answer);
        let last = answer(asked.limit);
        let each = (0..=last.settled).map(|k| answer(k).held);
        each.max().unwrap_or(0) as usize
    };
    asked.iter().map(most).max().unwrap_or(0)
}

/// Shares and held exact, one record more, one less and none, and settled bytes
/// behind the last share.
fn rooms(scene: &Scene, rng: &mut Rng) -> Vec<Case> {
    let count = rng.range(1, 4) as usize;
    let asked = asked(scene, count, rng);
    let whole = scene.runs_case(&asked);
    let need = free(&whole).iter().map(|six| six.settled).max();
    let (need, held) = (need.unwrap_or(0) as usize, held(scene, &asked));
    let mut cases = vec![whole.clone()];
    for share in [need, need + 1, need.saturating_sub(1), need / 2, 0] {
        for held in [held, held.saturating_sub(rng.below(2)), held + 2] {
            let rest = rng.below(count * SETTLED);
            cases.push(Case {
                settled: vec![0; share * count * SETTLED + rest],
                held: vec![0; held * HELD],
                ..whole.clone()
            });
        }
    }
    cases
}

/// One bad query at each place of a row, and all but one bad.
fn places(scene: &Scene, rng: &mut Rng) -> Vec<Case> {
    let count = rng.range(2, 5) as usize;
    let good = |_| Asked {
        query: near(scene, rng),
        limit: limit(rng),
    };
    let good: Vec<Asked> = (0..count).map(good).collect();
    let mut cases = Vec::new();
    for place in 0..count {
        let mut one = good.clone();
        spoil(scene, &mut one[place].query, rng);
        cases.push(scene.runs_case(&one));
        let mut others = good.clone();
        for (at, asked) in others.iter_mut().enumerate() {
            if at != place {
                spoil(scene, &mut asked.query, rng);
            }
        }
        let mut case = scene.runs_case(&others);
        case.held.truncate(rng.below(3) * HELD);
        cases.push(case);
    }
    cases
}

/// Queries and answers of any length, none of them, and settled and held bytes
/// that are no whole number of records.
fn lengths(scene: &Scene, rng: &mut Rng) -> Vec<Case> {
    let count = rng.range(1, 4) as usize;
    let whole = scene.runs_case(&asked(scene, count, rng));
    let mut cases = vec![scene.runs_case(&[])];
    let none = Case {
        settled: vec![0; rng.below(40)],
        held: vec![0; rng.below(40)],
        ..scene.runs_case(&[])
    };
    cases.push(none);
    for len in [0, 1, 23, 25, 48, ANSWER * count - 1, ANSWER * count + 1] {
        let answer = vec![0; len];
        cases.push(Case {
            answer: answer.clone(),
            ..whole.clone()
        });
        cases.push(Case {
            answer,
            ..scene.runs_case(&[])
        });
    }
    for more in [1, 12, ASKED - 1] {
        let mut case = whole.clone();
        case.queries.extend(rng.bytes(more));
        // As many answers as there are whole queries, or bytes.
        if rng.chance(50) {
            case.answer.resize(case.queries.len(), 0);
        }
        cases.push(case);
    }
    for less in 1..=SETTLED {
        let mut case = whole.clone();
        case.settled.truncate(case.settled.len() - less);
        if rng.chance(20) {
            case.held.truncate(case.held.len() - rng.below(HELD));
        }
        cases.push(case);
    }
    cases
}

/// Damaged tables, sizes of a hop that there are not, and a cut held buffer: the
/// same refusal for each query, but for what it says itself.
fn faults(scene: &Scene, rng: &mut Rng) -> Vec<Case> {
    let harmed = |_| {
        let mut scene = scene.clone();
        if rng.chance(70) {
            several(&mut scene.network, rng);
        }
        let count = rng.range(1, 4) as usize;
        let mut case = scene.runs_case(&asked(&scene, count, rng));
        match rng.below(8) {
            0 => case.hop_size = rng.pick(&super::trips::WRONG_SIZES),
            1 => case.held.extend([0; 7]),
            2 => case.walks.truncate(case.walks.len().saturating_sub(1)),
            3 => case.vertices.clear(),
            _ => {}
        }
        case
    };
    (0..8).map(harmed).collect()
}
