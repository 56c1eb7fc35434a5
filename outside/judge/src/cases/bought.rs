//! Bought lists: right ones, with any records that are reasons and in any order
//! that these allow, and others that are wrong in one respect or in several.

use super::damage::several;
use crate::mutant::Sound;
use crate::network::Scene;
use crate::outcome::Case;
use crate::records::{Answer, Listed, Settled, Walk, LISTED, NONE};
use crate::rng::Rng;

/// The cases of one of the three groups about bought lists.
pub fn varied(turn: u64, scene: &Scene, rng: &mut Rng) -> Vec<Case> {
    if scene.network.walks.is_empty() {
        // No query is good then.
        return vec![scene.judge_case(&[])];
    }
    match turn {
        0 => [right(scene, rng), grown(scene, rng)].concat(),
        1 => [changed(scene, rng), moved(scene, rng)].concat(),
        _ => [several_reasons(scene, rng), windows(scene, rng)].concat(),
    }
}

/// Some list, right or wrong, whatever the tables are.
pub fn some_case(scene: &Scene, rng: &mut Rng) -> Case {
    if scene.network.walks.is_empty() {
        return scene.judge_case(&[]);
    }
    let mut list = own(scene, rng);
    if rng.chance(40) && !list.is_empty() {
        let at = rng.below(list.len());
        change(scene, &mut list, at, rng);
    }
    scene.judge_case(&list)
}

/// Lists over a larger network.
pub fn few(scene: &Scene, rng: &mut Rng) -> Vec<Case> {
    if scene.network.walks.is_empty() {
        return Vec::new();
    }
    let mut cases = right(scene, rng);
    cases.extend(grown(scene, rng).into_iter().take(4));
    let list = own(scene, rng);
    for _ in 0..if list.is_empty() { 0 } else { 4 } {
        let mut list = list.clone();
        let at = rng.below(list.len());
        change(scene, &mut list, at, rng);
        cases.push(scene.judge_case(&list));
    }
    cases
}

fn window(scene: &Scene) -> u32 {
    scene.query.duration * scene.query.speed
}

fn records(scene: &Scene) -> usize {
    scene.network.walks.len() + scene.network.hops.len()
}

/// The ends of a record, walks numbered first.
fn ends(scene: &Scene, record: usize) -> (u32, u32) {
    let network = &scene.network;
    match network.walks.get(record) {
        Some(walk) => (walk.from, walk.to),
        None => {
            let hop = network.hops[record - network.walks.len()];
            (hop.from, hop.to)
        }
    }
}

/// What a record offers if its "to" is so far.
fn offer(scene: &Scene, record: usize, far: u32) -> Option<u32> {
    let (network, query) = (&scene.network, scene.query);
    if let Some(walk) = network.walks.get(record) {
        return Some(far + walk.length + walk.wait * query.speed);
    }
    let hop = network.hops[record - network.walks.len()];
    let ticks = |seconds: i32| i64::from(seconds) * i64::from(query.speed);
    let left = ticks(query.arrival) - i64::from(far);
    let offer = ticks(query.arrival) - ticks(hop.departure);
    (ticks(hop.arrival) <= left).then_some(offer as u32)
}

/// The seeds with their distances: the vertices that a run knows before its
/// first step.
fn seeds(scene: &Scene) -> Vec<Settled> {
    let query = scene.query;
    let walk = |record: u32| scene.network.walks.get(record as usize).copied();
    let Some(e) = walk(query.record) else {
        return Vec::new();
    };
    let back = e.length - query.offset;
    let past = |holds: bool, w: Walk| if holds { w.wait * query.speed } else { 0 };
    let mut seeds = vec![Settled {
        vertex: e.from,
        distance: query.offset + past(back == 0, e),
    }];
    let onward = match walk(e.twin) {
        _ if back == 0 => Some(0),
        Some(twin) => Some(back + past(query.offset == 0, twin)),
        None => None,
    };
    seeds.extend(onward.map(|distance| Settled {
        vertex: e.to,
        distance,
    }));
    seeds
}

/// What a run settles, in its order.
fn settled(scene: &Scene) -> Vec<Settled> {
    let after = scene.run_case(u32::MAX).fast(Sound);
    let count = Answer::read(&after.answer).settled as usize;
    let read = |i| Settled::read(&after.settled, i);
    (0..count).map(read).collect()
}

/// Every record, or FFFFFFFF, that is a reason for this distance with these
/// entries before it.
fn reasons(scene: &Scene, entry: Settled, before: &[Listed]) -> Vec<u32> {
    let mut reasons = Vec::new();
    if seeds(scene).contains(&entry) {
        reasons.push(NONE);
    }
    for record in 0..records(scene) {
        let (from, to) = ends(scene, record);
        let far = before.iter().find(|far| far.vertex == to);
        let offer = far.and_then(|far| offer(scene, record, far.distance));
        if from == entry.vertex && offer == Some(entry.distance) {
            reasons.push(record as u32);
        }
    }
    reasons
}

/// The entries in this order, each with any reason; one without is put last of
/// all, and is wrong.
fn reasoned(scene: &Scene, entries: &[Settled], rng: &mut Rng) -> Vec<Listed> {
    let mut list: Vec<Listed> = Vec::new();
    for &entry in entries {
        let reasons = reasons(scene, entry, &list);
        let record = match reasons.is_empty() {
            true => NONE - 1,
            false => rng.pick(&reasons),
        };
        list.push(Listed {
            vertex: entry.vertex,
            distance: entry.distance,
            record,
        });
    }
    list
}

/// A run's own list with a reason for each entry, looked for in one pass over the
/// records: for networks of any size. Of several the last record is named.
pub fn whole(scene: &Scene) -> Vec<Listed> {
    let settled = settled(scene);
    let unlisted = (usize::MAX, NONE);
    let mut known = vec![unlisted; scene.network.vertices.len()];
    for (at, entry) in settled.iter().enumerate() {
        known[entry.vertex as usize] = (at, entry.distance);
    }
    let entry = |entry: &Settled| Listed {
        vertex: entry.vertex,
        distance: entry.distance,
        record: NONE,
    };
    let mut list: Vec<Listed> = settled.iter().map(entry).collect();
    for record in 0..records(scene) {
        let (from, to) = ends(scene, record);
        let ((own, distance), (at, far)) = (known[from as usize], known[to as usize]);
        let earlier = own != usize::MAX && at < own;
        if earlier && offer(scene, record, far) == Some(distance) {
            list[own].record = record as u32;
        }
    }
    list
}

/// A run's own list with a reason for each entry: it always passes.
pub fn own(scene: &Scene, rng: &mut Rng) -> Vec<Listed> {
    reasoned(scene, &settled(scene), rng)
}

/// The same in any order in which each entry has a reason before it.
pub fn reordered(scene: &Scene, rng: &mut Rng) -> Vec<Listed> {
    let mut rest = settled(scene);
    let mut list: Vec<Listed> = Vec::new();
    while !rest.is_empty() {
        let ready = |at: &usize| !reasons(scene, rest[*at], &list).is_empty();
        let ready: Vec<usize> = (0..rest.len()).filter(ready).collect();
        let entry = rest.remove(rng.pick(&ready));
        let record = rng.pick(&reasons(scene, entry, &list));
        list.push(Listed {
            vertex: entry.vertex,
            distance: entry.distance,
            record,
        });
    }
    list
}

/// Right lists; and a run's own without some of its entries, which is right as
/// far as it goes.
fn right(scene: &Scene, rng: &mut Rng) -> Vec<Case> {
    let list = own(scene, rng);
    let mut cases = vec![scene.judge_case(&list), scene.judge_case(&[])];
    let small = list.len() < 60;
    for _ in 0..if small { 3 } else { 0 } {
        cases.push(scene.judge_case(&reordered(scene, rng)));
    }
    for end in (0..list.len()).rev().take(3) {
        cases.push(scene.judge_case(&list[..end]));
    }
    cases
}

/// A number near a good one, or one at which something might break.
fn number(good: u32, most: u32, rng: &mut Rng) -> u32 {
    match rng.below(9) {
        0 => good.wrapping_add(1),
        1 => good.wrapping_sub(1),
        2 => most,
        3 => most.wrapping_sub(1),
        4 => most.wrapping_add(1),
        5 => rng.pick(&[NONE, NONE - 1, 0x8000_0000, 0x7fff_ffff, 0]),
        6 => good.wrapping_add(1 << rng.below(32)),
        _ => rng.below(most as usize + 1) as u32,
    }
}

/// One number of an entry changed.
fn change(scene: &Scene, list: &mut [Listed], at: usize, rng: &mut Rng) {
    let vertices = scene.network.vertices.len() as u32;
    let other = list[rng.below(list.len())];
    let entry = &mut list[at];
    let most = records(scene) as u32;
    match rng.below(9) {
        0 => entry.vertex = number(entry.vertex, vertices, rng),
        1 => entry.vertex = other.vertex,
        2 => entry.distance = other.distance,
        3 => entry.distance = window(scene) + rng.pick(&[1, 1, 2, 1 << 24]),
        4 => entry.distance = number(entry.distance, window(scene), rng),
        5 => entry.record = other.record,
        6 => entry.record = rng.pick(&[NONE, NONE - 1, most, most - 1]),
        _ => entry.record = number(entry.record, most, rng),
    }
}

/// Each entry in turn with one number changed.
fn changed(scene: &Scene, rng: &mut Rng) -> Vec<Case> {
    let mut cases = Vec::new();
    let list = match rng.chance(50) {
        true => own(scene, rng),
        false => reordered(scene, rng),
    };
    for at in 0..list.len() {
        for _ in 0..2 {
            let mut list = list.clone();
            change(scene, &mut list, at, rng);
            cases.push(scene.judge_case(&list));
        }
    }
    cases.push(scene.judge_case(&list));
    cases
}

/// Entries exchanged, left out, or put twice.
fn moved(scene: &Scene, rng: &mut Rng) -> Vec<Case> {
    let list = own(scene, rng);
    let mut cases = Vec::new();
    for at in 0..list.len() {
        let mut swapped = list.clone();
        swapped.swap(at, rng.below(list.len()));
        let mut next = list.clone();
        next.swap(at, (at + 1) % list.len());
        let mut less = list.clone();
        less.remove(at);
        let mut twice = list.clone();
        twice.insert(rng.below(list.len() + 1), list[at]);
        let mut backwards = list.clone();
        backwards[..=at].reverse();
        let all = [swapped, next, less, twice, backwards];
        cases.push(scene.judge_case(&all[rng.below(all.len())]));
    }
    cases
}

/// Lists that grow from the seeds by any record that offers at most D, the least
/// or not: each entry has its reason, so that 28 alone can be wrong. Then two
/// entries behind it that name each other.
fn grown(scene: &Scene, rng: &mut Rng) -> Vec<Case> {
    let mut cases = Vec::new();
    for _ in 0..6 {
        let mut list = Vec::new();
        for seed in seeds(scene) {
            if seed.distance <= window(scene) && rng.chance(80) {
                list.push(Listed {
                    vertex: seed.vertex,
                    distance: seed.distance,
                    record: NONE,
                });
            }
        }
        for _ in 0..3 * scene.network.vertices.len().min(60) {
            grow(scene, &mut list, rng);
        }
        cases.push(scene.judge_case(&list));
        if circle(scene, &mut list) {
            cases.push(scene.judge_case(&list));
        }
    }
    cases
}

fn grow(scene: &Scene, list: &mut Vec<Listed>, rng: &mut Rng) {
    let record = rng.below(records(scene));
    let (vertex, to) = ends(scene, record);
    if list.iter().any(|entry| entry.vertex == vertex) {
        return;
    }
    let far = list.iter().find(|far| far.vertex == to);
    let offer = far.and_then(|far| offer(scene, record, far.distance));
    if let Some(distance) = offer.filter(|&distance| distance <= window(scene)) {
        list.push(Listed {
            vertex,
            distance,
            record: record as u32,
        });
    }
}

/// Adds two unlisted vertices that ride to each other at one second.
fn circle(scene: &Scene, list: &mut Vec<Listed>) -> bool {
    let (walks, hops) = (scene.network.walks.len(), &scene.network.hops);
    for (there, hop) in hops.iter().enumerate() {
        let same = |back: &&(usize, &crate::records::Hop)| {
            let (from, to) = (back.1.from, back.1.to);
            let at = (back.1.departure, back.1.arrival);
            (from, to) == (hop.to, hop.from) && at == (hop.departure, hop.arrival)
        };
        let all: Vec<(usize, &crate::records::Hop)> = hops.iter().enumerate().collect();
        let Some(&(back, _)) = all.iter().find(same) else {
            continue;
        };
        let until = i64::from(scene.query.arrival) - i64::from(hop.departure);
        let distance = until * i64::from(scene.query.speed);
        let fresh = |v: u32| list.iter().all(|entry| entry.vertex != v);
        let still = hop.departure == hop.arrival;
        let within = (0..=i64::from(window(scene))).contains(&distance);
        if still && within && fresh(hop.from) && fresh(hop.to) {
            for (vertex, record) in [(hop.from, there), (hop.to, back)] {
                list.push(Listed {
                    vertex,
                    distance: distance as u32,
                    record: (walks + record) as u32,
                });
            }
            return true;
        }
    }
    false
}

/// Several numbers changed; now and then tables, query and length too.
fn several_reasons(scene: &Scene, rng: &mut Rng) -> Vec<Case> {
    let mut cases = Vec::new();
    for _ in 0..8 {
        let mut list = own(scene, rng);
        for _ in 0..rng.range(1, 4) {
            if !list.is_empty() {
                let at = rng.below(list.len());
                change(scene, &mut list, at, rng);
            }
        }
        let mut scene = scene.clone();
        if rng.chance(15) {
            several(&mut scene.network, rng);
        }
        if rng.chance(15) {
            scene.query.speed = rng.pick(&[0, 101]);
        }
        let mut case = scene.judge_case(&list);
        if rng.chance(20) {
            let more = 1 + rng.below(LISTED - 1);
            case.list.extend(rng.bytes(more));
        }
        cases.push(case);
    }
    cases
}

/// Windows at which a seed, an entry or an offer is just D: the right list there,
/// those of one second less and one second more, and none.
fn windows(scene: &Scene, rng: &mut Rng) -> Vec<Case> {
    let list = own(scene, rng);
    let far = list.iter().map(|entry| entry.distance);
    let mut turns: Vec<u32> = far.chain(seeds(scene).iter().map(|s| s.distance)).collect();
    for _ in 0..6 {
        let record = rng.below(records(scene));
        let to = ends(scene, record).1;
        let far = list.iter().find(|far| far.vertex == to);
        turns.extend(far.and_then(|far| offer(scene, record, far.distance)));
    }
    let mut cases = Vec::new();
    for _ in 0..4 {
        let seconds = rng.pick(&turns) / scene.query.speed;
        let at = |seconds: u32| {
            let mut scene = scene.clone();
            scene.query.duration = seconds.clamp(1, 86_400);
            scene
        };
        let here = at(seconds);
        for near in [seconds, seconds.saturating_sub(1), seconds + 1] {
            cases.push(here.judge_case(&own(&at(near), rng)));
        }
        cases.push(here.judge_case(&[]));
    }
    cases
}
