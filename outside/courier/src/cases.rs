//! The cases of a seed, in groups of one network each, and the large ones.

use outside::cases::damage;
use outside::cases::hubs::full_row;
use outside::network::{full_scene, Network, Plan, Scene};
use outside::records::{Answer, Query, Settled, HELD, NONE, PART, SETTLED, VERTEX};
use outside::rng::Rng;

use crate::call::{answer_size, Case, Kind, Outcome};
use crate::quick::Quick;
use crate::scenes::{self, turned, Bytes};
use crate::wrong::Sound;

const GROUPS: u64 = 12;

/// A scene with its bytes, from which the cases of a group are made.
pub struct Ground {
    pub scene: Scene,
    pub bytes: Bytes,
    /// All that a run settles.
    pub settled: Vec<Settled>,
}

impl Ground {
    pub fn new(scene: Scene, trips: Option<&mut Rng>) -> Self {
        let bytes = Bytes::of(&scene.network, trips);
        let settled = scenes::settled(&scene);
        Ground { scene, bytes, settled }
    }

    /// A call of this kind with room for all, its buffers full of any bytes.
    pub fn case(&self, kind: Kind, rng: &mut Rng) -> Case {
        let Bytes { vertices, walks, hops, hop_size, list } = self.bytes.clone();
        let count = vertices.len() / VERTEX;
        let records = list.len();
        let lent = |own: Kind, len: usize, rng: &mut Rng| if kind == own { rng.bytes(len) } else { Vec::new() };
        let parts = PART * (walks.len() / 16 + 2);
        // The largest vertex table needs no buffer for each of them.
        let most = count.min(64 + records / 4);
        Case {
            kind,
            null: rng.chance(50),
            vertices,
            walks,
            hops,
            hop_size,
            list: if kind == Kind::List { rng.bytes(records) } else { list },
            query: self.scene.query,
            limit: NONE,
            held: lent(Kind::Run, HELD * most, rng),
            settled: lent(Kind::Run, SETTLED * most, rng),
            entries: if kind == Kind::Parts { entries(&self.settled) } else { Vec::new() },
            parts: lent(Kind::Parts, parts, rng),
            answer: rng.bytes(answer_size(kind)),
        }
    }

    /// How many entries are held after each of the first steps.
    fn held(&self, steps: usize) -> Vec<usize> {
        let mut held = Vec::new();
        let mut rng = Rng::new(0, 0);
        for limit in 0..=self.settled.len().min(steps) as u32 {
            let case = Case { limit, ..self.case(Kind::Run, &mut rng) };
            held.push(Answer::read(&case.by(&Quick(Sound)).answer).held as usize);
        }
        held
    }
}

pub fn entries(list: &[Settled]) -> Vec<u8> {
    list.iter().flat_map(|entry| entry.bytes()).collect()
}

const KINDS: [Kind; 3] = [Kind::List, Kind::Run, Kind::Parts];

/// The cases of a seed, in an order that does not depend on how many are asked for.
pub fn stream(seed: u64) -> impl Iterator<Item = Case> {
    (0..).flat_map(move |index| group(seed, index))
}

pub fn ground(seed: u64, index: u64) -> (Ground, Rng) {
    let mut rng = Rng::new(seed ^ 0x636f_7572, index);
    let scene = if index % 97 == 50 { scenes::spread(&mut rng) } else { scenes::scene(&mut rng) };
    let trips = rng.chance(40);
    let ground = Ground::new(scene, trips.then_some(&mut rng));
    (ground, rng)
}

fn group(seed: u64, index: u64) -> Vec<Case> {
    if index % 61 == 60 {
        return wide(&mut Rng::new(seed ^ 0x7769_6465, index));
    }
    let (ground, mut rng) = ground(seed, index);
    let rng = &mut rng;
    match index % GROUPS {
        0 | 1 => limits(&ground, rng),
        2 | 3 => rooms(&ground, rng),
        4 => made(&ground, rng),
        5 | 6 => damaged(&ground, rng),
        7 => harmed(&ground, rng),
        8 => cut(&ground, rng),
        9 => asked(&ground, rng),
        10 => listed(&ground, rng),
        _ => several(&ground, rng),
    }
}

/// Every limit, and the parts of what is settled by then.
fn limits(ground: &Ground, rng: &mut Rng) -> Vec<Case> {
    let count = ground.settled.len().min(40);
    let mut all = vec![ground.case(Kind::List, rng), ground.case(Kind::Run, rng)];
    for k in 0..=count + 1 {
        all.push(Case { limit: k as u32, ..ground.case(Kind::Run, rng) });
        let own = entries(&ground.settled[..k.min(ground.settled.len())]);
        all.push(Case { entries: own, ..ground.case(Kind::Parts, rng) });
    }
    all
}

/// At every limit each room exact, one less, and none; of the parts every room up to what is enough.
fn rooms(ground: &Ground, rng: &mut Rng) -> Vec<Case> {
    let mut all = Vec::new();
    if ground.settled.len() > 40 {
        return all;
    }
    let held = ground.held(ground.settled.len());
    for k in 0..=ground.settled.len() {
        let most = held[..=k].iter().max().copied().unwrap_or(0);
        for (h, s) in [(most, k), (most.saturating_sub(1), k), (most, k.saturating_sub(1)), (0, k), (most, 0), (held[k], k)] {
            let limit = if rng.chance(30) { NONE } else { k as u32 };
            let (held, settled) = (rng.bytes(HELD * h), rng.bytes(SETTLED * s));
            all.push(Case { limit, held, settled, ..ground.case(Kind::Run, rng) });
        }
    }
    for room in 0..=ground.bytes.walks.len() / 16 + 2 {
        all.push(Case { parts: rng.bytes(PART * room), ..ground.case(Kind::Parts, rng) });
    }
    all
}

/// A long row: some hundred neighbours of one vertex, anywhere among few or many numbers, several records to some, about D, beyond it and
/// too early; records from elsewhere still lead to some. The first steps, in room exact, one more, one less, and with a slot for each vertex.
fn wide(rng: &mut Rng) -> Vec<Case> {
    let count = rng.pick(&[300, 600, 600, 600, 600, 20_000, 65_536]);
    let (near, hub) = (rng.range(90, 290), rng.below(count));
    let mut plan = Plan { vertices: count, ..Plan::default() };
    plan.one_way((hub + 1) % count, hub, 1);
    for _ in 0..near {
        let to = rng.below(count);
        for _ in 0..rng.pick(&[1, 1, 2, 3]) {
            let (from, late) = (if rng.chance(80) { hub } else { rng.below(count) }, rng.range(-2, 62) as i32);
            match rng.below(4) {
                _ if from == to => {}
                0 => plan.hop(from, to, 1_000 + late, 1_000 + late.max(0) + rng.pick(&[0, 1, 60, 61])),
                1 => plan.one_way(from, to, rng.range(1, 600) as u32),
                _ => plan.one_way(from, to, 600 + rng.pick(&[0, 1, 2, 300])),
            }
        }
    }
    let network = plan.build();
    let record = network.walks.iter().position(|walk| walk.to as usize == hub && walk.length == 1).unwrap_or(0) as u32;
    let query = Query { record, offset: 1, arrival: 1_000, duration: 60, speed: 10 };
    let ground = Ground::new(Scene { network, query }, None);
    let mut all = Vec::new();
    let held = ground.held(4);
    for k in 0..held.len() {
        let most = held[..=k].iter().max().copied().unwrap_or(0);
        for room in [most, most.saturating_sub(1), most + 1, held[k], count] {
            all.push(Case { limit: k as u32, held: rng.bytes(HELD * room), ..ground.case(Kind::Run, rng) });
        }
    }
    all.push(ground.case(Kind::Run, rng));
    all.push(ground.case(Kind::Parts, rng));
    all
}

/// The list, for targets of any length.
fn made(ground: &Ground, rng: &mut Rng) -> Vec<Case> {
    let right = ground.bytes.list.len();
    let lengths = [right, right + 4, right.saturating_sub(4), right + 1, right.saturating_sub(1), 0, right + 400, 2 * right];
    let case = |len: usize| Case { list: rng.bytes(len), ..ground.case(Kind::List, rng) };
    lengths.map(case).to_vec()
}

/// Lists that are not right, in the ways that programs make them.
fn wrong_lists(bytes: &Bytes, rng: &mut Rng) -> Vec<Vec<u8>> {
    let words: Vec<u32> = bytes.list.chunks(4).map(|chunk| u32::from_be_bytes(chunk.try_into().unwrap())).collect();
    let count = words.len();
    let mut all: Vec<Vec<u32>> = vec![(0..count as u32).collect(), vec![0; count], words.iter().rev().copied().collect()];
    for _ in 0..if count == 0 { 0 } else { 8 } {
        let (a, b) = (rng.below(count), rng.below(count));
        let mut list = words.clone();
        match rng.below(9) {
            0 | 1 => list.swap(a, b),
            2 | 3 => list.swap(a, (a + 1) % count),
            4 => list[a] = list[b],
            5 => list[a] = rng.pick(&[count as u32, NONE, words[a] | 0x8000_0000, words[a].wrapping_add(1), words[a] ^ 0x4000_0000]),
            6 => list.rotate_left(1 + a),
            7 => list[a..].sort(),
            // One is left out, and the last stands twice.
            _ => {
                list.remove(a);
                list.push(list.last().copied().unwrap_or(0));
            }
        }
        all.push(list);
    }
    all.into_iter().map(|list| list.iter().flat_map(|word| word.to_be_bytes()).collect()).collect()
}

fn damaged(ground: &Ground, rng: &mut Rng) -> Vec<Case> {
    let mut all = Vec::new();
    for list in wrong_lists(&ground.bytes, rng) {
        let kind = rng.pick(&[Kind::Run, Kind::Parts]);
        let mut case = Case { list, ..ground.case(kind, rng) };
        if rng.chance(30) {
            damage::query(&mut case.query, rng);
        }
        if rng.chance(20) {
            case.held.clear();
            case.parts.clear();
        }
        all.push(case);
    }
    all
}

/// One fault at a record of the tables, and the list that was right before.
fn harmed(ground: &Ground, rng: &mut Rng) -> Vec<Case> {
    let mut all = Vec::new();
    for _ in 0..12 {
        let harm = damage::any(rng);
        let places = harm.places(&ground.scene.network);
        if places == 0 {
            continue;
        }
        let mut network: Network = ground.scene.network.clone();
        harm.put(&mut network, rng.below(places), rng);
        let kind = rng.pick(&KINDS);
        let mut case = ground.case(kind, rng);
        case.vertices = network.vertices.iter().flat_map(|v| v.bytes()).collect();
        case.walks = network.walks.iter().flat_map(|w| w.bytes()).collect();
        case.hops = network.hops.iter().flat_map(|h| h.bytes()).collect();
        case.hop_size = 16;
        if kind != Kind::List && rng.chance(30) {
            let lists = wrong_lists(&ground.bytes, rng);
            case.list = lists[rng.below(lists.len())].clone();
        }
        if rng.chance(20) {
            damage::query(&mut case.query, rng);
        }
        all.push(case);
    }
    all
}

fn bad_length(case: &mut Case, rng: &mut Rng) {
    match rng.below(9) {
        0 => damage::resize(&mut case.vertices, rng),
        1 => damage::resize(&mut case.walks, rng),
        2 => damage::resize(&mut case.hops, rng),
        3 => case.hop_size = rng.pick(&damage::HOP_SIZES),
        4 => damage::resize(&mut case.list, rng),
        5 => damage::resize(&mut case.held, rng),
        6 => damage::resize(&mut case.settled, rng),
        7 => damage::resize(if rng.chance(50) { &mut case.entries } else { &mut case.parts }, rng),
        _ => damage::resize(&mut case.answer, rng),
    }
}

/// Lengths that fit nothing.
fn cut(ground: &Ground, rng: &mut Rng) -> Vec<Case> {
    let mut all = Vec::new();
    for _ in 0..20 {
        let kind = rng.pick(&KINDS);
        let mut case = ground.case(kind, rng);
        (0..rng.pick(&[1, 1, 2])).for_each(|_| bad_length(&mut case, rng));
        all.push(case);
    }
    all
}

/// Queries at their limits and beyond.
fn asked(ground: &Ground, rng: &mut Rng) -> Vec<Case> {
    let mut all = Vec::new();
    for _ in 0..14 {
        let kind = rng.pick(&[Kind::Run, Kind::Parts]);
        let mut case = ground.case(kind, rng);
        damage::query(&mut case.query, rng);
        if rng.chance(30) {
            damage::query(&mut case.query, rng);
        }
        all.push(case);
    }
    all
}

/// Settled lists in any order, at any distance, with the zeros behind a list, and with bad entries.
fn listed(ground: &Ground, rng: &mut Rng) -> Vec<Case> {
    let (count, window) = (ground.bytes.vertices.len() / VERTEX, ground.scene.query.duration * ground.scene.query.speed);
    let mut all = Vec::new();
    for _ in 0..14 {
        let mut list = ground.settled.clone();
        if rng.chance(60) {
            list = (0..count.min(50) as u32).map(|vertex| Settled { vertex, distance: rng.below(window as usize + 1) as u32 }).collect();
        }
        for i in (1..list.len()).rev() {
            list.swap(i, rng.below(i + 1));
        }
        list.truncate(rng.below(list.len() + 1));
        let bad = if list.is_empty() || rng.chance(40) { 0 } else { rng.pick(&[1, 1, 2]) };
        for _ in 0..bad {
            let (a, b) = (rng.below(list.len()), rng.below(list.len()));
            match rng.below(4) {
                0 => list[a].vertex = list[b].vertex,
                1 => list[a].distance = rng.pick(&[window, window + 1, NONE]),
                2 => list[a].vertex = rng.pick(&[count as u32, NONE, list[a].vertex ^ 0x1_0000]),
                _ => list.push(Settled { vertex: 0, distance: 0 }),
            }
        }
        let mut case = Case { entries: entries(&list), ..ground.case(Kind::Parts, rng) };
        if rng.chance(40) {
            let room = rng.below(case.parts.len() / PART + 1);
            case.parts.truncate(PART * room);
        }
        all.push(case);
    }
    all
}

/// Several faults at once: which of them is told is the order of refusals.
fn several(ground: &Ground, rng: &mut Rng) -> Vec<Case> {
    let mut all = Vec::new();
    for _ in 0..14 {
        let kind = rng.pick(&KINDS);
        let mut case = ground.case(kind, rng);
        if rng.chance(40) {
            damage::query(&mut case.query, rng);
        }
        if rng.chance(40) && kind != Kind::List {
            let lists = wrong_lists(&ground.bytes, rng);
            case.list = lists[rng.below(lists.len())].clone();
        }
        if rng.chance(30) {
            let at = rng.below(case.vertices.len());
            case.vertices[at] ^= 1;
        }
        if rng.chance(15) && !case.walks.is_empty() {
            let at = rng.below(case.walks.len());
            case.walks[at] ^= rng.pick(&[1, 0x80]);
        }
        if rng.chance(15) {
            bad_length(&mut case, rng);
        }
        if rng.chance(30) && !case.entries.is_empty() {
            let at = rng.below(case.entries.len());
            case.entries[at] ^= 0x40;
        }
        if rng.chance(30) {
            case.parts.clear();
        }
        all.push(case);
    }
    all
}

/// At the limits of the tables, with the refusal that each is known to get.
pub fn big() -> Vec<(Case, (u32, u32))> {
    let mut rng = Rng::new(11, 11);
    let (scene, _) = turned(&full_scene(3_600), 36_000);
    let ground = Ground::new(scene, None);
    let last = ground.bytes.list.len() / 4 - 1;
    let mut all = vec![(ground.case(Kind::List, &mut rng), (0, 0)), (ground.case(Kind::Run, &mut rng), (0, 0)), (ground.case(Kind::Parts, &mut rng), (0, 0))];
    let mut swapped = ground.case(Kind::Run, &mut rng);
    swapped.list.rotate_left(4);
    swapped.list[..4 * last - 4].copy_from_slice(&ground.bytes.list[..4 * last - 4]);
    let place = swapped.list.chunks(4).zip(ground.bytes.list.chunks(4)).position(|(a, b)| a != b).unwrap_or(0);
    all.push((swapped, (22, place as u32)));
    let mut longer = ground.case(Kind::Parts, &mut rng);
    longer.list.extend([0; 4]);
    all.push((longer, (1, 6)));
    all.extend(hubs(&mut rng));
    all.extend(rows(&mut rng));
    all.extend(crowd(&mut rng));
    all
}

/// A row of 65,534 records, a walk and a hop to every other vertex: what the walk offers is above D, the hop has left, or comes behind D,
/// or for every other neighbour in time; or another record still leads to every other one. Room for what the step holds, and a slot less.
fn rows(rng: &mut Rng) -> Vec<(Case, (u32, u32))> {
    let mut all = Vec::new();
    for (rides, stays) in [(false, false), (true, false), (false, true), (true, true)] {
        let mut plan = Plan { vertices: 65_536, ..Plan::default() };
        plan.one_way(65_534, 0, 1);
        for (i, v) in (1..65_535).step_by(2).enumerate() {
            plan.one_way(0, v, 601 + i as u32 % 500);
            let (departure, arrival) = if rides && i % 4 == 0 { (1_000, 1_060) } else { [(999, 1_001), (1_001, 1_061)][i % 2] };
            plan.hop(0, 65_534 - v, departure, arrival);
            if stays && i % 4 == 1 {
                plan.one_way(65_534, v, 7);
            }
        }
        let network = plan.build();
        let record = network.walks.iter().position(|walk| walk.to == 0).unwrap_or(0) as u32;
        let query = Query { record, offset: 1, arrival: 1_000, duration: 60, speed: 10 };
        let ground = Ground::new(Scene { network, query }, None);
        let room = ground.held(1).iter().max().copied().unwrap_or(0);
        for (less, told) in [(0, (0, 0)), (1, (8, u32::from(room > 1)))] {
            all.push((Case { limit: 1, held: rng.bytes(HELD * (room - less)), ..ground.case(Kind::Run, rng) }, told));
        }
        all.push((ground.case(Kind::Run, rng), (0, 0)));
        all.push((ground.case(Kind::Parts, rng), (0, 0)));
    }
    all
}

/// As many records as there can be lead to one vertex, more than a departing count can tell: they remain there.
fn crowd(rng: &mut Rng) -> Vec<(Case, (u32, u32))> {
    let ground = Ground::new(full_row(), None);
    let at = |limit: u32, rng: &mut Rng| (Case { limit, ..ground.case(Kind::Run, rng) }, (0, 0));
    let mut all = vec![at(0, rng), at(1, rng), at(2, rng), at(NONE, rng)];
    all.push((ground.case(Kind::List, rng), (0, 0)));
    all
}

/// One vertex with 65,535 neighbours: the courier leaves it to all of them, hopeless or not, and from all of them to it.
fn hubs(rng: &mut Rng) -> Vec<(Case, (u32, u32))> {
    let mut all = Vec::new();
    for (out, length) in [(true, 500), (true, 90_000), (false, 500)] {
        let mut plan = Plan { vertices: 65_536, ..Plan::default() };
        for v in 1..65_536 {
            if out {
                plan.one_way(0, v, length);
            } else {
                plan.one_way(v, 0, length);
            }
        }
        let query = Query { record: 0, offset: 0, arrival: 0, duration: 60, speed: 10 };
        let ground = Ground::new(Scene { network: plan.build(), query }, None);
        let held = ground.case(Kind::Run, rng).by(&Quick(Sound));
        all.push((ground.case(Kind::List, rng), (0, 0)));
        all.push((ground.case(Kind::Parts, rng), (0, 0)));
        let six = Answer::read(&held.answer);
        for (limit, room, refusal) in [(NONE, 65_536, (0, 0)), (0, 2, (0, 0)), (0, 1, (8, 0)), (1, six.held.max(2) as usize, (0, 0))] {
            let case = Case { limit, held: rng.bytes(HELD * room), ..ground.case(Kind::Run, rng) };
            let told = match (out, length, limit) {
                // 65,534 neighbours are met in one step.
                (true, 500, 1) => (8, 1),
                _ => refusal,
            };
            all.push((case, told));
        }
    }
    all
}

/// The scene of a group, if the journeys can be asked about it: few vertices, short walks.
pub fn by_journeys(seed: u64, index: u64) -> Option<Scene> {
    let (Ground { scene, .. }, _) = ground(seed, index);
    let walks = &scene.network.walks;
    let short = walks.iter().map(|walk| u64::from(walk.length)).sum::<u64>() < 3_000;
    (short && !walks.is_empty() && scene.network.vertices.len() <= 60).then_some(scene)
}

/// The right outcome, by the quick program.
pub fn right(case: &Case) -> Outcome {
    case.by(&Quick(Sound))
}

#[cfg(test)]
mod tests {
    use super::*;
    use std::collections::BTreeMap;

    /// Every refusal of each call comes often at each of its places, and what is accepted most of all.
    #[test]
    fn refusals_come_often() {
        let mut found: BTreeMap<(u8, u32, u32), u32> = BTreeMap::new();
        for case in stream(1).take(20_000) {
            let Some((number, place)) = case.refusal(&right(&case)) else {
                *found.entry((case.kind as u8, 99, 0)).or_default() += 1;
                continue;
            };
            let place = if matches!(number, 1 | 7 | 8 | 9 | 10 | 21 | 22) { place.min(9) } else { 0 };
            *found.entry((case.kind as u8, number, place)).or_default() += 1;
        }
        let often = |kind: Kind, number: u32, places: &[u32]| {
            for &place in places {
                let times = found.get(&(kind as u8, number, place)).copied().unwrap_or(0);
                assert!(times >= 5, "{kind:?} {number} {place}: {times} times in {found:?}");
            }
        };
        for (kind, places) in [(Kind::List, &[0, 1, 2, 6][..]), (Kind::Run, &[0, 1, 2, 3, 4, 6]), (Kind::Parts, &[0, 1, 2, 4, 5, 6])] {
            often(kind, 0, &[0]);
            often(kind, 1, places);
            (2..=6).for_each(|number| often(kind, number, &[0]));
        }
        for kind in [Kind::Run, Kind::Parts] {
            often(kind, 22, &[0, 1, 2, 3, 4, 5, 6, 7, 8, 9]);
            often(kind, 7, &[0, 1, 2, 3, 4]);
            often(kind, 99, &[0]);
        }
        often(Kind::Run, 8, &[0, 1, 2, 3, 4, 5, 6, 7]);
        often(Kind::Run, 9, &[1, 2, 3, 4, 5, 6, 7, 8, 9]);
        often(Kind::Parts, 21, &[0, 1, 2, 3, 4, 5]);
        often(Kind::Parts, 10, &[0, 1, 2, 3, 4, 5, 6, 7, 8, 9]);
    }
}
