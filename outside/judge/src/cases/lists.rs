//! Lists for the parts operation: a run's own, and any other that is good; and
//! entries that are not.

use std::collections::BTreeSet;

use super::damage::several;
use crate::mutant::Sound;
use crate::network::Scene;
use crate::outcome::Case;
use crate::records::{Answer, PartsAnswer, Settled, Walk, PART, SETTLED};
use crate::rng::Rng;

/// The cases of one of the twelve groups about lists.
pub fn varied(turn: u64, scene: &Scene, rng: &mut Rng) -> Vec<Case> {
    if scene.network.walks.is_empty() {
        // No query is good then.
        return vec![some_case(scene, rng)];
    }
    match turn {
        0..=2 => any_lists(scene, rng),
        3 => own_orders(scene, rng),
        4 => tails(scene, rng),
        5..=6 => every_room(scene, rng),
        7..=8 => each_entry(scene, rng),
        9 => several_entries(scene, rng),
        10 => several_reasons(scene, rng),
        _ => lengths(scene, rng),
    }
}

/// Lists over a larger network.
pub fn few(scene: &Scene, rng: &mut Rng) -> Vec<Case> {
    if scene.network.walks.is_empty() {
        return Vec::new();
    }
    let mut cases = own_orders(scene, rng);
    for _ in 0..4 {
        let list = any(scene, rng);
        let room = parts(scene, &list);
        cases.push(with_room(scene, &list, room));
        cases.push(with_room(scene, &list, room.saturating_sub(1)));
        cases.push(with_room(scene, &list, rng.below(room + 1)));
        cases.extend(several_entries(scene, rng).into_iter().take(3));
    }
    cases
}

/// Parts of some list, which may have a bad entry.
pub fn some_case(scene: &Scene, rng: &mut Rng) -> Case {
    let vertices = scene.network.vertices.len() as u32;
    let mut list = match rng.chance(50) && !scene.network.walks.is_empty() {
        true => own(scene, u32::MAX),
        false => any(scene, rng),
    };
    if rng.chance(20) {
        list.push(Settled {
            vertex: vertices,
            distance: 0,
        });
    }
    scene.parts_case(&list)
}

fn window(scene: &Scene) -> u32 {
    scene.query.duration.saturating_mul(scene.query.speed)
}

/// What a run settles.
fn own(scene: &Scene, limit: u32) -> Vec<Settled> {
    let after = scene.run_case(limit).fast(Sound);
    let count = Answer::read(&after.answer).settled as usize;
    (0..count)
        .map(|i| Settled::read(&after.settled, i))
        .collect()
}

/// How many parts a good list gives.
fn parts(scene: &Scene, list: &[Settled]) -> usize {
    let after = scene.parts_case(list).fast(Sound);
    PartsAnswer::read(&after.parts_answer).parts as usize
}

fn with_room(scene: &Scene, list: &[Settled], room: usize) -> Case {
    let mut case = scene.parts_case(list);
    case.parts = vec![0; room * PART];
    case
}

fn shuffle<T>(list: &mut [T], rng: &mut Rng) {
    for i in (1..list.len()).rev() {
        list.swap(i, rng.below(i + 1));
    }
}

/// Vertices with records first, since the others give no part; some of them,
/// in any order, at any distance up to D.
fn any(scene: &Scene, rng: &mut Rng) -> Vec<Settled> {
    let network = &scene.network;
    let mut vertices: Vec<u32> = network.walks.iter().map(|walk| walk.to).collect();
    vertices.extend((0..4).map(|_| rng.below(network.vertices.len()) as u32));
    shuffle(&mut vertices, rng);
    let mut taken = BTreeSet::new();
    vertices.retain(|&vertex| taken.insert(vertex));
    let most = vertices.len();
    vertices.truncate(match rng.below(4) {
        0 => most,
        _ => rng.below(most + 1),
    });
    let entry = |&vertex: &u32| Settled {
        vertex,
        distance: distance(scene, vertex, rng),
    };
    vertices.iter().map(entry).collect()
}

/// A distance at which something turns: nothing or everything is left, or a
/// walk that arrives at the vertex, or its part beside the place, is just
/// covered, or its wait just reached.
fn distance(scene: &Scene, vertex: u32, rng: &mut Rng) -> u32 {
    let most = window(scene);
    let into = scene.network.walks.iter().filter(|w| w.to == vertex);
    let into: Vec<Walk> = into.copied().collect();
    let turn = match rng.below(5) {
        _ if into.is_empty() => 0,
        0 => scene.query.offset,
        1 => rng.pick(&into).length,
        turn => {
            let walk = rng.pick(&into);
            let wait = walk.wait.saturating_mul(scene.query.speed);
            wait.saturating_add(if turn == 2 { 0 } else { walk.length })
        }
    };
    let left = (i64::from(turn) + rng.range(-1, 1)).clamp(0, i64::from(most));
    match rng.below(8) {
        0 => 0,
        1 => most,
        2 => most.saturating_sub(1),
        3..=4 => rng.range(0, i64::from(most)) as u32,
        _ => most - left as u32,
    }
}

fn any_lists(scene: &Scene, rng: &mut Rng) -> Vec<Case> {
    let mut cases: Vec<Case> = (0..16)
        .map(|_| scene.parts_case(&any(scene, rng)))
        .collect();
    for case in &mut cases {
        case.parts.resize(case.parts.len() + rng.below(3) * PART, 0);
    }
    cases
}

/// A run's own list as it is and in other orders.
fn own_orders(scene: &Scene, rng: &mut Rng) -> Vec<Case> {
    let list = own(scene, u32::MAX);
    let mut orders = vec![list.clone(); 5];
    orders[1].reverse();
    orders[2].sort_by_key(|entry| entry.vertex);
    shuffle(&mut orders[3], rng);
    orders[4].rotate_left(list.len() / 2);
    let mut cases: Vec<Case> = orders.iter().map(|list| scene.parts_case(list)).collect();
    // One entry more than the run settles is just as good: it need not be true.
    let vertices = scene.network.vertices.len() as u32;
    let fresh = (0..vertices).find(|v| list.iter().all(|entry| entry.vertex != *v));
    if let Some(vertex) = fresh {
        let mut longer = list;
        let distance = distance(scene, vertex, rng);
        longer.insert(rng.below(longer.len() + 1), Settled { vertex, distance });
        cases.push(scene.parts_case(&longer));
    }
    cases
}

/// The zeros behind a list read as entries: vertex 0 at distance 0. Where it is
/// not listed, one of them is even accepted.
fn tails(scene: &Scene, rng: &mut Rng) -> Vec<Case> {
    let zero = Settled {
        vertex: 0,
        distance: 0,
    };
    let mut cases = Vec::new();
    let all = own(scene, u32::MAX).len();
    for limit in 0..=all {
        let list = own(scene, limit as u32);
        let without: Vec<Settled> = list.iter().filter(|e| e.vertex != 0).copied().collect();
        let other = any(scene, rng);
        for mut list in [list, without, other] {
            let zeros = rng.pick(&[1, 1, 2, 2 + list.len()]);
            list.resize(list.len() + zeros, zero);
            cases.push(scene.parts_case(&list));
        }
    }
    cases.push(scene.parts_case(&[zero]));
    cases.push(scene.parts_case(&[zero, zero]));
    cases
}

/// For a run's own list and another: every room up to what is enough, and each
/// beginning of the list with room exact and one less.
fn every_room(scene: &Scene, rng: &mut Rng) -> Vec<Case> {
    let mut cases = Vec::new();
    for list in [own(scene, u32::MAX), any(scene, rng)] {
        let all = parts(scene, &list);
        for room in 0..=all + 1 {
            cases.push(with_room(scene, &list, room));
        }
        for end in 0..list.len() {
            let room = parts(scene, &list[..end]);
            cases.push(with_room(scene, &list[..end], room));
            cases.push(with_room(scene, &list[..end], room.saturating_sub(1)));
        }
    }
    cases
}

/// What can be wrong with an entry.
#[derive(Clone, Copy)]
enum Wrong {
    Vertex(u32),
    /// This much higher, so that the lower bytes are those of a good one.
    VertexFar(u32),
    /// The vertex of some other entry, with its own distance.
    Repeat,
    /// The very entry that stands before it.
    Twice,
    Distance(u32),
}

fn wrongs(scene: &Scene) -> Vec<Wrong> {
    let vertices = scene.network.vertices.len() as u32;
    let (most, speed) = (window(scene), scene.query.speed);
    let numbers = [vertices, vertices + 1, 65_536, 0x8000_0000, u32::MAX];
    let mut wrongs: Vec<Wrong> = numbers.map(Wrong::Vertex).to_vec();
    wrongs.extend([1 << 16, 1 << 17, 1 << 28, 1 << 29, 1 << 31].map(Wrong::VertexFar));
    wrongs.extend([Wrong::Repeat; 4]);
    wrongs.extend([Wrong::Twice; 2]);
    let above = [most + 1, most + speed - 1, most + speed, most + (1 << 24)];
    wrongs.extend(above.map(Wrong::Distance));
    wrongs.extend([0x7fff_ffff, 0x8000_0000, u32::MAX].map(Wrong::Distance));
    wrongs
}

impl Wrong {
    fn put(self, list: &mut [Settled], at: usize, rng: &mut Rng) {
        let other = list[rng.below(list.len())];
        match self {
            Wrong::Vertex(vertex) => list[at].vertex = vertex,
            Wrong::VertexFar(more) => list[at].vertex = list[at].vertex.wrapping_add(more),
            Wrong::Repeat => list[at].vertex = other.vertex,
            Wrong::Twice => list[at] = list[at.saturating_sub(1)],
            Wrong::Distance(distance) => list[at].distance = distance,
        }
    }
}

/// Some good list that is not empty.
fn some(scene: &Scene, rng: &mut Rng) -> Vec<Settled> {
    let mut list = match rng.chance(40) {
        true => own(scene, u32::MAX),
        false => any(scene, rng),
    };
    if list.is_empty() {
        list.push(Settled {
            vertex: rng.below(scene.network.vertices.len()) as u32,
            distance: window(scene),
        });
    }
    list
}

/// A fault in every entry in turn; then a distance of exactly D, which is none.
fn each_entry(scene: &Scene, rng: &mut Rng) -> Vec<Case> {
    let list = some(scene, rng);
    let wrongs = wrongs(scene);
    let mut cases = Vec::new();
    for at in 0..list.len() {
        for _ in 0..3 {
            let mut list = list.clone();
            rng.pick(&wrongs).put(&mut list, at, rng);
            cases.push(scene.parts_case(&list));
        }
        let mut edge = list.clone();
        edge[at].distance = window(scene);
        cases.push(scene.parts_case(&edge));
    }
    cases
}

/// Several faults in one list: the lowest record is told.
fn several_entries(scene: &Scene, rng: &mut Rng) -> Vec<Case> {
    let wrongs = wrongs(scene);
    let harmed = |_| {
        let mut list = some(scene, rng);
        for _ in 0..rng.range(2, 4) {
            let at = rng.below(list.len());
            rng.pick(&wrongs).put(&mut list, at, rng);
        }
        scene.parts_case(&list)
    };
    (0..12).map(harmed).collect()
}

/// Faults of several kinds: tables, query, entries, room and lengths, each of
/// them now and then.
fn several_reasons(scene: &Scene, rng: &mut Rng) -> Vec<Case> {
    let mut cases = Vec::new();
    for _ in 0..24 {
        let mut list = some(scene, rng);
        let room = parts(scene, &list);
        if rng.chance(60) {
            let at = rng.below(list.len());
            rng.pick(&wrongs(scene)).put(&mut list, at, rng);
        }
        let mut scene = scene.clone();
        if rng.chance(20) {
            several(&mut scene.network, rng);
        }
        if rng.chance(20) {
            scene.query.speed = rng.pick(&[0, 101]);
        }
        let room = match rng.below(3) {
            0 => room,
            1 => room.saturating_sub(1),
            _ => 0,
        };
        let mut case = with_room(&scene, &list, room);
        if rng.chance(10) {
            case.list.push(0);
        }
        if rng.chance(10) {
            case.parts.push(0);
        }
        cases.push(case);
    }
    cases
}

/// List and part buffer with every number of bytes too many, and answer slices
/// of every length around the right one.
fn lengths(scene: &Scene, rng: &mut Rng) -> Vec<Case> {
    let case = scene.parts_case(&some(scene, rng));
    let mut cases = Vec::new();
    for more in 0..SETTLED {
        let mut one = case.clone();
        one.list.extend(rng.bytes(more));
        cases.push(one);
    }
    for more in 1..PART {
        let mut one = case.clone();
        one.parts.resize(one.parts.len() + more, 0);
        if rng.chance(20) {
            one.list.push(0);
        }
        cases.push(one);
    }
    for less in 1..=5 {
        let mut one = case.clone();
        one.list.truncate(one.list.len() - less);
        cases.push(one);
    }
    for len in [0, 1, 4, 8, 11, 13, 16, 23, 24, 25, 36] {
        let mut one = case.clone();
        one.parts_answer = vec![0; len];
        if rng.chance(30) {
            one.list.push(0);
        }
        cases.push(one);
    }
    cases
}
