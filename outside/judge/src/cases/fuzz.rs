//! Cases with any damage: bytes, fields and records of good tables, queries,
//! rooms and jobs are changed without a plan. Some are mended afterwards, so
//! that what was changed comes as far as the search.

use super::{bought, hopeless, jobs, many, patients, small, trips};
use crate::mutant::Sound;
use crate::network::{Network, Scene};
use crate::outcome::{Call, Case};
use crate::records::{
    word, Answer, Hop, Walk, Way, ANSWER, ASKED, HELD, HOP, JOB, LISTED, NONE, PART, SETTLED,
    TRIP_HOP, VERTEX, WALK,
};
use crate::rng::Rng;

/// The case of this number.
pub fn case(seed: u64, index: u64) -> Case {
    let mut rng = Rng::new(seed ^ 0x6675_7a7a, index);
    let rng = &mut rng;
    let scene = match rng.below(1_000) {
        0 => {
            let scene = small::scene(rng);
            small::spread(scene, rng)
        }
        1..=30 => small::town(rng),
        31..=200 => hopeless::scene(rng),
        _ => small::scene(rng),
    };
    let limit = match rng.below(4) {
        0 => rng.below(12) as u32,
        1 => any_number(rng, scene.network.vertices.len()),
        _ => NONE,
    };
    let mut case = scene.pair_case(limit);
    case.call = match rng.below(24) {
        0..=2 => Call::Check,
        3..=6 => Call::Run,
        7..=11 => Call::Pair,
        12..=14 => Call::Judge,
        15..=16 => Call::Runs,
        17..=18 => Call::Patients,
        _ => Call::Parts,
    };
    if case.call == Call::Runs {
        queries(&mut case, &scene, rng);
    }
    if case.call == Call::Patients {
        evening(&mut case, &scene, rng);
    }
    if case.call == Call::Judge {
        judged(&mut case, &scene, rng);
    }
    if case.call == Call::Parts {
        list(&mut case, &scene, rng);
    }
    if rng.chance(8) {
        return moved(&case.hops, rng);
    }
    if rng.chance(50) {
        trips::any_trips(&mut case, rng);
    }
    for _ in 0..rng.pick(&[0, 0, 0, 1, 1, 2, 3, 9]) {
        any_table(&mut case, rng);
    }
    if rng.chance(30) {
        mend(&mut case);
        if rng.chance(50) {
            trips::any_trips(&mut case, rng);
        }
    }
    if rng.chance(2) {
        case.hop_size = any_number(rng, 20);
    }
    if rng.chance(25) {
        query(&mut case, rng);
    }
    rooms(&mut case, rng);
    case.null = rng.chance(50);
    case
}

/// A move of damaged hops into a target of any length.
fn moved(hops: &[u8], rng: &mut Rng) -> Case {
    let mut source = trips::move_case(Way::Forward, hops.to_vec(), 0);
    let (way, size) = match rng.chance(50) {
        true => (Way::Forward, HOP),
        false => {
            trips::widen(&mut source, || 0);
            (Way::Backward, TRIP_HOP)
        }
    };
    for _ in 0..rng.pick(&[0, 0, 1, 1, 2, 3]) {
        damage(&mut source.hops, size, rng);
    }
    let mut case = trips::fitting(way, source.hops);
    if rng.chance(15) {
        relength(&mut case.target, HOP + TRIP_HOP - size, rng);
    }
    case.target = rng.bytes(case.target.len());
    case.null = rng.chance(50);
    case
}

/// What a run settles, and some changes to it.
fn list(case: &mut Case, scene: &Scene, rng: &mut Rng) {
    let after = scene.run_case(case.limit).fast(Sound);
    let count = Answer::read(&after.answer).settled as usize;
    // Now and then the zeros behind the list are passed along.
    let end = count + rng.pick(&[0, 0, 0, 0, 0, 1, 2]);
    case.list = after.settled;
    case.list.truncate(end * SETTLED);
    for _ in 0..rng.pick(&[0, 0, 0, 1, 1, 2, 3]) {
        damage(&mut case.list, SETTLED, rng);
    }
}

/// A run's own list with its records, and some changes to it.
fn judged(case: &mut Case, scene: &Scene, rng: &mut Rng) {
    if !scene.network.walks.is_empty() {
        let list = bought::whole(scene);
        case.list = list.iter().flat_map(|entry| entry.bytes()).collect();
    }
    for _ in 0..rng.pick(&[0, 0, 0, 1, 1, 2, 3]) {
        damage(&mut case.list, LISTED, rng);
    }
}

/// Some queries, and changes to them.
fn queries(case: &mut Case, scene: &Scene, rng: &mut Rng) {
    *case = many::some_case(scene, rng);
    for _ in 0..rng.pick(&[0, 0, 0, 1, 1, 2, 3]) {
        damage(&mut case.queries, ASKED, rng);
    }
    let fitting = case.queries.len() / ASKED * ANSWER;
    case.answer.resize(fitting, 0);
}

/// An evening, and changes to its hours, counts and report.
fn evening(case: &mut Case, scene: &Scene, rng: &mut Rng) {
    *case = patients::some_case(scene, rng);
    match rng.below(12) {
        0 => case.gap = any_number(rng, 3_600),
        1 => case.arrivals = any_number(rng, 96),
        2..=5 => damage(&mut case.patients, 4, rng),
        6 => relength(&mut case.report, 4, rng),
        _ => {}
    }
}

/// The job of this number.
pub fn job(seed: u64, index: u64) -> Vec<u8> {
    let mut rng = Rng::new(seed ^ 0x6675_7a6a, index);
    let mut bytes = match rng.below(3) {
        0 => jobs::job(seed, index),
        _ => jobs::encode(&small::scene(&mut rng)),
    };
    for _ in 0..rng.pick(&[0, 1, 1, 2, 3, 9]) {
        damage(&mut bytes, JOB, &mut rng);
    }
    bytes
}

/// Numbers at which something might break, around a count.
fn any_number(rng: &mut Rng, count: usize) -> u32 {
    let count = count as u32;
    match rng.below(8) {
        0 => 0,
        1 => count.wrapping_add(rng.pick(&[0, 1, u32::MAX])),
        2 => rng.below(count as usize + 1) as u32,
        3 => rng.pick(&[NONE, NONE - 1, 0x7fff_ffff, 0x8000_0000, 0xffff, 0x1_0000]),
        4 => rng.pick(&[1 << 28, 1 << 30, 1 << 24]) + rng.below(count as usize + 1) as u32,
        5 => rng.pick(&[100_000, 100_001, 86_400, 86_401, 172_800, 172_801]),
        6 => rng.range(-86_401, 20) as i32 as u32,
        _ => rng.draw() as u32,
    }
}

fn any_table(case: &mut Case, rng: &mut Rng) {
    match rng.below(5) {
        0 => damage(&mut case.vertices, VERTEX, rng),
        1 | 2 => damage(&mut case.walks, WALK, rng),
        _ => damage(&mut case.hops, case.hop_size as usize, rng),
    }
}

/// One change to records of this size.
fn damage(table: &mut Vec<u8>, size: usize, rng: &mut Rng) {
    let count = table.len() / size;
    if count == 0 || rng.chance(4) {
        return relength(table, size, rng);
    }
    let (one, other) = (size * rng.below(count), size * rng.below(count));
    let field = one + 4 * rng.below(size / 4);
    match rng.below(9) {
        0 => table[one + rng.below(size)] ^= 1 << rng.below(8),
        1 => table[one + rng.below(size)] = rng.draw() as u8,
        2 | 3 => put(table, field, any_number(rng, count)),
        4 => {
            // A little more or less, or so much that only lower bits stay.
            let more = rng.pick(&[1, 2, u32::MAX, 1 << 16, 1 << 24, 1 << 28, 1 << 29, 1 << 31]);
            let number = word(table, field).wrapping_add(more);
            put(table, field, number);
        }
        5 => table.copy_within(one..one + size, other),
        6 => (0..size).for_each(|i| table.swap(one + i, other + i)),
        7 => {
            table.drain(one..one + size);
        }
        _ => {
            let copy = table[one..one + size].to_vec();
            table.splice(other..other, copy);
        }
    }
}

fn put(table: &mut [u8], at: usize, number: u32) {
    table[at..at + 4].copy_from_slice(&number.to_be_bytes());
}

/// Another length, often no whole number of records.
fn relength(table: &mut Vec<u8>, size: usize, rng: &mut Rng) {
    let len = match rng.below(4) {
        0 => 0,
        1 => rng.below(table.len() + 1),
        2 => table.len() + rng.range(1, 2 * size as i64) as usize,
        _ => table.len() + size,
    };
    let more = rng.bytes(len.saturating_sub(table.len()));
    table.truncate(len);
    table.extend(more);
}

/// Puts walks and hops in order again and counts for the vertices; records
/// that no table may have are left out, and no walk keeps a twin.
fn mend(case: &mut Case) {
    let vertices = case.vertices.len() / VERTEX;
    let inside = |v: u32| (v as usize) < vertices;
    let mut network = Network::default();
    for i in 0..case.walks.len() / WALK {
        let walk = Walk::read(&case.walks, i);
        let long = (1..=100_000).contains(&walk.length);
        if inside(walk.from) && inside(walk.to) && walk.from != walk.to && long {
            let wait = walk.wait % 121;
            network.walks.push(Walk {
                twin: NONE,
                wait,
                ..walk
            });
        }
    }
    let size = case.hop_size as usize;
    for i in 0..case.hops.len() / size {
        let hop = Hop::read(&case.hops, size, i);
        if inside(hop.from) && inside(hop.to) && hop.from != hop.to {
            network.hops.push(hop);
        }
    }
    network.walks.sort_by_key(|walk| walk.to);
    network.hops.sort_by_key(|hop| hop.to);
    if vertices > 0 {
        network.count(vertices);
    }
    let tables = network.check_case();
    case.vertices = tables.vertices;
    case.walks = tables.walks;
    case.hops = tables.hops;
    case.hop_size = tables.hop_size;
}

fn query(case: &mut Case, rng: &mut Rng) {
    let walks = case.walks.len() / WALK;
    let number = any_number(rng, walks);
    let query = &mut case.query;
    match rng.below(5) {
        0 => query.record = number,
        1 => query.offset = number,
        2 => query.arrival = number as i32,
        3 => query.duration = number,
        _ => query.speed = number,
    }
}

/// Lent buffers of any length, with any bytes in them.
fn rooms(case: &mut Case, rng: &mut Rng) {
    for (buffer, size) in [
        (&mut case.held, HELD),
        (&mut case.settled, SETTLED),
        (&mut case.parts, PART),
    ] {
        let len = match rng.below(8) {
            0 => size * rng.below(buffer.len() / size + 1),
            1 => rng.below(buffer.len() + 1),
            2 => buffer.len() + size * rng.below(40),
            _ => buffer.len(),
        };
        *buffer = rng.bytes(len);
    }
    for answer in [&mut case.answer, &mut case.parts_answer] {
        let len = match rng.below(12) {
            0 => rng.below(60),
            _ => answer.len(),
        };
        *answer = rng.bytes(len);
    }
}
