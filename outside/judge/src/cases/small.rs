//! Random small networks in which ties and equalities happen often.

use std::collections::BTreeSet;

use crate::mutant::Sound;
use crate::network::{Plan, Scene};
use crate::records::{Answer, Hop, Query, Settled, Walk};
use crate::rng::Rng;

const FIRST_TIME: i64 = -86_400;
const LAST_TIME: i64 = 172_800;

/// A good network with a good query (if it has a walk at all).
pub fn scene(rng: &mut Rng) -> Scene {
    let count = vertices(rng);
    let query = Query {
        record: 0,
        offset: 0,
        arrival: arrival(rng),
        duration: duration(rng),
        speed: speed(rng),
    };
    let mut plan = Plan {
        vertices: count,
        ..Plan::default()
    };
    if count > 1 {
        add_roads(&mut plan, query.speed, rng);
        add_hops(&mut plan, query.arrival, rng);
    }
    if rng.chance(50) {
        waits(&mut plan, rng);
    }
    let network = plan.build();
    let mut scene = Scene { network, query };
    place(&mut scene, rng);
    if rng.chance(50) {
        hop_in_time(&mut scene, rng);
    }
    if rng.chance(40) {
        rides_at_once(&mut scene, rng);
    }
    match rng.below(20) {
        0..=6 => window_at_distance(&mut scene, rng),
        7..=10 => window_at_wait(&mut scene, rng),
        _ => {}
    }
    scene
}

/// Some hundred vertices, a town of short streets: its held table is large,
/// and vertex numbers tell nothing of where a vertex lies.
pub fn town(rng: &mut Rng) -> Scene {
    let speed = rng.pick(&[1, 2, 10]);
    let side = rng.range(8, 16) as usize;
    let mut plan = streets(side, speed, rng);
    add_hops(&mut plan, 1_000, rng);
    if rng.chance(50) {
        waits(&mut plan, rng);
    }
    let query = Query {
        record: 0,
        offset: 0,
        arrival: 1_000,
        duration: rng.range(10, 50) as u32,
        speed,
    };
    let network = plan.build();
    let mut scene = Scene { network, query };
    place(&mut scene, rng);
    scene
}

/// The same small network, but its vertices lie far apart in the largest table
/// there is, on both sides of its middle.
pub fn spread(mut scene: Scene, rng: &mut Rng) -> Scene {
    let mut numbers = BTreeSet::new();
    while numbers.len() < scene.network.vertices.len() {
        numbers.insert(match rng.below(4) {
            0 => rng.range(32_764, 32_771) as u32,
            _ => rng.below(65_536) as u32,
        });
    }
    // Ascending, so that the tables stay in order.
    let numbers: Vec<u32> = numbers.into_iter().collect();
    let place = |vertex: &mut u32| *vertex = numbers[*vertex as usize];
    for walk in &mut scene.network.walks {
        place(&mut walk.from);
        place(&mut walk.to);
    }
    for hop in &mut scene.network.hops {
        place(&mut hop.from);
        place(&mut hop.to);
    }
    scene.network.count(65_536);
    scene
}

fn streets(side: usize, speed: u32, rng: &mut Rng) -> Plan {
    let mut number: Vec<usize> = (0..side * side).collect();
    for i in (1..number.len()).rev() {
        number.swap(i, rng.below(i + 1));
    }
    let mut plan = Plan {
        vertices: number.len(),
        ..Plan::default()
    };
    for v in 0..number.len() {
        let right = (v % side + 1 < side).then_some(v + 1);
        let down = (v + side < number.len()).then_some(v + side);
        for next in [right, down].into_iter().flatten() {
            let length = speed * rng.range(1, 5) as u32;
            match rng.below(8) {
                0 => plan.one_way(number[v], number[next], length),
                _ => plan.road(number[v], number[next], length),
            }
        }
    }
    plan
}

fn vertices(rng: &mut Rng) -> usize {
    match rng.below(100) {
        0 => 1,
        1..=4 => rng.range(13, 40) as usize,
        _ => rng.range(2, 12) as usize,
    }
}

fn speed(rng: &mut Rng) -> u32 {
    match rng.below(10) {
        0..=4 => rng.range(1, 3) as u32,
        5..=6 => 10,
        7 => 100,
        _ => rng.range(1, 100) as u32,
    }
}

fn arrival(rng: &mut Rng) -> i32 {
    match rng.below(10) {
        0..=1 => 0,
        2..=3 => rng.range(1, 20) as i32,
        4 => 172_800,
        5 => rng.range(0, 172_800) as i32,
        _ => rng.pick(&[1_000, 36_000, 86_400]),
    }
}

fn duration(rng: &mut Rng) -> u32 {
    match rng.below(20) {
        0..=1 => 1,
        2 => 86_400,
        3 => rng.range(1, 86_400) as u32,
        _ => rng.range(1, 24) as u32,
    }
}

/// Mostly whole seconds of walking, so that walks meet hops and each other.
fn length(speed: u32, rng: &mut Rng) -> u32 {
    let speed = i64::from(speed);
    let length = match rng.below(20) {
        0 => rng.pick(&[1, 2, 99_999, 100_000]),
        1..=6 => rng.range(1, 4 * speed),
        _ => speed * rng.range(1, 6),
    };
    length as u32
}

/// Two different vertices; few of them, so that parallel records arise.
fn ends(vertices: usize, rng: &mut Rng) -> (usize, usize) {
    let from = rng.below(vertices);
    let to = (from + 1 + rng.below(vertices - 1)) % vertices;
    (from, to)
}

fn add_roads(plan: &mut Plan, speed: u32, rng: &mut Rng) {
    let most = if rng.chance(4) { 0 } else { 2 * plan.vertices };
    let roads = rng.range(most.min(1) as i64, most as i64);
    for _ in 0..roads {
        let (from, to) = ends(plan.vertices, rng);
        let length = length(speed, rng);
        match rng.below(10) {
            0..=5 => plan.road(from, to, length),
            6..=8 => plan.one_way(from, to, length),
            // There and back, but not one road: no twins.
            _ => {
                plan.one_way(from, to, length);
                plan.one_way(to, from, length);
            }
        }
    }
    mix_walks(plan, rng);
}

/// Records into one vertex keep the order of the plan, so mix it.
fn mix_walks(plan: &mut Plan, rng: &mut Rng) {
    for i in (1..plan.walks.len()).rev() {
        swap(plan, i, rng.below(i + 1));
    }
}

/// Lights at the ends of some walks: each for itself, so that twins differ.
fn waits(plan: &mut Plan, rng: &mut Rng) {
    for walk in &mut plan.walks {
        walk.wait = match rng.below(10) {
            0..=3 => 0,
            4..=7 => rng.range(1, 6) as u32,
            8 => rng.pick(&[1, 119, 120]),
            _ => rng.range(1, 120) as u32,
        };
    }
}

/// Numbers the vertices at random, and puts the records in any order.
pub fn mix(plan: &mut Plan, rng: &mut Rng) {
    let mut numbers: Vec<u32> = (0..plan.vertices as u32).collect();
    for i in (1..numbers.len()).rev() {
        numbers.swap(i, rng.below(i + 1));
    }
    let walks = plan.walks.iter_mut().map(|w| [&mut w.from, &mut w.to]);
    let hops = plan.hops.iter_mut().map(|h| [&mut h.from, &mut h.to]);
    for end in walks.chain(hops).flatten() {
        *end = numbers[*end as usize];
    }
    mix_walks(plan, rng);
    for i in (1..plan.hops.len()).rev() {
        plan.hops.swap(i, rng.below(i + 1));
    }
}

fn swap(plan: &mut Plan, a: usize, b: usize) {
    plan.walks.swap(a, b);
    for walk in &mut plan.walks {
        walk.twin = match walk.twin as usize {
            twin if twin == a => b as u32,
            twin if twin == b => a as u32,
            _ => walk.twin,
        };
    }
}

fn add_hops(plan: &mut Plan, arrival: i32, rng: &mut Rng) {
    let hops = rng.range(0, 2 * plan.vertices as i64);
    for _ in 0..hops {
        let (from, to) = ends(plan.vertices, rng);
        let around = match rng.below(12) {
            0 => rng.range(FIRST_TIME, LAST_TIME),
            1 => rng.pick(&[FIRST_TIME, LAST_TIME]),
            _ => i64::from(arrival) + rng.range(-22, 2),
        };
        let (departure, arrival) = times(around, rng);
        plan.hop(from, to, departure, arrival);
    }
}

/// A departure not after this arrival, both brought inside the limits.
fn times(arrival: i64, rng: &mut Rng) -> (i32, i32) {
    let arrival = arrival.clamp(FIRST_TIME, LAST_TIME);
    let ride = match rng.below(20) {
        0 => 200_000,
        1 => 0,
        _ => rng.range(1, 7),
    };
    ((arrival - ride).max(FIRST_TIME) as i32, arrival as i32)
}

/// Puts the query on a walk: at either end or between.
pub fn place(scene: &mut Scene, rng: &mut Rng) {
    if scene.network.walks.is_empty() {
        return;
    }
    let record = rng.below(scene.network.walks.len());
    let length = scene.network.walks[record].length;
    scene.query.record = record as u32;
    scene.query.offset = match rng.below(8) {
        0 | 1 => 0,
        2 | 3 => length,
        4 => length - 1,
        _ => rng.range(0, i64::from(length)) as u32,
    };
}

/// The vertices within the longest window there is, with their distances.
fn distances(scene: &Scene) -> Vec<Settled> {
    let mut wide = scene.clone();
    wide.query.duration = 86_400;
    let outcome = wide.run_case(u32::MAX).fast(Sound);
    let count = Answer::read(&outcome.answer).settled as usize;
    let row = |i| Settled::read(&outcome.settled, i);
    (0..count).map(row).collect()
}

/// Makes D the distance of some vertex, or one second off it.
pub fn window_at_distance(scene: &mut Scene, rng: &mut Rng) {
    let list = distances(scene);
    if list.is_empty() {
        return;
    }
    let distance = i64::from(rng.pick(&list).distance);
    let seconds = distance / i64::from(scene.query.speed) + rng.pick(&[0, 0, 0, 1, -1]);
    scene.query.duration = seconds.clamp(1, 86_400) as u32;
}

/// Makes what is left at a vertex, or at the place itself, just reach the wait
/// of a walk that ends there, or one second beside it.
fn window_at_wait(scene: &mut Scene, rng: &mut Rng) {
    let list = distances(scene);
    if list.is_empty() {
        return;
    }
    let far = rng.pick(&list);
    let speed = i64::from(scene.query.speed);
    let e = scene.network.walks[scene.query.record as usize];
    let waiting = |walk: &&Walk| walk.wait > 0 && walk.to == far.vertex;
    let into: Vec<Walk> = scene
        .network
        .walks
        .iter()
        .filter(waiting)
        .copied()
        .collect();
    let (wait, distance) = match into.is_empty() {
        true => (e.wait, 0),
        false => (rng.pick(&into).wait, i64::from(far.distance)),
    };
    let seconds = (distance + speed - 1) / speed + i64::from(wait) + rng.pick(&[0, 0, 1, -1]);
    scene.query.duration = seconds.clamp(1, 86_400) as u32;
}

/// Adds rides of no minutes, many at one moment: the last one at which a
/// vertex still reaches the place, mostly. Most lead on to that vertex, in
/// chains; the others, and rides back, make circles, also of vertices that
/// reach the place in no other way.
fn rides_at_once(scene: &mut Scene, rng: &mut Rng) {
    let list = distances(scene);
    let vertices = scene.network.vertices.len();
    if list.is_empty() || vertices < 2 {
        return;
    }
    for _ in 0..rng.range(1, 2) {
        let far = rng.pick(&list);
        let walked = far.distance.div_ceil(scene.query.speed);
        let moment = scene.query.arrival - walked as i32 - i32::from(rng.chance(10));
        let second = moment.max(FIRST_TIME as i32);
        let mut leading = vec![far.vertex];
        for _ in 0..rng.range(1, vertices as i64 + 2) {
            let (from, mut to) = ends(vertices, rng);
            let on = rng.pick(&leading) as usize;
            if rng.chance(70) && on != from {
                leading.push(from as u32);
                to = on;
            }
            ride_at(scene, from, to, second);
            if rng.chance(20) {
                ride_at(scene, to, from, second);
            }
        }
    }
    scene.network.hops.sort_by_key(|hop| hop.to);
    scene.network.count(vertices);
}

fn ride_at(scene: &mut Scene, from: usize, to: usize, second: i32) {
    scene.network.hops.push(Hop {
        from: from as u32,
        to: to as u32,
        departure: second,
        arrival: second,
    });
}

/// Makes a hop arrive at the last moment, or one second beside it.
fn hop_in_time(scene: &mut Scene, rng: &mut Rng) {
    let list = distances(scene);
    let Some(far) = (!list.is_empty()).then(|| rng.pick(&list)) else {
        return;
    };
    let speed = i64::from(scene.query.speed);
    let walked = (i64::from(far.distance) + speed - 1) / speed;
    let moment = i64::from(scene.query.arrival) - walked + rng.pick(&[0, 0, 1, -1]);
    let into = scene.network.hops.iter_mut().filter(|h| h.to == far.vertex);
    for hop in into {
        if rng.chance(60) {
            (hop.departure, hop.arrival) = times(moment, rng);
        }
    }
}
