//! Networks for the courier: those that the ordinary run is tried on, turned round, so that all their ties and equalities are
//! the courier's, and then tuned to waits and rides by his own distances.

use outside::cases::{hopeless, small};
use outside::network::{Network, Plan, Scene};
use outside::records::{Hop, Query, Settled, Tables, Walk, HOP, TRIP_HOP};
use outside::rng::Rng;

use crate::quick;
use crate::wrong::Sound;

const FIRST_TIME: i64 = -86_400;
const LAST_TIME: i64 = 172_800;

/// The bytes of a network's tables and of its list.
#[derive(Clone)]
pub struct Bytes {
    pub vertices: Vec<u8>,
    pub walks: Vec<u8>,
    pub hops: Vec<u8>,
    pub hop_size: u32,
    pub list: Vec<u8>,
}

impl Bytes {
    /// Hops of 16 bytes, or of 20 with any trips behind them. For tables in order.
    pub fn of(network: &Network, trips: Option<&mut Rng>) -> Self {
        let hops: Vec<[u8; HOP]> = network.hops.iter().map(Hop::bytes).collect();
        let (hop_size, hops) = match trips {
            None => (HOP, hops.concat()),
            Some(rng) => (TRIP_HOP, hops.iter().flat_map(|hop| [hop.to_vec(), rng.bytes(4)].concat()).collect()),
        };
        let mut bytes = Bytes {
            vertices: network.vertices.iter().flat_map(|v| v.bytes()).collect(),
            walks: network.walks.iter().flat_map(|w| w.bytes()).collect(),
            hops,
            hop_size: hop_size as u32,
            list: Vec::new(),
        };
        let mut list = vec![0; 4 * (network.walks.len() + network.hops.len())];
        quick::fill(bytes.tables(), &mut list, Sound);
        bytes.list = list;
        bytes
    }

    pub fn tables(&self) -> Tables<'_> {
        Tables { vertices: &self.vertices, walks: &self.walks, hops: &self.hops, hop_size: self.hop_size }
    }
}

/// What the courier settles of a scene in order.
pub fn settled(scene: &Scene) -> Vec<Settled> {
    if scene.network.walks.is_empty() {
        return Vec::new();
    }
    let bytes = Bytes::of(&scene.network, None);
    quick::settled(bytes.tables(), &bytes.list, scene.query)
}

/// Ends and times exchanged: a time is as long after the departure as it was before the arrival. The place is where it was. Times
/// are brought inside their limits; whether all were is told.
pub fn turned(scene: &Scene, departure: i32) -> (Scene, bool) {
    let network = &scene.network;
    let time = |t: i32| i64::from(departure) + i64::from(scene.query.arrival) - i64::from(t);
    let inside = |t: i64| t.clamp(FIRST_TIME, LAST_TIME) as i32;
    let hop = |h: &Hop| Hop { from: h.to, to: h.from, departure: inside(time(h.arrival)), arrival: inside(time(h.departure)) };
    let plan = Plan {
        vertices: network.vertices.len(),
        walks: network.walks.iter().map(|w| Walk { from: w.to, to: w.from, ..*w }).collect(),
        hops: network.hops.iter().map(hop).collect(),
    };
    let exact = network.hops.iter().all(|h| [h.departure, h.arrival].iter().all(|&t| (FIRST_TIME..=LAST_TIME).contains(&time(t))));
    let record = plan.walk_order().iter().position(|&old| old == scene.query.record as usize).unwrap_or(0) as u32;
    let length = network.walks.get(scene.query.record as usize).map_or(0, |walk| walk.length);
    let query = Query { record, offset: length.saturating_sub(scene.query.offset), arrival: departure, ..scene.query };
    (Scene { network: plan.build(), query }, exact)
}

/// A good network with a good query, if it has a walk at all.
pub fn scene(rng: &mut Rng) -> Scene {
    let base = match rng.below(50) {
        0 => small::town(rng),
        1..=14 => hopeless::scene(rng),
        _ => small::scene(rng),
    };
    let departure = match rng.below(8) {
        0 => 0,
        1 => rng.range(1, 20) as i32,
        2 => 172_800 - rng.range(0, 20) as i32,
        _ => base.query.arrival,
    };
    let (mut scene, _) = turned(&base, departure);
    if rng.chance(40) {
        hop_in_time(&mut scene, rng);
    }
    if rng.chance(40) {
        rides_at_once(&mut scene, rng);
    }
    if rng.chance(40) {
        window(&mut scene, rng);
    }
    scene
}

/// The same in the largest vertex table, far apart.
pub fn spread(rng: &mut Rng) -> Scene {
    let scene = scene(rng);
    small::spread(scene, rng)
}

/// The courier's distances within the longest window.
fn widest(scene: &Scene) -> Vec<Settled> {
    let mut wide = scene.clone();
    wide.query.duration = 86_400;
    settled(&wide)
}

/// The first second at which the courier can be at a settled vertex.
fn second_at(scene: &Scene, entry: Settled) -> i64 {
    i64::from(scene.query.arrival) + i64::from(entry.distance.div_ceil(scene.query.speed))
}

/// Hops from a settled vertex leave as the courier comes, or a second beside it.
fn hop_in_time(scene: &mut Scene, rng: &mut Rng) {
    let list = widest(scene);
    if list.is_empty() {
        return;
    }
    let near = rng.pick(&list);
    let departure = (second_at(scene, near) + rng.pick(&[0, 0, 0, 1, -1])).clamp(FIRST_TIME, LAST_TIME);
    for hop in scene.network.hops.iter_mut().filter(|hop| hop.from == near.vertex) {
        hop.departure = departure as i32;
        hop.arrival = (departure + rng.pick(&[0, 0, 1, 3, 7])).min(LAST_TIME) as i32;
    }
}

/// Rides of no minutes from a settled vertex on, in chains and circles, also between vertices that are not reached otherwise.
fn rides_at_once(scene: &mut Scene, rng: &mut Rng) {
    let (list, vertices) = (widest(scene), scene.network.vertices.len());
    if list.is_empty() || vertices < 2 || vertices > 60 {
        return;
    }
    let near = rng.pick(&list);
    let second = second_at(scene, near).clamp(FIRST_TIME, LAST_TIME) as i32;
    let mut ends = vec![near.vertex];
    for _ in 0..rng.range(1, vertices as i64 + 2) {
        let from = if rng.chance(75) { rng.pick(&ends) } else { rng.below(vertices) as u32 };
        let to = rng.below(vertices) as u32;
        if from != to {
            ends.push(to);
            scene.network.hops.push(Hop { from, to, departure: second, arrival: second });
            if rng.chance(20) {
                scene.network.hops.push(Hop { from: to, to: from, departure: second, arrival: second });
            }
        }
    }
    scene.network.hops.sort_by_key(|hop| hop.to);
    scene.network.count(vertices);
}

/// D is the distance of a vertex, or what is left there just reaches the end of a walk, or past its lights; or a second beside it.
fn window(scene: &mut Scene, rng: &mut Rng) {
    let list = widest(scene);
    if list.is_empty() {
        return;
    }
    let near = rng.pick(&list);
    let leaving: Vec<Walk> = scene.network.walks.iter().filter(|walk| walk.from == near.vertex).copied().collect();
    let speed = i64::from(scene.query.speed);
    let more = match leaving.is_empty() || rng.chance(30) {
        true => 0,
        false => {
            let walk = rng.pick(&leaving);
            i64::from(walk.length) + rng.pick(&[0, 0, 1, 2]) * speed * i64::from(walk.wait) / 2
        }
    };
    let seconds = (i64::from(near.distance) + more + rng.pick(&[0, speed - 1])) / speed + rng.pick(&[0, 0, 0, 1, -1]);
    scene.query.duration = seconds.clamp(1, 86_400) as u32;
}
