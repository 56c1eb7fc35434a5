//! Networks with vehicles: those that the ordinary run is tried on, with trips, and with vehicles that come through stops in time, just in time and just too late.

use outside::cases::{hopeless, small};
use outside::network::{full_scene, grid, Plan, Scene};
use outside::records::{Hop, Query, Settled, Tables, HOP, TRIP_HOP};
use outside::rng::Rng;

use crate::quick;

const FIRST_TIME: i64 = -86_400;
const LAST_TIME: i64 = 172_800;

/// A scene whose hops have trips, and a boarding time.
#[derive(Clone, Debug)]
pub struct Ridden {
    pub scene: Scene,
    /// By hop.
    pub trips: Vec<u32>,
    pub boarding: u32,
}

/// The bytes of its tables.
#[derive(Clone)]
pub struct Bytes {
    pub vertices: Vec<u8>,
    pub walks: Vec<u8>,
    pub hops: Vec<u8>,
    pub hop_size: u32,
}

impl Bytes {
    pub fn tables(&self) -> Tables<'_> {
        Tables { vertices: &self.vertices, walks: &self.walks, hops: &self.hops, hop_size: self.hop_size }
    }
}

impl Ridden {
    /// Trip behind hop, by the same order as the plan's own.
    pub fn of(plan: &Plan, trips: &[u32], query: Query, boarding: u32) -> Self {
        let trips = plan.hop_order().into_iter().map(|old| trips[old]).collect();
        Ridden { scene: Scene { network: plan.build(), query }, trips, boarding }
    }

    /// Records of 20 bytes with the trips, or of 16 without.
    pub fn bytes(&self, with_trips: bool) -> Bytes {
        let network = &self.scene.network;
        let mut hops = Vec::with_capacity(network.hops.len() * TRIP_HOP);
        for (hop, trip) in network.hops.iter().zip(&self.trips) {
            hops.extend_from_slice(&hop.bytes());
            if with_trips {
                hops.extend_from_slice(&trip.to_be_bytes());
            }
        }
        Bytes {
            vertices: network.vertices.iter().flat_map(|v| v.bytes()).collect(),
            walks: network.walks.iter().flat_map(|w| w.bytes()).collect(),
            hops,
            hop_size: if with_trips { TRIP_HOP } else { HOP } as u32,
        }
    }

    /// What is settled, by the quick program.
    pub fn settled(&self, with_trips: bool) -> Vec<Settled> {
        match self.scene.network.walks.is_empty() {
            true => Vec::new(),
            false => quick::settled(self.bytes(with_trips).tables(), self.scene.query, self.boarding),
        }
    }

    /// The same within the longest window.
    fn widest(&self) -> Vec<Settled> {
        let mut wide = self.clone();
        wide.scene.query.duration = 86_400;
        wide.settled(true)
    }

    fn add(&mut self, more: Vec<(Hop, u32)>) {
        let mut all: Vec<(Hop, u32)> = self.scene.network.hops.iter().copied().zip(self.trips.iter().copied()).chain(more).collect();
        all.sort_by_key(|(hop, _)| hop.to);
        (self.scene.network.hops, self.trips) = all.into_iter().unzip();
        self.scene.network.count(self.scene.network.vertices.len());
    }
}

/// A good network with a good query, if it has a walk at all.
pub fn scene(rng: &mut Rng) -> Ridden {
    let mut scene = match rng.below(60) {
        0 => small::town(rng),
        1..=4 => hopeless::scene(rng),
        _ => small::scene(rng),
    };
    let boarding = match rng.below(20) {
        0..=2 => 0,
        3..=13 => rng.range(1, 8) as u32,
        14..=16 => rng.range(9, 60) as u32,
        17 => rng.pick(&[599, 600]),
        _ => rng.range(1, 600) as u32,
    };
    if rng.chance(85) {
        scene.query.duration = (scene.query.duration + boarding * rng.range(1, 3) as u32).min(86_400);
    }
    let numbers: &[u32] = rng.pick(&[&[0][..], &[7], &[0, 1, 2, 3], &[1, 0x1_0001, 0x8000_0001, u32::MAX], &[0, 1, 1], &[1, 2]]);
    let trips = scene.network.hops.iter().map(|_| rng.pick(numbers)).collect();
    let mut ridden = Ridden { scene, trips, boarding };
    if ridden.scene.network.vertices.len() > 1 {
        for _ in 0..rng.range(0, 4) {
            vehicle(&mut ridden, rng);
        }
    }
    if rng.chance(40) {
        window(&mut ridden, rng);
    }
    ridden
}

/// The same in the largest vertex table, far apart.
pub fn spread(rng: &mut Rng) -> Ridden {
    let ridden = scene(rng);
    Ridden { scene: small::spread(ridden.scene, rng), ..ridden }
}

/// A vehicle that ends at a vertex in time, or a second beside it, and came there by some stops; on its way it stands a while, leaves in the second of
/// arriving or, which is no vehicle any more, before that. Now and then another one of the same number goes beside it.
fn vehicle(ridden: &mut Ridden, rng: &mut Rng) {
    let (vertices, list) = (ridden.scene.network.vertices.len(), ridden.widest());
    let query = ridden.scene.query;
    let (mut at, distance) = match list.is_empty() || rng.chance(10) {
        true => (rng.below(vertices) as u32, 0),
        false => Some(rng.pick(&list)).map_or((0, 0), |far| (far.vertex, far.distance)),
    };
    let mut moment = i64::from(query.arrival) - i64::from(distance.div_ceil(query.speed.max(1))) + rng.pick(&[0, 0, 0, 0, 1, -1]);
    let trip = rng.pick(&[1, 1, 2, 7, 0, 0x1_0001]);
    let mut stops = vec![at];
    let mut more = Vec::new();
    for _ in 0..rng.range(1, 6) {
        let from = if rng.chance(25) { rng.pick(&stops) } else { rng.below(vertices) as u32 };
        let departure = moment - rng.pick(&[0, 0, 1, 1, 2, 5]);
        if departure < FIRST_TIME || moment > LAST_TIME {
            break;
        }
        if from != at {
            more.push((Hop { from, to: at, departure: departure as i32, arrival: moment as i32 }, trip));
            let other = rng.below(vertices) as u32;
            if rng.chance(25) {
                let earlier = rng.pick(&[0, 1, 2, 3]);
                let begins = if other != at && rng.chance(50) { other } else { from };
                let beside = Hop { from: begins, to: at, departure: (departure - earlier).max(FIRST_TIME) as i32, arrival: moment as i32 - i32::from(rng.chance(50)) };
                more.extend((beside.departure <= beside.arrival).then_some((beside, trip)));
            }
            if rng.chance(25) && other != from {
                // Another one leaves there a little earlier, and leads elsewhere.
                let leaves = (departure - rng.pick(&[0, 1, 1, 2])).max(FIRST_TIME);
                more.push((Hop { from, to: other, departure: leaves as i32, arrival: (leaves + rng.pick(&[1, 5, 300])).min(LAST_TIME) as i32 }, trip));
            }
            stops.push(from);
            at = from;
            moment = departure - rng.pick(&[0, 0, 0, 1, 2, i64::from(ridden.boarding.min(9)), -1]);
        }
    }
    ridden.add(more);
}

/// D is the distance of a vertex, or a second beside it.
fn window(ridden: &mut Ridden, rng: &mut Rng) {
    let list = ridden.widest();
    if list.is_empty() {
        return;
    }
    let seconds = i64::from(rng.pick(&list).distance / ridden.scene.query.speed) + rng.pick(&[0, 0, 0, 1, -1]);
    ridden.scene.query.duration = seconds.clamp(1, 86_400) as u32;
}

/// Bus lines over a grid of so many vertices: vehicles of twenty stops, one after the other on each line, each a trip of its own, in the last hours before the arrival.
pub fn lines(width: usize, vertices: usize, hops: usize, duration: u32, boarding: u32) -> Ridden {
    let mut rng = Rng::new(29, vertices as u64);
    let plan = grid(width, vertices, &mut rng);
    with_lines(plan, width, hops, duration, boarding, &mut rng)
}

/// The same at full size: as many walks and hops as there can be.
pub fn full_lines(duration: u32, boarding: u32) -> Ridden {
    let scene = full_scene(duration);
    let plan = Plan { vertices: 65_536, walks: scene.network.walks, hops: Vec::new() };
    with_lines(plan, 256, 262_144, duration, boarding, &mut Rng::new(29, 1))
}

const STOPS: usize = 20;
const VEHICLES: usize = 12;

fn with_lines(mut plan: Plan, width: usize, hops: usize, duration: u32, boarding: u32, rng: &mut Rng) -> Ridden {
    let mut trips = Vec::new();
    let mut trip = 0;
    while plan.hops.len() < hops {
        // A line goes from crossing to crossing, mostly straight on, three blocks at a time.
        let height = plan.vertices / width;
        let (mut x, mut y) = (rng.below(width) as i64, rng.below(height) as i64);
        let (dx, dy) = rng.pick(&[(3, 0), (-3, 0), (0, 3), (0, -3)]);
        let mut stops = vec![y as usize * width + x as usize];
        while stops.len() < STOPS {
            let turn = rng.chance(15);
            let side = rng.pick(&[3, -3]);
            (x, y) = if turn && dx == 0 { (x + side, y) } else if turn { (x, y + side) } else { (x + dx, y + dy) };
            if !(0..width as i64).contains(&x) || !(0..height as i64).contains(&y) {
                break;
            }
            stops.push(y as usize * width + x as usize);
        }
        let first = 36_000 - rng.range(0, 900) as i32;
        for run in 0..VEHICLES as i32 {
            trip += 1;
            let mut now = first - 600 * run;
            for pair in stops.windows(2).rev() {
                if plan.hops.len() < hops && pair[0] != pair[1] {
                    let ride = rng.range(60, 120) as i32;
                    plan.hop(pair[0], pair[1], now - ride, now);
                    trips.push(trip);
                    now -= ride + rng.pick(&[0, 15, 30]);
                }
            }
        }
    }
    let middle = plan.walks.len() / 2;
    let query = Query { record: middle as u32, offset: 0, arrival: 36_000, duration, speed: 14 };
    let mut ridden = Ridden::of(&plan, &trips, query, boarding);
    ridden.scene.query.offset = ridden.scene.network.walks[middle].length / 2;
    ridden
}

/// One trip with every hop. A vehicle goes through all vertices, so that each is on board only by the next one; it takes a second from stop to stop, or no time at all.
/// Three more hops go beside each of its own: too early, too long, or too late at the next stop. The place is at vertex 0, or at the last where numbers fall.
pub fn one_trip(ride: i32, falling: bool, boarding: u32) -> Ridden {
    let last = 65_535;
    let number = |stop: usize| if falling { last - stop } else { stop };
    let mut plan = Plan { vertices: last + 1, ..Plan::default() };
    plan.one_way(number(1), number(0), 1);
    for stop in 1..=last {
        let arrival = 172_800 - ride * (stop as i32 - 1);
        for (departs, arrives) in [(ride, 0), (ride + 1, 0), (ride + 2, 1), (ride, -1)] {
            let hop = (arrival - departs, (arrival - arrives).min(172_800));
            if plan.hops.len() < 262_144 && hop.0 <= hop.1 {
                plan.hop(number(stop), number(stop - 1), hop.0, hop.1);
            }
        }
    }
    let trips = vec![7; plan.hops.len()];
    Ridden::of(&plan, &trips, Query { record: 0, offset: 1, arrival: 172_800, duration: 86_400, speed: 1 }, boarding)
}

/// A hub that 196,605 hops arrive at and 65,534 leave, which is as many as a departing count allows beside a walk. The hops that leave it all lead to the place, each a second
/// before the one before it; three hops from every other vertex arrive at the hub. All are of one trip, or as many trips as the hub has hops that leave.
pub fn hub(one: bool, boarding: u32) -> Ridden {
    let mut plan = Plan { vertices: 65_536, ..Plan::default() };
    let mut trips = Vec::new();
    let trip = |i: usize| if one { 7 } else { 1 + i as u32 };
    plan.one_way(0, 1, 40_000);
    for i in 0..65_534 {
        plan.hop(0, 1, 172_800 - i as i32 - 10, 172_800 - i as i32);
        trips.push(trip(i));
    }
    for v in 1..65_536 {
        let i = v - 1;
        // At the hub just as the vehicle leaves, a second late, and a second early.
        for (k, late) in [0, 1, -1].into_iter().enumerate() {
            let arrival = 172_800 - i as i32 - 10 + late;
            plan.hop(v, 0, arrival - 20 - k as i32, arrival);
            trips.push(trip(i));
        }
    }
    Ridden::of(&plan, &trips, Query { record: 0, offset: 40_000, arrival: 172_800, duration: 86_400, speed: 1 }, boarding)
}

/// In what order the hops of a star arrive.
#[derive(Clone, Copy, Debug)]
pub enum Arrivals {
    Equal,
    Rising,
    Falling,
    /// Up to the middle, and down again.
    Pipe,
    /// Falling, each hop of a trip of its own, which fall too.
    Trips,
}

/// 262,136 hops arrive at one stop, four from every other vertex, and one hop leaves it for the place: hard for who sorts them badly. All are there before that one leaves.
pub fn star(arrivals: Arrivals, boarding: u32) -> Ridden {
    let mut plan = Plan { vertices: 65_536, ..Plan::default() };
    plan.one_way(0, 1, 40_000);
    plan.hop(0, 1, 172_700, 172_800);
    let mut trips = vec![7];
    let count: usize = 4 * 65_534;
    for k in 0..count {
        let early = match arrivals {
            Arrivals::Equal => 0,
            Arrivals::Rising => (count - 1 - k) / 4_096,
            Arrivals::Falling | Arrivals::Trips => k / 4_096,
            Arrivals::Pipe => k.abs_diff(count / 2) / 2_048,
        };
        let v = 2 + k / 4;
        plan.hop(v, 0, 172_600 - v as i32, 172_700 - early as i32);
        trips.push(if matches!(arrivals, Arrivals::Trips) { (count - k) as u32 + 7 } else { 7 });
    }
    Ridden::of(&plan, &trips, Query { record: 0, offset: 40_000, arrival: 172_800, duration: 86_400, speed: 1 }, boarding)
}

/// The networks that are measured, with names: bus lines over the city grid and at full size, and those that were made to take long.
pub fn measured() -> Vec<(&'static str, Ridden)> {
    vec![
        ("grid 200x200 with bus lines, 15 min", lines(200, 40_000, 20_000, 900, 60)),
        ("grid 200x200 with bus lines, 2 h", lines(200, 40_000, 20_000, 7_200, 60)),
        ("full size with bus lines, 10 min", full_lines(600, 60)),
        ("full size with bus lines, 2 h", full_lines(7_200, 60)),
        ("one trip with every hop", one_trip(1, false, 60)),
        ("the same at one second, falling numbers", one_trip(0, true, 60)),
        ("a hub with 196,605 hops in, 65,534 out, one trip", hub(true, 60)),
        ("the same with 65,535 trips", hub(false, 60)),
        ("262,136 hops into one stop, falling, one trip", star(Arrivals::Falling, 60)),
    ]
}
