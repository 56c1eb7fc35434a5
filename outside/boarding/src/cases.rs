//! The cases of a seed, in groups of one network each, and the large ones.

use outside::cases::damage;
use outside::network::Plan;
use outside::records::{Query, Settled, ANSWER, NONE, SETTLED, VERTEX};
use outside::rng::Rng;

use crate::call::{Case, Outcome};
use crate::quick::Quick;
use crate::scenes::{self, Arrivals, Bytes, Ridden};
use crate::wrong::Sound;

const GROUPS: u64 = 12;

/// A network with its bytes, from which the cases of a group are made.
pub struct Ground {
    pub ridden: Ridden,
    pub bytes: Bytes,
    /// All that a run settles.
    pub settled: Vec<Settled>,
}

impl Ground {
    pub fn new(ridden: Ridden, with_trips: bool) -> Self {
        let (bytes, settled) = (ridden.bytes(with_trips), ridden.settled(with_trips));
        Ground { ridden, bytes, settled }
    }

    pub fn hops(&self) -> usize {
        self.ridden.scene.network.hops.len()
    }

    /// A call with room for all, in buffers full of sevens.
    pub fn roomy(&self) -> Case {
        let Bytes { vertices, walks, hops, hop_size } = self.bytes.clone();
        let most = self.settled.len().max((vertices.len() / VERTEX).min(600));
        Case {
            null: false,
            vertices,
            walks,
            hops,
            hop_size,
            query: self.ridden.scene.query,
            boarding: self.ridden.boarding,
            limit: NONE,
            settled: vec![7; SETTLED * most],
            scratch: vec![7; 4 * self.hops()],
            answer: vec![7; ANSWER],
        }
    }

    /// The same in buffers of any bytes, the scratch now and then longer than it has to be.
    pub fn case(&self, rng: &mut Rng) -> Case {
        let roomy = self.roomy();
        let more = rng.pick(&[0, 0, 0, 1, 3, 4, 60]);
        Case {
            null: rng.chance(50),
            settled: rng.bytes(roomy.settled.len()),
            scratch: rng.bytes(roomy.scratch.len() + more),
            answer: rng.bytes(ANSWER),
            ..roomy
        }
    }
}

/// The cases of a seed, in an order that does not depend on how many are asked for.
pub fn stream(seed: u64) -> impl Iterator<Item = Case> {
    (0..).flat_map(move |index| group(seed, index))
}

pub fn ground(seed: u64, index: u64) -> (Ground, Rng) {
    let mut rng = Rng::new(seed ^ 0x626f_6172, index);
    let ridden = if index % 97 == 50 { scenes::spread(&mut rng) } else { scenes::scene(&mut rng) };
    let with_trips = rng.chance(85);
    (Ground::new(ridden, with_trips), rng)
}

fn group(seed: u64, index: u64) -> Vec<Case> {
    let (ground, mut rng) = ground(seed, index);
    let rng = &mut rng;
    match index % GROUPS {
        0..=2 => limits(&ground, rng),
        3 | 4 => rooms(&ground, rng),
        5 => scratches(&ground, rng),
        6 => harmed(&ground, rng),
        7 => cut(&ground, rng),
        8 => asked(&ground, rng),
        9 => times(&ground, rng),
        10 => trips(&ground, rng),
        _ => several(&ground, rng),
    }
}

/// Every limit.
fn limits(ground: &Ground, rng: &mut Rng) -> Vec<Case> {
    let count = ground.settled.len().min(30) as u32;
    let limits = (0..=count + 1).chain([NONE, 0x8000_0000]);
    limits.map(|limit| Case { limit, ..ground.case(rng) }).collect()
}

/// At every limit the list's room exact, one less, one more, and none.
fn rooms(ground: &Ground, rng: &mut Rng) -> Vec<Case> {
    let mut all = Vec::new();
    for k in 0..=ground.settled.len().min(24) {
        for room in [k, k.saturating_sub(1), k + 1, 0] {
            let limit = if rng.chance(40) { NONE } else { k as u32 };
            all.push(Case { limit, settled: rng.bytes(SETTLED * room), ..ground.case(rng) });
        }
    }
    let all_of_them = ground.settled.len();
    for room in [all_of_them, all_of_them.saturating_sub(1)] {
        all.push(Case { settled: rng.bytes(SETTLED * room), ..ground.case(rng) });
    }
    all
}

/// The scratch at every length that is near to what is needed; now and then with a list that has no room, or another fault.
fn scratches(ground: &Ground, rng: &mut Rng) -> Vec<Case> {
    let (needed, hops) = (4 * ground.hops(), ground.hops());
    let lengths = [0, 1, 3 * hops, needed.saturating_sub(4), needed.saturating_sub(1), needed, needed + 1, needed + 2, needed + 4, 5 * hops, 16 * hops, needed + 4_096];
    let mut all = Vec::new();
    for len in lengths {
        let mut case = Case { scratch: rng.bytes(len), ..ground.case(rng) };
        match rng.below(8) {
            0 => case.settled.clear(),
            1 => case.boarding = 601,
            2 => damage::query(&mut case.query, rng),
            3 => case.limit = rng.below(4) as u32,
            _ => {}
        }
        all.push(case);
    }
    all
}

/// The same network at other boarding times.
fn times(ground: &Ground, rng: &mut Rng) -> Vec<Case> {
    let own = ground.ridden.boarding;
    let times = [0, 1, 2, 3, 4, 5, 6, 7, 8, 10, own.saturating_sub(1), own + 1, 599, 600, 601, NONE, 0x8000_0000];
    times.map(|boarding| Case { boarding, ..ground.case(rng) }).to_vec()
}

/// The same network with other trips: all of one, none, every hop its own, 16 bytes.
fn trips(ground: &Ground, rng: &mut Rng) -> Vec<Case> {
    let styles: [fn(usize, u32) -> u32; 6] = [|_, _| 7, |_, _| 0, |i, _| 1 + i as u32, |i, _| (i % 2) as u32, |_, trip| trip << 16, |i, _| 1 + (i % 3) as u32];
    let mut all = Vec::new();
    for style in styles {
        let trips = ground.ridden.trips.iter().enumerate().map(|(i, &trip)| style(i, trip)).collect();
        let other = Ground::new(Ridden { trips, ..ground.ridden.clone() }, true);
        all.push(other.case(rng));
        all.push(Case { limit: rng.below(5) as u32, ..other.case(rng) });
    }
    let sixteen = Ground::new(ground.ridden.clone(), false);
    all.push(sixteen.case(rng));
    all.push(Case { limit: rng.below(5) as u32, ..sixteen.case(rng) });
    all
}

/// One fault at a record of the tables.
fn harmed(ground: &Ground, rng: &mut Rng) -> Vec<Case> {
    let mut all = Vec::new();
    for _ in 0..12 {
        let harm = damage::any(rng);
        let places = harm.places(&ground.ridden.scene.network);
        if places == 0 {
            continue;
        }
        let mut broken = ground.ridden.clone();
        harm.put(&mut broken.scene.network, rng.below(places), rng);
        let Bytes { vertices, walks, hops, hop_size } = broken.bytes(ground.bytes.hop_size == 20);
        let mut case = Case { vertices, walks, hops, hop_size, ..ground.case(rng) };
        if rng.chance(20) {
            damage::query(&mut case.query, rng);
        }
        if rng.chance(20) {
            case.boarding = 601;
        }
        if rng.chance(20) {
            case.scratch.clear();
        }
        all.push(case);
    }
    all
}

fn bad_length(case: &mut Case, rng: &mut Rng) {
    match rng.below(8) {
        0 => damage::resize(&mut case.vertices, rng),
        1 => damage::resize(&mut case.walks, rng),
        2 => damage::resize(&mut case.hops, rng),
        3 => case.hop_size = rng.pick(&damage::HOP_SIZES),
        4 | 5 => damage::resize(&mut case.settled, rng),
        6 => damage::resize(&mut case.scratch, rng),
        _ => damage::resize(&mut case.answer, rng),
    }
}

/// Lengths that fit nothing.
fn cut(ground: &Ground, rng: &mut Rng) -> Vec<Case> {
    let mut all = Vec::new();
    for _ in 0..20 {
        let mut case = ground.case(rng);
        (0..rng.pick(&[1, 1, 2])).for_each(|_| bad_length(&mut case, rng));
        all.push(case);
    }
    all
}

/// Queries and boarding times at their limits and beyond.
fn asked(ground: &Ground, rng: &mut Rng) -> Vec<Case> {
    let mut all = Vec::new();
    for _ in 0..14 {
        let mut case = ground.case(rng);
        if rng.chance(80) {
            damage::query(&mut case.query, rng);
        }
        if rng.chance(40) {
            case.boarding = rng.pick(&[0, 600, 601, 602, 0x8000_0000, NONE, 0x1_0000]);
        }
        all.push(case);
    }
    all
}

/// Several faults at once: which of them is told is the order of refusals.
fn several(ground: &Ground, rng: &mut Rng) -> Vec<Case> {
    let mut all = Vec::new();
    for _ in 0..14 {
        let mut case = ground.case(rng);
        if rng.chance(30) {
            damage::query(&mut case.query, rng);
        }
        if rng.chance(40) {
            case.boarding = rng.pick(&[601, NONE]);
        }
        if rng.chance(40) {
            case.scratch.truncate((4 * ground.hops()).saturating_sub(1));
        }
        if rng.chance(25) {
            let at = rng.below(case.vertices.len());
            case.vertices[at] ^= 1;
        }
        if rng.chance(15) && !case.hops.is_empty() {
            let at = rng.below(case.hops.len());
            case.hops[at] ^= rng.pick(&[1, 0x80]);
        }
        if rng.chance(15) {
            bad_length(&mut case, rng);
        }
        if rng.chance(30) {
            case.settled.truncate(SETTLED * rng.below(3));
        }
        all.push(case);
    }
    all
}

/// What is known of a large case: its refusal, and its list where the way it is built tells it.
pub type Known = ((u32, u32), Option<Vec<Settled>>);

/// At the limits of the tables.
pub fn big() -> Vec<(Case, Known)> {
    let rng = &mut Rng::new(29, 29);
    let mut all = Vec::new();
    let full = Ground::new(scenes::full_lines(3_600, 60), true);
    let count = full.settled.len();
    let accepted = ((0, 0), None);
    all.push((full.case(rng), accepted.clone()));
    all.push((Case { limit: 100, ..full.case(rng) }, accepted.clone()));
    all.push((Case { boarding: 600, ..full.case(rng) }, accepted.clone()));
    all.push((Case { boarding: 601, ..full.case(rng) }, ((7, 5), None)));
    all.push((Case { scratch: rng.bytes(4 * 262_144 - 1), ..full.case(rng) }, ((18, 0), None)));
    all.push((Case { scratch: rng.bytes(4 * 262_144), settled: rng.bytes(SETTLED * count), ..full.case(rng) }, accepted.clone()));
    all.push((Case { settled: rng.bytes(SETTLED * (count - 1)), ..full.case(rng) }, ((9, count as u32), None)));
    all.push((Case { hops: [&full.bytes.hops[..], &full.bytes.hops[..20]].concat(), ..full.case(rng) }, ((1, 2), None)));
    let sixteen = Ground::new(full.ridden.clone(), false);
    all.push((sixteen.case(rng), accepted.clone()));
    let city = Ground::new(scenes::lines(200, 40_000, 20_000, 7_200, 120), true);
    all.push((city.case(rng), accepted));
    for (ride, falling, boarding) in [(1, false, 0), (1, false, 600), (1, true, 60), (0, false, 5), (0, true, 600)] {
        let ridden = scenes::one_trip(ride, falling, boarding);
        all.extend(told(ridden, chain(ride as u32, falling, boarding), rng));
    }
    for (one, boarding) in [(true, 0), (true, 600), (false, 45), (false, 600)] {
        all.extend(told(scenes::hub(one, boarding), spokes(10, 29, boarding), rng));
    }
    for (arrivals, boarding) in [(Arrivals::Equal, 600), (Arrivals::Rising, 30), (Arrivals::Falling, 600), (Arrivals::Pipe, 600), (Arrivals::Trips, 0)] {
        all.extend(told(scenes::star(arrivals, boarding), spokes(100, 200, boarding), rng));
    }
    all
}

/// A case whose list is known, with just the room for it and with a record less.
fn told(ridden: Ridden, list: Vec<Settled>, rng: &mut Rng) -> [(Case, Known); 2] {
    let (ground, count) = (Ground::new(ridden, true), list.len());
    let room = |records: usize, rng: &mut Rng| Case { settled: rng.bytes(SETTLED * records), ..ground.case(rng) };
    [(room(count, rng), ((0, 0), Some(list))), (room(count - 1, rng), ((9, count as u32), None))]
}

/// Of one trip: to the first stop one walks, from all others one boards the vehicle as it leaves them.
fn chain(ride: u32, falling: bool, boarding: u32) -> Vec<Settled> {
    let distance = |stop: u32| match stop {
        0 | 1 => stop,
        _ => ride * stop + boarding,
    };
    let vertex = |stop: u32| if falling { 65_535 - stop } else { stop };
    (0..65_536).map(|stop| Settled { vertex: vertex(stop), distance: distance(stop) }).collect()
}

/// Of a hub or a star: the place, the stop in the middle by the last vehicle, then the others by their numbers, whoever stays on or changes there.
fn spokes(middle: u32, others: u32, boarding: u32) -> Vec<Settled> {
    let others = (2..65_536).map(|v| Settled { vertex: v, distance: v + others + boarding });
    [Settled { vertex: 1, distance: 0 }, Settled { vertex: 0, distance: middle + boarding }].into_iter().chain(others).collect()
}

/// The network of a group, if the journeys can be asked about it: few vertices.
pub fn by_journeys(seed: u64, index: u64) -> Option<Ground> {
    let (ground, _) = ground(seed, index);
    let network = &ground.ridden.scene.network;
    (!network.walks.is_empty() && network.vertices.len() <= 40 && ground.ridden.scene.query.speed <= 10).then_some(ground)
}

/// The right outcome, by the quick program.
pub fn right(case: &Case) -> Outcome {
    case.by(&Quick(Sound))
}

/// A network from hops with their trips, walks already in the plan.
pub fn planned(mut plan: Plan, hops: &[(usize, usize, i32, i32, u32)], query: Query, boarding: u32) -> Ground {
    hops.iter().for_each(|&(from, to, departure, arrival, _)| plan.hop(from, to, departure, arrival));
    let trips: Vec<u32> = hops.iter().map(|hop| hop.4).collect();
    Ground::new(Ridden::of(&plan, &trips, query, boarding), true)
}

#[cfg(test)]
mod tests {
    use super::*;
    use std::collections::BTreeMap;

    use crate::plain::Model;

    /// Every refusal comes often at each of its places, and what is accepted most of all.
    #[test]
    fn refusals_come_often() {
        let mut found: BTreeMap<(u32, u32), u32> = BTreeMap::new();
        for case in stream(1).take(20_000) {
            let (number, place) = case.refusal(&right(&case)).unwrap_or((99, 0));
            let place = if matches!(number, 1 | 7 | 9 | 18) { place.min(9) } else { 0 };
            *found.entry((number, place)).or_default() += 1;
        }
        let often = |number: u32, places: &[u32], least: u32| {
            for &place in places {
                let times = found.get(&(number, place)).copied().unwrap_or(0);
                assert!(times >= least, "{number} {place}: {times} times in {found:?}");
            }
        };
        often(0, &[0], 8_000);
        often(1, &[0, 1, 2, 4], 20);
        (2..=6).for_each(|number| often(number, &[0], 20));
        often(7, &[0, 1, 2, 3, 4, 5], 20);
        often(9, &[1, 2, 3, 4, 5, 6, 7, 8, 9], 20);
        often(18, &[0], 200);
        often(99, &[0], 20);
    }

    /// Rides of several hops, stops between that are farther than the ride, rides that end at the last moment, ties and rides of no minutes come often.
    #[test]
    fn rides_come_often() {
        let (mut longer, mut farther, mut last, mut still, mut ties) = (0, 0, 0, 0, 0);
        for index in 0..2_000 {
            let (ground, _) = ground(1, index);
            if ground.ridden.scene.network.walks.is_empty() || ground.ridden.scene.network.vertices.len() > 60 {
                continue;
            }
            let model = Model::new(ground.bytes.tables(), ground.ridden.scene.query, ground.ridden.boarding);
            let left = |i: usize| model.distance[model.hops[i].hop.to as usize].map(|far| model.before(model.hops[i].hop.arrival) - far);
            let direct = |i: usize| left(i).is_some_and(|left| left >= 0);
            let all = 0..model.hops.len();
            let in_time = |i: usize| model.ends[i].iter().any(|&end| direct(end));
            longer += u32::from(all.clone().any(|i| in_time(i) && model.ends[i].len() > 2));
            farther += u32::from(all.clone().any(|i| in_time(i) && !direct(i)));
            last += u32::from(all.clone().any(|i| left(i) == Some(0)));
            still += u32::from(all.clone().any(|i| in_time(i) && model.hops[i].hop.departure == model.hops[i].hop.arrival));
            ties += u32::from(model.order.windows(2).any(|two| model.distance[two[0]] == model.distance[two[1]] && two[0] > two[1]));
        }
        let found = [longer, farther, last, still, ties];
        assert!(found.iter().all(|&times| times >= 50), "{found:?}");
    }
}
