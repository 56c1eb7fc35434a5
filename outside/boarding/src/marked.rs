//! Cases worked out by hand, every byte of each answer told.

use outside::network::Plan;
use outside::records::{Answer, Query, Settled, ANSWER, NONE, SETTLED};

use crate::call::{Case, Outcome};
use crate::cases::{planned, Ground};

pub type Told = (&'static str, Case, Outcome);

type Hops<'a> = &'a [(usize, usize, i32, i32, u32)];
type List<'a> = &'a [(u32, u32)];

/// The streets of the base job of RULES 16, 0-1, 1-2 and 3-4, and two vertices more, 5 and 6, that vehicles alone serve. The place is on 0 to 1 at 1,500, so that 1 is
/// 500 ticks from it, at 10:00, at ten ticks a second.
fn town(hops: Hops, duration: u32, boarding: u32) -> Ground {
    town_at(1_500, hops, duration, boarding)
}

fn town_at(offset: u32, hops: Hops, duration: u32, boarding: u32) -> Ground {
    let mut plan = Plan { vertices: 7, ..Plan::default() };
    plan.road(1, 0, 2_000);
    plan.road(2, 1, 2_500);
    plan.road(4, 3, 900);
    planned(plan, hops, Query { record: 1, offset, arrival: 36_000, duration, speed: 10 }, boarding)
}

/// One way from one vertex to another, and the place where it ends, at 10:00.
fn street(vertices: usize, from: usize, to: usize, hops: Hops, duration: u32, boarding: u32) -> Ground {
    let mut plan = Plan { vertices, ..Plan::default() };
    plan.one_way(from, to, 1_000);
    planned(plan, hops, Query { record: 0, offset: 1_000, arrival: 36_000, duration, speed: 10 }, boarding)
}

/// An accepted run: its list, zeros behind it, a scratch of zeros.
fn lists(name: &'static str, case: Case, list: List, finished: u32) -> Told {
    let mut settled: Vec<u8> = list.iter().flat_map(|&(vertex, distance)| Settled { vertex, distance }.bytes()).collect();
    settled.resize(case.settled.len(), 0);
    let answer = Answer { settled: list.len() as u32, finished, ..Answer::default() }.bytes().to_vec();
    let told = Outcome { value: 0, settled, scratch: vec![0; case.scratch.len()], answer };
    (name, case, told)
}

/// A refusal: 9 leaves zeros, all others what was there.
fn refuses(name: &'static str, case: Case, refusal: u32, place: u32) -> Told {
    let mut told = case.before();
    told.answer = Answer { refusal, place, ..Answer::default() }.bytes().to_vec();
    if refusal == 9 {
        told.settled.fill(0);
        told.scratch.fill(0);
    }
    (name, case, told)
}

pub fn all() -> Vec<Told> {
    [times(), stops(), vehicles(), changes(), moments(), ends(), rooms(), scratches(), orders(), answers()].concat()
}

/// 3 to 1 in two minutes, as in the base job.
const RIDE: (usize, usize, i32, i32, u32) = (3, 1, 35_760, 35_880, 7);

/// The boarding time of one ride: in ticks, up to D and beyond, up to the last moment of the ride's end.
fn times() -> Vec<Told> {
    let on = |name, boarding: u32, list: List| lists(name, town(&[RIDE], 300, boarding).roomy(), list, 1);
    let late = |name, offset: u32, arrival: i32, list: List| lists(name, town_at(offset, &[(3, 1, 35_760, arrival, 7)], 300, 30).roomy(), list, 1);
    vec![
        on("no boarding time: the base job", 0, &[(1, 500), (0, 1_500), (3, 2_400), (2, 3_000)]),
        on("a second less than D", 59, &[(1, 500), (0, 1_500), (3, 2_990), (2, 3_000)]),
        on("just D, and 2 has the smaller number", 60, &[(1, 500), (0, 1_500), (2, 3_000), (3, 3_000)]),
        on("a second more than D", 61, &[(1, 500), (0, 1_500), (2, 3_000)]),
        on("the longest", 600, &[(1, 500), (0, 1_500), (2, 3_000)]),
        late("the ride ends at the last moment", 1_500, 35_950, &[(1, 500), (0, 1_500), (3, 2_700), (2, 3_000)]),
        late("a second after it", 1_500, 35_951, &[(1, 500), (0, 1_500), (2, 3_000)]),
        late("501 ticks are more than 50 seconds", 1_499, 35_950, &[(1, 501), (0, 1_499)]),
        late("and 51 are enough", 1_499, 35_949, &[(1, 501), (0, 1_499), (3, 2_700)]),
    ]
}

/// Stops between that are farther than the ride, by a ride and by a walk; whoever stays on pays once.
fn stops() -> Vec<Told> {
    let on = |name, hops: Hops, duration: u32, boarding: u32, list: List| lists(name, town(hops, duration, boarding).roomy(), list, 1);
    let two = |arrival: i32, first: u32, second: u32| [(5, 3, 35_740, arrival, first), (3, 1, 35_760, 35_880, second)];
    let without: List = &[(1, 500), (0, 1_500), (2, 3_000), (3, 3_000), (4, 3_900)];
    let with: List = &[(1, 500), (0, 1_500), (2, 3_000), (3, 3_000), (5, 3_200), (4, 3_900)];
    let mut all = vec![
        on("one stays on at 3, which is farther than the ride", &two(35_750, 7, 7), 600, 60, with),
        on("the vehicle leaves in the second of arriving", &two(35_760, 7, 7), 600, 60, with),
        on("and a second before it arrives", &two(35_761, 7, 7), 600, 60, without),
        on("unknown trips are no vehicle", &two(35_750, 0, 0), 600, 60, without),
        on("nor are two trips", &two(35_750, 7, 8), 600, 60, without),
        on("nor is one with an unknown one", &two(35_750, 7, 0), 600, 60, without),
        on("all bytes of a trip count", &two(35_750, 7, 0x1_0007), 600, 60, without),
        on("the largest trip number", &two(35_750, NONE, NONE), 600, 60, with),
        on("one changes just in time", &two(35_750, 0, 0), 600, 10, &[(1, 500), (0, 1_500), (3, 2_500), (5, 2_700), (2, 3_000), (4, 3_400)]),
        on("and misses it by a second", &two(35_750, 0, 0), 600, 11, &[(1, 500), (0, 1_500), (3, 2_510), (2, 3_000), (4, 3_410)]),
        on("where one stays on", &two(35_750, 7, 7), 600, 11, &[(1, 500), (0, 1_500), (3, 2_510), (5, 2_710), (2, 3_000), (4, 3_410)]),
        on("a stop to which one walks", &[(5, 0, 35_800, 35_860, 7), (0, 1, 35_870, 35_940, 7)], 300, 60, &[(1, 500), (0, 1_500), (5, 2_600), (2, 3_000)]),
        on("there one does not change", &[(5, 0, 35_800, 35_860, 7), (0, 1, 35_870, 35_940, 8)], 300, 60, &[(1, 500), (0, 1_500), (2, 3_000)]),
        on("three hops", &[(6, 5, 35_700, 35_710, 7), (5, 3, 35_740, 35_750, 7), RIDE], 600, 60, &[(1, 500), (0, 1_500), (2, 3_000), (3, 3_000), (5, 3_200), (6, 3_600), (4, 3_900)]),
        on("one leaves before the vehicle's last stop", &[(5, 1, 35_740, 35_880, 7), (1, 6, 35_890, 35_990, 7)], 600, 60, &[(1, 500), (0, 1_500), (2, 3_000), (5, 3_200)]),
    ];
    let mut sixteen = town(&two(35_750, 7, 7), 600, 60);
    sixteen.bytes = sixteen.ridden.bytes(false);
    all.push(lists("hops of 16 bytes have no trip", sixteen.roomy(), without, 1));
    for limit in 0..=6 {
        let case = Case { limit, ..town(&two(35_750, 7, 7), 600, 60).roomy() };
        all.push(lists("each limit", case, &with[..limit as usize], (limit == 6).into()));
    }
    all
}

/// Several vehicles of one trip number: any hops that fit are a ride.
fn vehicles() -> Vec<Told> {
    let on = |name, hops: Hops, list: List| lists(name, town(hops, 600, 60).roomy(), list, 1);
    let first = (5, 3, 35_740, 35_750, 7);
    vec![
        on("another one leaves the stop earlier, and leads elsewhere", &[first, (3, 6, 35_752, 35_999, 7), RIDE], &[(1, 500), (0, 1_500), (2, 3_000), (3, 3_000), (5, 3_200), (4, 3_900)]),
        on("another one arrives at the stop later", &[first, (6, 3, 35_745, 35_755, 7), RIDE], &[(1, 500), (0, 1_500), (2, 3_000), (3, 3_000), (6, 3_150), (5, 3_200), (4, 3_900)]),
        on("one that left before one arrives", &[first, (3, 1, 35_749, 35_800, 7)], &[(1, 500), (0, 1_500), (2, 3_000), (3, 3_110), (4, 4_010)]),
        on("the later of two that leave", &[first, (3, 1, 35_749, 35_800, 7), RIDE], &[(1, 500), (0, 1_500), (2, 3_000), (3, 3_000), (5, 3_200), (4, 3_900)]),
        on("parallel hops", &[first, first, (5, 3, 35_741, 35_761, 7), RIDE, RIDE], &[(1, 500), (0, 1_500), (2, 3_000), (3, 3_000), (5, 3_200), (4, 3_900)]),
    ]
}

/// Two rides pay twice, the first one of a journey too.
fn changes() -> Vec<Told> {
    let on = |name, boarding: u32, list: List| lists(name, town(&[(5, 3, 35_650, 35_690, 8), RIDE], 600, boarding).roomy(), list, 1);
    vec![
        on("a change", 60, &[(1, 500), (0, 1_500), (2, 3_000), (3, 3_000), (4, 3_900), (5, 4_100)]),
        on("just in time", 70, &[(1, 500), (0, 1_500), (2, 3_000), (3, 3_100), (4, 4_000), (5, 4_200)]),
        on("a second too long", 71, &[(1, 500), (0, 1_500), (2, 3_000), (3, 3_110), (4, 4_010)]),
    ]
}

/// Rides of no minutes, in chains and circles.
fn moments() -> Vec<Told> {
    let at = |from: usize, to: usize, trip: u32| (from, to, 36_000, 36_000, trip);
    let chain = |trip: u32, boarding: u32| street(6, 4, 5, &[at(0, 3, trip), at(3, 1, trip), at(1, 5, trip)], 300, boarding).roomy();
    let turn = |from: usize, to: usize| (from, to, 35_980, 35_980, 7);
    let circle = |walk: bool, boarding: u32| {
        let mut plan = Plan { vertices: 4, ..Plan::default() };
        plan.one_way(3, 2, 1_000);
        if walk {
            plan.one_way(0, 3, 500);
        }
        planned(plan, &[turn(0, 1), turn(1, 0)], Query { record: 0, offset: 1_000, arrival: 36_000, duration: 300, speed: 10 }, boarding).roomy()
    };
    let joined = street(4, 3, 2, &[turn(0, 1), turn(1, 0), turn(1, 2)], 300, 5).roomy();
    vec![
        lists("one after the other, against their numbers", chain(7, 2), &[(5, 0), (1, 20), (3, 20), (0, 20), (4, 1_000)], 1),
        lists("so too without a boarding time", chain(7, 0), &[(5, 0), (1, 0), (3, 0), (0, 0), (4, 1_000)], 1),
        lists("and without trips", chain(0, 0), &[(5, 0), (1, 0), (3, 0), (0, 0), (4, 1_000)], 1),
        lists("nobody changes at once", chain(0, 2), &[(5, 0), (1, 20), (4, 1_000)], 1),
        lists("after two steps", Case { limit: 2, ..chain(7, 2) }, &[(5, 0), (1, 20)], 0),
        lists("a circle does not start itself", circle(false, 5), &[(2, 0), (3, 1_000)], 1),
        lists("nor where one walks to it", circle(true, 5), &[(2, 0), (3, 1_000), (0, 1_500)], 1),
        lists("nor without a boarding time", circle(true, 0), &[(2, 0), (3, 1_000), (0, 1_500)], 1),
        lists("one that leads to the place", joined, &[(2, 0), (1, 250), (0, 250), (3, 1_000)], 1),
    ]
}

/// The ends of the query's road, waits, and times before midnight.
fn ends() -> Vec<Told> {
    let mut one_way = Plan { vertices: 3, ..Plan::default() };
    one_way.one_way(0, 1, 1_000);
    one_way.one_way(2, 0, 500);
    (one_way.walks[0].wait, one_way.walks[1].wait) = (30, 10);
    let query = |record: u32, offset: u32| Query { record, offset, arrival: 36_000, duration: 300, speed: 10 };
    let at = |offset: u32| planned(one_way.clone(), &[], query(1, offset), 60).roomy();
    let mut road = Plan { vertices: 2, ..Plan::default() };
    road.road(1, 0, 1_000);
    (road.walks[0].wait, road.walks[1].wait) = (7, 30);
    let between = |offset: u32| planned(road.clone(), &[], query(1, offset), 60).roomy();
    let mut night = street(3, 2, 1, &[(0, 1, -20, -5, 3), (2, 0, -60, -30, 3)], 200, 20);
    night.ridden.scene.query.arrival = 10;
    vec![
        lists("at the end of a one-way road", at(1_000), &[(1, 0), (0, 1_300), (2, 1_900)], 1),
        lists("a step before it", at(999), &[(0, 999), (2, 1_599)], 1),
        lists("at its beginning", at(0), &[(0, 0), (2, 600)], 1),
        lists("at offset 0 the twin's wait counts", between(0), &[(0, 0), (1, 1_070)], 1),
        lists("at the length its own", between(1_000), &[(1, 0), (0, 1_300)], 1),
        lists("none between", between(400), &[(0, 400), (1, 600)], 1),
        lists("before midnight", night.roomy(), &[(1, 0), (0, 500), (2, 900)], 1),
    ]
}

/// The list's room: exact, one less, none; only as far as the limit.
fn rooms() -> Vec<Told> {
    let ground = town(&[(5, 3, 35_740, 35_750, 7), RIDE], 600, 60);
    let list: List = &[(1, 500), (0, 1_500), (2, 3_000), (3, 3_000), (5, 3_200), (4, 3_900)];
    let room = |records: usize, limit: u32| Case { limit, settled: vec![7; SETTLED * records], ..ground.roomy() };
    let mut all = vec![lists("room for all", room(6, NONE), list, 1), lists("and more", room(9, NONE), list, 1)];
    for records in 0..6 {
        all.push(refuses("too little room", room(records, NONE), 9, records as u32 + 1));
        all.push(lists("as much as the limit asks for", room(records, records as u32), &list[..records], 0));
        all.push(refuses("a record less", room(records, records as u32 + 1), 9, records as u32 + 1));
    }
    all.push(lists("a large limit", room(6, 0x8000_0000), list, 1));
    let far = town(&[RIDE], 1, 60);
    all.push(lists("nothing within D", Case { settled: vec![], ..far.roomy() }, &[], 1));
    all.push(lists("nor at limit 0", Case { limit: 0, ..far.roomy() }, &[], 1));
    all
}

/// The scratch: exact, one byte less, none, more, any length beyond; and what is left of it.
fn scratches() -> Vec<Told> {
    let ground = town(&[(5, 3, 35_740, 35_750, 7), RIDE], 600, 60);
    let list: List = &[(1, 500), (0, 1_500), (2, 3_000), (3, 3_000), (5, 3_200), (4, 3_900)];
    let scratch = |bytes: usize| Case { scratch: vec![7; bytes], ..ground.roomy() };
    let mut all = Vec::new();
    for bytes in [8, 9, 10, 11, 12, 32, 4_099] {
        all.push(lists("enough scratch", scratch(bytes), list, 1));
    }
    for bytes in [0, 1, 4, 6, 7] {
        all.push(refuses("too little scratch", scratch(bytes), 18, 0));
        all.push(refuses("also where the list has no room", Case { settled: vec![], ..scratch(bytes) }, 18, 0));
    }
    all.push(refuses("no room for the list", Case { settled: vec![7; 8], ..scratch(11) }, 9, 2));
    let mut sixteen = town(&[(5, 3, 35_740, 35_750, 7), RIDE], 600, 60);
    sixteen.bytes = sixteen.ridden.bytes(false);
    let short = |bytes: usize| Case { scratch: vec![7; bytes], ..sixteen.roomy() };
    all.push(lists("hops of 16 bytes need as much", short(8), &[(1, 500), (0, 1_500), (2, 3_000), (3, 3_000), (4, 3_900)], 1));
    all.push(refuses("and no less", short(7), 18, 0));
    let none = town(&[], 300, 600);
    for bytes in [0, 1, 5] {
        all.push(lists("no hops need no scratch", Case { scratch: vec![7; bytes], ..none.roomy() }, &[(1, 500), (0, 1_500), (2, 3_000)], 1));
    }
    all
}

/// Every refusal, each put before those that were there: the lowest number is told, then the lowest place.
fn orders() -> Vec<Told> {
    type Harm = fn(&mut Case);
    let harms: [(&'static str, Harm, (u32, u32)); 20] = [
        ("room", |case| case.settled.truncate(0), (9, 1)),
        ("scratch", |case| case.scratch.truncate(7), (18, 0)),
        ("boarding", |case| case.boarding = 601, (7, 5)),
        ("speed", |case| case.query.speed = 101, (7, 4)),
        ("duration", |case| case.query.duration = 0, (7, 3)),
        ("arrival", |case| case.query.arrival = -1, (7, 2)),
        ("offset", |case| case.query.offset = 2_001, (7, 1)),
        ("record", |case| case.query.record = 6, (7, 0)),
        ("vertex 4", |case| case.vertices[12 * 4 + 11] = 1, (6, 4)),
        ("vertex 2", |case| case.vertices[12 * 2 + 3] ^= 1, (6, 2)),
        ("order of hops", |case| case.hops.rotate_left(20), (5, 1)),
        (
            "order of walks",
            |case| {
                case.walks[16 * 4..].rotate_left(16);
                (case.walks[16 * 4 + 15], case.walks[16 * 5 + 15]) = (5, 4);
            },
            (4, 5),
        ),
        ("times of hop 1", |case| case.hops[20 + 12..20 + 16].fill(0), (3, 1)),
        ("end of hop 0", |case| case.hops[3] = 7, (3, 0)),
        ("twin of walk 3", |case| case.walks[16 * 3 + 15] = 3, (2, 2)),
        ("length of walk 1", |case| case.walks[16 + 8..16 + 12].fill(0), (2, 0)),
        ("settled buffer", |case| case.settled = vec![7; 9], (1, 4)),
        ("hop size", |case| case.hop_size = 17, (1, 2)),
        ("walk table", |case| case.walks.push(0), (1, 1)),
        ("vertex table", |case| case.vertices.truncate(0), (1, 0)),
    ];
    let ground = town(&[(5, 3, 35_740, 35_750, 7), RIDE], 600, 60);
    let mut case = ground.roomy();
    let mut all = Vec::new();
    for (name, harm, (refusal, place)) in harms {
        let mut alone = ground.roomy();
        harm(&mut alone);
        harm(&mut case);
        all.push(refuses(name, alone, refusal, place));
        all.push(refuses(name, case.clone(), refusal, place));
    }
    all.push(refuses("80000000 is no boarding time", Case { boarding: 0x8000_0000, ..ground.roomy() }, 7, 5));
    all.push(refuses("nor is FFFFFFFF", Case { boarding: NONE, ..ground.roomy() }, 7, 5));
    all
}

/// An answer slice of another length: 1 is returned, and nothing is written.
fn answers() -> Vec<Told> {
    let ground = town(&[RIDE], 300, 60);
    let mut all = Vec::new();
    for len in [0, ANSWER - 1, ANSWER + 1, 12, 48] {
        for boarding in [60, 601] {
            let case = Case { boarding, answer: vec![7; len], ..ground.roomy() };
            let told = Outcome { value: 1, ..case.before() };
            all.push(("another answer slice", case, told));
        }
    }
    all
}
