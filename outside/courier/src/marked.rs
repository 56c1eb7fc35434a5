//! Cases worked out by hand over the base job of RULES 16, every byte of each answer told.

use outside::network::{Network, Plan};
use outside::records::{Answer, Held, Part, PartsAnswer, Query, Settled, Walk, ANSWER, HELD, NONE, PART, PARTS_ANSWER, SETTLED};

use crate::call::{Case, Kind, Outcome};

/// Streets 0-1, 1-2 and 3-4, and a ride from 3 to 1.
fn base() -> Plan {
    let mut plan = Plan { vertices: 5, ..Plan::default() };
    plan.road(1, 0, 2_000);
    plan.road(2, 1, 2_500);
    plan.road(4, 3, 900);
    plan.hop(3, 1, 35_760, 35_880);
    plan
}

/// The same without twins on the last road.
fn one_way() -> Network {
    let mut network = base().build();
    network.walks[4].twin = NONE;
    network.walks[5].twin = NONE;
    network
}

/// The list of all of these: record 6 is the ride.
const RIGHT: [u32; 7] = [1, 0, 3, 2, 5, 6, 4];

/// Along 4 to 3, at 300, leaving at 9:55 for ten minutes.
const LEAVE: Query = Query { record: 4, offset: 300, arrival: 35_700, duration: 600, speed: 10 };

pub fn words(numbers: &[u32]) -> Vec<u8> {
    numbers.iter().flat_map(|number| number.to_be_bytes()).collect()
}

/// A call over the base job, with room for all.
pub fn case(kind: Kind, network: &Network, query: Query, limit: u32) -> Case {
    let lent = |own: Kind, len: usize| if kind == own { vec![0xa5; len] } else { Vec::new() };
    let vertices = network.vertices.len();
    Case {
        kind,
        null: false,
        vertices: network.vertices.iter().flat_map(|v| v.bytes()).collect(),
        walks: network.walks.iter().flat_map(|w| w.bytes()).collect(),
        hops: network.hops.iter().flat_map(|h| h.bytes()).collect(),
        hop_size: 16,
        list: words(&RIGHT),
        query,
        limit,
        held: lent(Kind::Run, HELD * vertices),
        settled: lent(Kind::Run, SETTLED * vertices),
        entries: Vec::new(),
        parts: lent(Kind::Parts, PART * (network.walks.len() + 2)),
        answer: match kind {
            Kind::List => Vec::new(),
            Kind::Run => vec![0xa5; ANSWER],
            Kind::Parts => vec![0xa5; PARTS_ANSWER],
        },
    }
}

pub type Told = (&'static str, Case, Outcome);

fn filled(mut bytes: Vec<u8>, len: usize) -> Vec<u8> {
    bytes.resize(len, 0);
    bytes
}

/// A run that is accepted: the settled records, the held ones, whether it is finished.
fn runs(name: &'static str, case: Case, settled: &[(u32, u32)], held: &[[u32; 4]], finished: u32) -> Told {
    let mut told = case.before();
    let settled_bytes = settled.iter().flat_map(|&(vertex, distance)| Settled { vertex, distance }.bytes()).collect();
    let held_bytes = held.iter().flat_map(|&[vertex, distance, state, remaining]| Held { vertex, distance, state, remaining }.bytes()).collect();
    told.settled = filled(settled_bytes, case.settled.len());
    told.held = filled(held_bytes, case.held.len());
    told.answer = Answer { settled: settled.len() as u32, held: held.len() as u32, finished, ..Answer::default() }.bytes().to_vec();
    (name, case, told)
}

fn covers(name: &'static str, mut case: Case, entries: &[(u32, u32)], parts: &[[u32; 3]]) -> Told {
    case.entries = entries.iter().flat_map(|&(vertex, distance)| Settled { vertex, distance }.bytes()).collect();
    let mut told = case.before();
    let bytes = parts.iter().flat_map(|&[record, start, end]| Part { record, start, end }.bytes()).collect();
    told.parts = filled(bytes, case.parts.len());
    told.answer = PartsAnswer { parts: parts.len() as u32, ..PartsAnswer::default() }.bytes().to_vec();
    (name, case, told)
}

fn lists(name: &'static str, network: &Network, right: &[u32]) -> Told {
    let mut case = case(Kind::List, network, LEAVE, 0);
    case.list = vec![0xa5; 4 * right.len()];
    let mut told = case.before();
    told.list = words(right);
    (name, case, told)
}

/// A refusal; of 8 to 10 the buffers are zero, otherwise nothing is changed.
fn refuses(name: &'static str, case: Case, refusal: u32, place: u32) -> Told {
    let mut told = case.before();
    match case.kind {
        Kind::List => told.value = u64::from(refusal) << 32 | u64::from(place),
        Kind::Run => told.answer = words(&[refusal, place, 0, 0, 0, 0]),
        Kind::Parts => told.answer = words(&[refusal, place, 0]),
    }
    if (8..=10).contains(&refusal) {
        [&mut told.held, &mut told.settled, &mut told.parts].into_iter().for_each(|bytes| bytes.fill(0));
    }
    (name, case, told)
}

pub fn all() -> Vec<Told> {
    let mut all = reach();
    all.extend(ends());
    all.extend(waits());
    all.extend(moments());
    all.extend(orders());
    all
}

const OWN: [(u32, u32); 5] = [(4, 300), (3, 600), (1, 1_800), (0, 3_800), (2, 4_300)];

/// The held table at each limit, the room it needs, the parts.
fn reach() -> Vec<Told> {
    let network = base().build();
    let at = |limit| case(Kind::Run, &network, LEAVE, limit);
    let held: [&[[u32; 4]]; 6] = [
        &[[3, 600, 0, 1], [4, 300, 0, 1]],
        &[[3, 600, 0, 0], [4, 300, 1, 1]],
        &[[1, 1_800, 0, 2]],
        &[[0, 3_800, 0, 0], [1, 1_800, 1, 2], [2, 4_300, 0, 0]],
        &[[1, 1_800, 1, 1], [2, 4_300, 0, 0]],
        &[],
    ];
    let mut all = vec![lists("the list of the base job", &network, &RIGHT)];
    for (k, held) in held.iter().enumerate() {
        all.push(runs("each limit", at(k as u32), &OWN[..k], held, (k == 5).into()));
    }
    all.push(runs("no limit", at(NONE), &OWN, &[], 1));
    let room = |held: usize, settled: usize| Case { held: vec![7; HELD * held], settled: vec![7; SETTLED * settled], ..at(NONE) };
    all.push(runs("room for three", room(3, 5), &OWN, &[], 1));
    all.push(refuses("room for two", room(2, 5), 8, 3));
    all.push(refuses("room for one", room(1, 5), 8, 0));
    all.push(refuses("settled room for four", room(3, 4), 9, 5));
    all.push(refuses("of one step 8 comes first", room(2, 2), 8, 3));
    all.push(runs("a ride that leaves a second too soon", case(Kind::Run, &network, Query { arrival: 35_701, ..LEAVE }, NONE), &OWN[..2], &[[1, NONE, 0, 2]], 1));
    all.push(runs("D at the ride's end", case(Kind::Run, &network, Query { duration: 180, ..LEAVE }, NONE), &OWN[..3], &[[1, 1_800, 1, 2]], 1));
    all.push(runs("D a second before it", case(Kind::Run, &network, Query { duration: 179, ..LEAVE }, NONE), &OWN[..2], &[[1, 1_800, 0, 2]], 1));
    let streets = case(Kind::Parts, &network, LEAVE, 0);
    let parts = [[4, 300, 900], [5, 600, 900], [4, 0, 300], [5, 0, 600], [0, 0, 2_000], [3, 0, 2_500], [1, 0, 2_000], [2, 0, 1_700]];
    all.push(covers("the parts", streets.clone(), &OWN, &parts));
    all.push(covers("the parts at the place", streets.clone(), &[], &parts[..2]));
    all.push(covers("a distance of D has no part", streets.clone(), &[(1, 6_000)], &parts[..2]));
    let narrow = |room: usize| {
        let (_, case, _) = covers("", Case { parts: vec![7; PART * room], ..streets.clone() }, &OWN, &[]);
        case
    };
    all.push(refuses("no room at the place", narrow(1), 10, 0));
    all.push(refuses("no room at the third entry", narrow(5), 10, 3));
    all.push(refuses("no room at the last", narrow(7), 10, 5));
    let listed = |entries: &[(u32, u32)]| covers("", Case { parts: vec![], ..streets.clone() }, entries, &[]).1;
    all.push(refuses("21 before 10: a repeat", listed(&[(1, 0), (2, 0), (1, 5)]), 21, 2));
    all.push(refuses("21: no vertex", listed(&[(1, 0), (5, 0)]), 21, 1));
    all.push(refuses("21: beyond D", listed(&[(1, 6_001)]), 21, 0));
    all
}

/// A place at an end, with a twin and one-way.
fn ends() -> Vec<Told> {
    let (roads, single) = (base().build(), one_way());
    let at = |network: &Network, offset: u32, limit: u32| case(Kind::Run, network, Query { record: 5, offset, arrival: 36_000, duration: 300, speed: 10 }, limit);
    vec![
        runs("one-way at 0: \"from\" at once, \"to\" behind the road", at(&single, 0, 0), &[], &[[3, 0, 0, 1], [4, 900, 0, 1]], 0),
        runs("one-way at the length: \"to\" alone", at(&single, 900, 0), &[], &[[4, 0, 0, 1]], 0),
        runs("one-way just before it", at(&single, 899, 0), &[], &[[4, 1, 0, 1]], 0),
        runs("one-way inside", at(&single, 1, 0), &[], &[[4, 899, 0, 1]], 0),
        runs("both ways at 0", at(&roads, 0, 0), &[], &[[3, 0, 0, 1], [4, 900, 0, 1]], 0),
        runs("both ways at the length", at(&roads, 900, 0), &[], &[[3, 900, 0, 1], [4, 0, 0, 1]], 0),
        refuses("beyond the length", at(&roads, 901, 0), 7, 1),
        covers("no part on e at the length, none of it at \"from\"", Case { kind: Kind::Parts, ..parts_at(&roads, 900) }, &[(4, 0), (3, 900)], &[[4, 0, 900], [5, 0, 900]]),
        covers("at 0 the part of e is that of the place", parts_at(&roads, 0), &[(3, 0), (4, 900)], &[[5, 0, 900], [4, 0, 900]]),
    ]
}

fn parts_at(network: &Network, offset: u32) -> Case {
    case(Kind::Parts, network, Query { record: 5, offset, arrival: 36_000, duration: 300, speed: 10 }, 0)
}

/// 30 seconds of wait where walk 5 ends, 7 where its twin ends.
fn waits() -> Vec<Told> {
    let mut network = base().build();
    network.walks[5].wait = 30;
    network.walks[4].wait = 7;
    let query = |offset, duration| Query { record: 5, offset, arrival: 36_000, duration, speed: 10 };
    let at = |offset, duration, limit| case(Kind::Run, &network, query(offset, duration), limit);
    let streets = |offset, duration| case(Kind::Parts, &network, query(offset, duration), 0);
    vec![
        runs("inside both waits are paid", at(400, 300, 0), &[], &[[3, 470, 0, 1], [4, 800, 0, 1]], 0),
        runs("at 0 the whole road and its wait", at(0, 300, 0), &[], &[[3, 0, 0, 1], [4, 1_200, 0, 1]], 0),
        runs("at the length the twin and its wait", at(900, 300, 0), &[], &[[3, 970, 0, 1], [4, 0, 0, 1]], 0),
        runs("D before the lights are green", at(400, 79, NONE), &[(3, 470)], &[[1, NONE, 0, 2], [3, 470, 1, 1]], 1),
        runs("D as they are", at(400, 80, NONE), &[(3, 470), (4, 800)], &[[1, NONE, 0, 2]], 1),
        covers("a part reaches the lights before the vertex is reached", streets(400, 79), &[(3, 470)], &[[5, 400, 900], [4, 500, 900], [5, 0, 320]]),
        covers("the twin up to lights that are red", streets(900, 100), &[(4, 0)], &[[4, 0, 900]]),
        covers("the time ends before the place's road does", streets(400, 40), &[], &[[5, 400, 800], [4, 500, 900]]),
    ]
}

/// Rides of no minutes: a smaller number follows a larger one.
fn moments() -> Vec<Told> {
    let mut plan = Plan { vertices: 6, ..Plan::default() };
    plan.road(5, 1, 1_000);
    for (from, to) in [(5, 0), (0, 4), (2, 3), (3, 2)] {
        plan.hop(from, to, 100, 100);
    }
    let network = plan.build();
    let record = network.walks.iter().position(|walk: &Walk| walk.from == 5).unwrap() as u32;
    let query = Query { record, offset: 0, arrival: 100, duration: 50, speed: 10 };
    // Walks 0 (5 to 1) and 1 (1 to 5); hops 2 (5 to 0), 3 (3 to 2), 4 (2 to 3), 5 (0 to 4).
    let right = [5, 1, 4, 3, 0, 2];
    let run = Case { list: words(&right), ..case(Kind::Run, &network, query, NONE) };
    vec![
        lists("the list of the moments", &network, &right),
        runs("all at one moment, and a circle that nobody enters", run, &[(5, 0), (0, 0), (4, 0)], &[[5, 0, 1, 1]], 1),
    ]
}

/// Lists that do not match, and where 22 stands among the refusals.
fn orders() -> Vec<Told> {
    let network = base().build();
    let run = |list: &[u32], query: Query| Case { list: words(list), ..case(Kind::Run, &network, query, NONE) };
    let parts = |list: &[u32], query: Query| Case { list: words(list), ..case(Kind::Parts, &network, query, NONE) };
    let nowhere = Query { record: 6, ..LEAVE };
    let exchanged = [1, 0, 3, 2, 6, 5, 4];
    let mut cut = run(&RIGHT, LEAVE);
    cut.list.pop();
    let mut cut_held = run(&RIGHT[..6], LEAVE);
    cut_held.held.pop();
    let mut cut_parts = parts(&RIGHT[..6], LEAVE);
    cut_parts.parts.pop();
    let mut bad_vertex = run(&exchanged, LEAVE);
    bad_vertex.vertices[12 * 3 + 11] = 1;
    let mut bad_target = case(Kind::List, &network, LEAVE, 0);
    bad_target.vertices[12 * 3 + 11] = 1;
    let mut short = case(Kind::List, &network, LEAVE, 0);
    short.list.truncate(24);
    let mut short_bad = bad_target.clone();
    short_bad.list.truncate(24);
    vec![
        refuses("two of one vertex exchanged", run(&exchanged, LEAVE), 22, 4),
        refuses("one twice", run(&[1, 0, 3, 2, 5, 5, 4], LEAVE), 22, 5),
        refuses("one left out, so that the fault shows later", run(&[1, 0, 2, 5, 6, 4, 4], LEAVE), 22, 2),
        refuses("as the tables stand", run(&[0, 1, 2, 3, 4, 5, 6], LEAVE), 22, 0),
        refuses("a number that is no record", run(&[1, 0, 3, 2, 5, 6, 7], LEAVE), 22, 6),
        refuses("the same of parts", parts(&exchanged, LEAVE), 22, 4),
        refuses("22 before 7", run(&exchanged, nowhere), 22, 4),
        refuses("22 before 7 and 21", parts(&exchanged, nowhere), 22, 4),
        refuses("7 behind a right list", run(&RIGHT, nowhere), 7, 0),
        refuses("6 before 22", bad_vertex, 6, 3),
        refuses("a cut list", cut, 1, 6),
        refuses("a list of six", run(&RIGHT[..6], LEAVE), 1, 6),
        refuses("a list of eight", run(&[1, 0, 3, 2, 5, 6, 4, 7], LEAVE), 1, 6),
        refuses("place 3 before 6", cut_held, 1, 3),
        refuses("place 5 before 6", cut_parts, 1, 5),
        refuses("a list made of bad tables", bad_target, 6, 3),
        refuses("a list made too short", short, 1, 6),
        refuses("1 before 6", short_bad, 1, 6),
    ]
}
