//! Cases at the limits of the tables, with the refusal known beforehand.

use super::big_lists as lists;
use super::big_trips as trips;
use super::bought;
use super::hubs;
use crate::network::{full_scene, Network, Plan, Scene};
use crate::outcome::Case;
use crate::records::{Asked, Listed, Query, Vertex, NONE};

/// A case and the refusal and place that it is built to give.
pub struct Big {
    pub name: &'static str,
    pub make: fn() -> Case,
    pub refusal: u32,
    /// Where held or part room is short, only a run can tell the step.
    pub place: Option<u32>,
}

const fn big(name: &'static str, make: fn() -> Case, refusal: u32, place: u32) -> Big {
    Big {
        name,
        make,
        refusal,
        place: Some(place),
    }
}

const fn somewhere(name: &'static str, make: fn() -> Case, refusal: u32) -> Big {
    Big {
        name,
        make,
        refusal,
        place: None,
    }
}

impl Big {
    /// Whether this is the refusal that the case is built for.
    pub fn fits(&self, (refusal, place): (u32, u32)) -> bool {
        refusal == self.refusal && self.place.unwrap_or(place) == place
    }
}

pub const ALL: &[Big] = &[
    big("full size", || full().run_case(NONE), 0, 0),
    big("full size, both", || full().pair_case(NONE), 0, 0),
    big("full size, waits", || waiting().pair_case(NONE), 0, 0),
    big("full size, 1,000 steps", || full().pair_case(1_000), 0, 0),
    big("full size, check", || full().network.check_case(), 0, 0),
    somewhere(
        "full size, held room",
        || short([1_000, 65_536, 262_146]),
        8,
    ),
    big(
        "full size, settled room",
        || short([65_536, 150, 262_146]),
        9,
        151,
    ),
    somewhere("full size, part room", || short([65_536, 65_536, 600]), 10),
    big("65,537 vertices", || more(1, 0, 0), 1, 0),
    big("262,145 walks", || more(0, 1, 0), 1, 1),
    big("262,145 hops", || more(0, 0, 1), 1, 2),
    big("all three one too long", || more(1, 1, 1), 1, 0),
    big("walks and hops one too long", || more(0, 1, 1), 1, 1),
    big("last walk", || broken(last_walk), 2, 262_143),
    big("last hop", || broken(last_hop), 3, 262_143),
    big("last walk's order", || broken(walk_order), 4, 262_143),
    big("last hop's order", || broken(hop_order), 5, 262_143),
    big("last vertex", || broken(last_vertex), 6, 65_535),
    big("last vertex, parts", lists::broken_parts, 6, 65_535),
    big("65,536 vertices, no walk", || lonely(65_536), 7, 0),
    big("65,537 vertices, no walk", || lonely(65_537), 1, 0),
    big("65,535 walks depart", || hub(65_535, 0), 0, 0),
    big("65,536 walks depart", || hub(65_536, 0), 6, 0),
    big("65,537 walks depart", || hub(65_537, 0), 6, 0),
    big("65,535 hops depart", || hub(1, 65_534), 0, 0),
    big("65,535 walks and hops depart", || hub(32_768, 32_767), 0, 0),
    big("65,536 walks and hops depart", || hub(32_768, 32_768), 6, 0),
    big("524,288 records depart", || hub(262_144, 262_144), 6, 0),
    big("200,000 held slots", wide_room, 0, 0),
    big("a line of 65,536 vertices", || line(65_536), 0, 0),
    big("262,144 walks into one vertex", funnel, 0, 0),
    big(
        "65,536 vertices at one moment",
        || moment().pair_case(NONE),
        0,
        0,
    ),
    big(
        "65,535 hopeless walks, one slot",
        || hubs::one_step(hubs::walks(), 0),
        0,
        0,
    ),
    big(
        "65,535 hopeless walks, no slot",
        || hubs::one_step(hubs::walks(), 1),
        8,
        0,
    ),
    big(
        "a hopeless walk and hop each, one slot",
        || hubs::one_step(hubs::walks_and_hops(), 0),
        0,
        0,
    ),
    big(
        "four hopeless walks and hops each, one slot",
        || hubs::one_step(hubs::full_row(), 0),
        0,
        0,
    ),
    big(
        "two late hops each, one slot",
        || hubs::one_step(hubs::late_hops(), 0),
        0,
        0,
    ),
    big(
        "every other neighbour stays, room exact",
        || hubs::one_step(hubs::every_other_stays(), 0),
        0,
        0,
    ),
    big(
        "every other neighbour stays, one slot less",
        || hubs::one_step(hubs::every_other_stays(), 1),
        8,
        1,
    ),
    big(
        "every other neighbour rides, room exact",
        || hubs::one_step(hubs::every_other_rides(), 0),
        0,
        0,
    ),
    big(
        "every other neighbour rides, one slot less",
        || hubs::one_step(hubs::every_other_rides(), 1),
        8,
        1,
    ),
    big("its own list, judged", || judged(full(), |_| ()), 0, 0),
    somewhere(
        "its own list, the last left out",
        || judged(full(), |list| list.truncate(list.len() - 1)),
        28,
    ),
    somewhere(
        "its own list, the last twice",
        || judged(full(), |list| list.push(list[list.len() - 1])),
        25,
    ),
    big(
        "65,536 entries at one moment, judged",
        || judged(moment(), |_| ()),
        0,
        0,
    ),
    big(
        "65,536 entries at one moment, backwards",
        || judged(moment(), |list| list.reverse()),
        27,
        0,
    ),
    big("full size, two queries", || queries(full(), 2), 0, 0),
    big("70,000 queries", || queries(pair(), 70_000), 0, 0),
    big("96 arrivals", || arrivals(96), 0, 0),
    big("97 arrivals", || arrivals(97), 20, 1),
    big("the most patients", || evening(|_| ()), 0, 0),
    big(
        "one patient too many",
        || evening(|case| case.patients[4 * 65_535 + 1] = 1),
        19,
        65_535,
    ),
    big("65,536 entries", || lists::listed(|list| list), 0, 0),
    big(
        "65,536 entries, backwards",
        || lists::listed(lists::backwards),
        0,
        0,
    ),
    big("65,536 entries, room exact", || lists::listed_in(0), 0, 0),
    somewhere("65,536 entries, room one less", || lists::listed_in(1), 10),
    big(
        "65,536 entries, no room",
        || Case {
            parts: Vec::new(),
            ..lists::listed(|list| list)
        },
        10,
        0,
    ),
    big(
        "the last entry twice",
        || lists::listed(lists::twice),
        21,
        65_536,
    ),
    big(
        "the first entry once more",
        || lists::listed(lists::once_more),
        21,
        65_536,
    ),
    big(
        "a repeat as the last entry",
        || lists::listed(lists::repeat),
        21,
        65_535,
    ),
    big(
        "a repeat in the upper half",
        || lists::listed(lists::upper),
        21,
        65_535,
    ),
    big(
        "an upper repeat first",
        || lists::listed(lists::upper_first),
        21,
        40_000,
    ),
    big(
        "a lower repeat first",
        || lists::listed(lists::lower_first),
        21,
        40_000,
    ),
    big(
        "32,767 and 32,768 twice",
        || lists::listed(lists::middle),
        21,
        65_535,
    ),
    big(
        "the last vertex too high",
        || lists::listed(lists::too_high),
        21,
        65_535,
    ),
    big(
        "the last distance too far",
        || lists::listed(lists::too_far),
        21,
        65_535,
    ),
    big(
        "the last distance is D",
        || lists::listed(lists::just_in),
        0,
        0,
    ),
    big("a whole settled buffer", lists::whole_buffer, 21, 1_001),
    big("300,000 equal entries", || lists::equal(300_000), 21, 1),
    big(
        "full size with trips",
        || trips::with_trips(|scene| scene.pair_case(NONE)),
        0,
        0,
    ),
    big(
        "full size with trips, check",
        || trips::with_trips(|scene| scene.network.check_case()),
        0,
        0,
    ),
    big("262,145 hops with trips", trips::one_more, 1, 2),
    big("last hop with a trip", trips::last_hop, 3, 262_143),
    big("262,144 hops forward", || trips::forward(262_144), 0, 0),
    big("262,145 hops forward", || trips::forward(262_145), 1, 2),
    big("a target one short", trips::forward_short, 1, 6),
    big("262,144 hops backward", || trips::backward(262_144), 0, 0),
    big("262,145 hops backward", || trips::backward(262_145), 1, 2),
    big("the last trip is known", trips::last_trip, 11, 262_143),
];

pub fn full() -> Scene {
    full_scene(3_600)
}

/// What a run settles, with the record of each, and something done to it.
/// So many queries, each a second earlier than the one before.
fn queries(scene: Scene, count: usize) -> Case {
    let one = |i: usize| Asked {
        query: Query {
            arrival: scene.query.arrival - i as i32 % 1_000,
            ..scene.query
        },
        limit: NONE,
    };
    scene.runs_case(&(0..count).map(one).collect::<Vec<Asked>>())
}

/// Two vertices and a road between them.
fn pair() -> Scene {
    let mut plan = Plan {
        vertices: 2,
        ..Plan::default()
    };
    plan.road(0, 1, 1_000);
    let network = plan.build();
    let query = Query {
        record: 1,
        offset: 300,
        ..moment().query
    };
    Scene { network, query }
}

/// So many arrivals at the end of the time that there is.
fn arrivals(count: u32) -> Case {
    let mut scene = pair();
    scene.query.arrival = 172_800 - 95 * 60;
    scene.patients_case(60, count, &[1, 2])
}

/// All vertices are reached at both arrivals, and each has the most patients.
fn evening(change: fn(&mut Case)) -> Case {
    let mut case = moment().patients_case(30, 2, &[65_535; 65_536]);
    change(&mut case);
    case
}

fn judged(scene: Scene, change: fn(&mut Vec<Listed>)) -> Case {
    let mut list = bought::whole(&scene);
    change(&mut list);
    scene.judge_case(&list)
}

/// The full network and so many records more than it may have.
fn more(vertices: usize, walks: usize, hops: usize) -> Case {
    let mut scene = full();
    let network = &mut scene.network;
    for _ in 0..vertices {
        network.vertices.push(Vertex {
            first_walk: 262_144,
            first_hop: 262_144,
            departing: 0,
            zero: 0,
        });
    }
    for _ in 0..walks {
        let last = network.walks[network.walks.len() - 1];
        network.walks.push(last);
    }
    for _ in 0..hops {
        let last = network.hops[network.hops.len() - 1];
        network.hops.push(last);
    }
    scene.run_case(NONE)
}

/// The full network with so many held, settled and part slots. So few that
/// `slow` comes to the step that lacks room in a fair time.
fn short(room: [usize; 3]) -> Case {
    let mut case = full().pair_case(NONE);
    case.held = vec![0xee; room[0] * 16];
    case.settled = vec![0xee; room[1] * 8];
    case.parts = vec![0xee; room[2] * 12];
    case
}

fn broken(fault: fn(&mut Network)) -> Case {
    let mut scene = full();
    fault(&mut scene.network);
    scene.run_case(NONE)
}

/// The full size with waits of every length, those of twins apart, and the
/// place past the longest.
fn waiting() -> Scene {
    let mut scene = full();
    let longest = scene.query.record as usize;
    for (record, walk) in scene.network.walks.iter_mut().enumerate() {
        walk.wait = (record * 37 % 121) as u32;
    }
    scene.network.walks[longest].wait = 120;
    scene.query.offset = scene.network.walks[longest].length;
    scene
}

/// Every vertex has distance 0 by rides at T: the lower half to 32,767, which
/// rides to 65,535 as the upper half does. The place is 65,535.
pub fn moment() -> Scene {
    let mut plan = Plan {
        vertices: 65_536,
        ..Plan::default()
    };
    plan.one_way(0, 65_535, 10);
    for v in 0..65_535 {
        let to = if v < 32_767 { 32_767 } else { 65_535 };
        plan.hop(v, to, 36_000, 36_000);
    }
    let query = Query {
        record: 0,
        offset: 10,
        arrival: 36_000,
        duration: 60,
        speed: 10,
    };
    let network = plan.build();
    Scene { network, query }
}

fn last_walk(network: &mut Network) {
    // Its twin goes its own way, or that lower record would be at fault.
    let twin = network.walks[262_143].twin;
    network.walks[twin as usize].twin = NONE;
    network.walks[262_143].twin = 262_144;
    // Higher numbers everywhere else do not matter.
    network.hops[0].from = 65_536;
    network.vertices[0].zero = 1;
}

fn last_hop(network: &mut Network) {
    network.hops[262_143].departure = network.hops[262_143].arrival + 1;
    network.vertices[0].zero = 1;
}

fn walk_order(network: &mut Network) {
    let last = network.walks[262_143].to;
    let before = network.walks.partition_point(|w| w.to < last) - 1;
    network.swap_walks(before, 262_143);
    network.hops.swap(0, 262_143);
}

fn hop_order(network: &mut Network) {
    let last = network.hops[262_143].to;
    let before = network.hops.partition_point(|h| h.to < last) - 1;
    network.hops.swap(before, 262_143);
    network.vertices[0].departing += 1;
}

pub fn last_vertex(network: &mut Network) {
    network.vertices[65_535].departing += 1;
}

fn lonely(vertices: usize) -> Case {
    let plan = Plan {
        vertices,
        ..Plan::default()
    };
    scene(plan, 1).run_case(NONE)
}

/// So many records from vertex 0 to vertex 1, and one road to vertex 2.
fn hub(walks: usize, hops: usize) -> Case {
    let mut plan = Plan {
        vertices: 3,
        ..Plan::default()
    };
    plan.one_way(1, 2, 10);
    for i in 0..walks {
        plan.one_way(0, 1, 1 + i as u32 % 50);
    }
    for i in 0..hops {
        plan.hop(0, 1, 900 + i as i32 % 60, 960);
    }
    let mut scene = scene(plan, 100);
    scene.query.record = scene.network.walks.len() as u32 - 1;
    // With 262,144 walks the road is one too many; then it goes.
    if scene.network.walks.len() > 262_144 {
        scene.network.walks.pop();
        scene.network.vertices[1].departing = 0;
        scene.query.record = 0;
    }
    scene.pair_case(NONE)
}

fn wide_room() -> Case {
    let mut plan = Plan {
        vertices: 3,
        ..Plan::default()
    };
    plan.road(0, 1, 10);
    plan.road(1, 2, 10);
    let mut case = scene(plan, 100).pair_case(NONE);
    case.held = vec![0xee; 200_000 * 16];
    case.settled = vec![0xee; 300_000 * 8];
    case.parts = vec![0xee; 300_000 * 12];
    case
}

fn line(vertices: usize) -> Case {
    let mut plan = Plan {
        vertices,
        ..Plan::default()
    };
    // From the last vertex down, so that one pass of a fixpoint is not enough.
    for v in 1..vertices {
        plan.road(v - 1, v, 1 + v as u32 % 7);
    }
    scene(plan, 86_400).pair_case(NONE)
}

fn funnel() -> Case {
    let mut plan = Plan {
        vertices: 9,
        ..Plan::default()
    };
    for i in 0..262_144 {
        plan.one_way(i % 8, 8, 1 + (i % 1_000) as u32);
    }
    scene(plan, 700).pair_case(NONE)
}

fn scene(plan: Plan, duration: u32) -> Scene {
    let network = plan.build();
    let query = Query {
        record: 0,
        offset: 1,
        arrival: 1_000,
        duration,
        speed: 2,
    };
    Scene { network, query }
}
