//! The networks on which the vertices held are counted. Roads go both ways and
//! the place is a vertex in the middle; only the timetable has hops.

use outside::network::{grid, Plan, Scene};
use outside::records::{Query, Walk};
use outside::rng::Rng;

/// An even road is 60 m long, and a second is enough for a metre: each takes
/// one minute.
const ROAD: u32 = 600;
const SPEED: u32 = 10;

/// A square grid of even roads, numbered along its rows.
pub fn even_grid(width: usize) -> Plan {
    let mut plan = Plan {
        vertices: width * width,
        ..Plan::default()
    };
    for v in 0..plan.vertices {
        if v % width + 1 < width {
            plan.road(v, v + 1, ROAD);
        }
        if v + width < plan.vertices {
            plan.road(v, v + width, ROAD);
        }
    }
    plan
}

/// The same network with its vertices numbered at random, and the new number
/// of one of them. Among vertices at one distance the number decides.
pub fn shuffled(mut plan: Plan, vertex: usize) -> (Plan, usize) {
    let mut rng = Rng::new(7, plan.vertices as u64);
    let mut numbers: Vec<u32> = (0..plan.vertices as u32).collect();
    for last in (1..numbers.len()).rev() {
        numbers.swap(last, rng.below(last + 1));
    }
    let walks = plan.walks.iter_mut().map(|w| [&mut w.from, &mut w.to]);
    let hops = plan.hops.iter_mut().map(|h| [&mut h.from, &mut h.to]);
    for end in walks.chain(hops).flatten() {
        *end = numbers[*end as usize];
    }
    (plan, numbers[vertex] as usize)
}

/// A square grid of roads between 50 and 150 m.
pub fn uneven_grid(width: usize) -> Plan {
    grid(width, width * width, &mut Rng::new(7, width as u64))
}

/// The same with three houses at each corner: from each a road of 10 to 150 m
/// leads to the corner and nowhere else.
pub fn grid_with_houses(width: usize) -> Plan {
    let mut rng = Rng::new(8, width as u64);
    let mut plan = uneven_grid(width);
    for corner in 0..width * width {
        add_houses(&mut plan, corner, 3, (100, 1_500), &mut rng);
    }
    plan
}

fn add_houses(
    plan: &mut Plan,
    corner: usize,
    count: usize,
    (near, far): (i64, i64),
    rng: &mut Rng,
) {
    for _ in 0..count {
        let house = new_vertex(plan);
        plan.road(corner, house, rng.range(near, far) as u32);
    }
}

fn new_vertex(plan: &mut Plan) -> usize {
    plan.vertices += 1;
    plan.vertices - 1
}

/// Lines of even roads that meet in vertex 0 and nowhere else, numbered
/// outwards, around and around.
pub fn spider(lines: usize, length: usize) -> Plan {
    let mut plan = Plan {
        vertices: 1 + lines * length,
        ..Plan::default()
    };
    for v in 1..plan.vertices {
        plan.road(v.saturating_sub(lines), v, ROAD);
    }
    plan
}

/// When the place has to be reached.
const ARRIVAL: i32 = 36_000;

const TOWN: usize = 61;
const LINES: usize = 100;
const STOPS: usize = 12;
const HOUSES: usize = 5;
const STATIONS: usize = 400;

/// A town of uneven streets, lines of stops that lead out of it with houses at
/// each stop, and distant stations with trains to the middle of the town; and
/// that middle.
pub fn timetable() -> (Plan, usize) {
    let mut rng = Rng::new(7, TOWN as u64);
    let mut plan = uneven_grid(TOWN);
    let middle = plan.vertices / 2;
    for line in 0..LINES {
        let terminus = line * (TOWN * TOWN / LINES);
        add_line(&mut plan, terminus, &mut rng);
    }
    for _ in 0..STATIONS {
        let station = new_vertex(&mut plan);
        for hour in 4..14 {
            let departure = 3_600 * hour + rng.range(0, 3_599) as i32;
            let ride = rng.range(1_200, 5_400) as i32;
            plan.hop(station, middle, departure, departure + ride);
        }
    }
    (plan, middle)
}

/// A line of stops with a bus each way every half hour of the morning. From
/// each stop, roads lead to houses and end there.
fn add_line(plan: &mut Plan, terminus: usize, rng: &mut Rng) {
    let minute = rng.range(0, 29) as i32;
    let mut before = terminus;
    for place in 0..STOPS as i32 {
        let stop = new_vertex(plan);
        add_houses(plan, stop, HOUSES, (500, 9_000), rng);
        for bus in 0..16 {
            let leaves = 4 * 3_600 + 60 * (30 * bus + minute);
            let (inward, outward) = (240 * (STOPS as i32 - place), 240 * place);
            plan.hop(stop, before, leaves + inward, leaves + inward + 210);
            plan.hop(before, stop, leaves + outward, leaves + outward + 210);
        }
        before = stop;
    }
}

/// A query whose place is the vertex `centre` itself: offset 0 on a road that
/// leaves it.
pub fn around(plan: &Plan, centre: usize, minutes: u32) -> Scene {
    let network = plan.build();
    let leaves = |walk: &Walk| walk.from as usize == centre;
    let record = network.walks.iter().position(leaves).unwrap_or(0) as u32;
    let query = Query {
        record,
        offset: 0,
        arrival: ARRIVAL,
        duration: 60 * minutes,
        speed: SPEED,
    };
    Scene { network, query }
}
