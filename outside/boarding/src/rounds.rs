//! A look at large networks in which every ride takes time: round after round over all walks and hops until nothing gets nearer, and then the list by distance and number.

use std::collections::HashMap;

use outside::records::{word, Hop, Query, Settled, Tables, Walk, HOP, NONE, TRIP_HOP, VERTEX, WALK};

/// What is settled, for tables, query and boarding time in order.
pub fn list(tables: Tables, query: Query, boarding: u32) -> Vec<Settled> {
    let speed = i64::from(query.speed);
    let size = tables.hop_size as usize;
    let walks: Vec<Walk> = (0..tables.walks.len() / WALK).map(|i| Walk::read(tables.walks, i)).collect();
    let hops: Vec<(Hop, u32)> = (0..tables.hops.len() / size).map(|i| (Hop::read(tables.hops, size, i), if size == TRIP_HOP { word(tables.hops, i * size + HOP) } else { 0 })).collect();
    let before = |second: i32| i64::from(query.arrival - second) * speed;
    let cost = |walk: &Walk| i64::from(walk.length) + i64::from(walk.wait) * speed;
    let mut near = vec![i64::MAX; tables.vertices.len() / VERTEX];
    let e = walks[query.record as usize];
    let o = query.offset;
    near[e.from as usize] = if o == e.length { cost(&e) } else { o.into() };
    if o == e.length {
        near[e.to as usize] = 0;
    } else if e.twin != NONE {
        near[e.to as usize] = if o == 0 { cost(&walks[e.twin as usize]) } else { i64::from(e.length - o) };
    }
    // The last departure from a stop of a vehicle that comes in time.
    let mut last: HashMap<(u32, u32), i32> = HashMap::new();
    let mut aboard = vec![false; hops.len()];
    loop {
        let mut changed = false;
        let mut offer = |near: &mut Vec<i64>, vertex: u32, ticks: i64| {
            if ticks < near[vertex as usize] {
                near[vertex as usize] = ticks;
                changed = true;
            }
        };
        for walk in walks.iter().chain(walks.iter().rev()) {
            if near[walk.to as usize] < i64::MAX {
                let ticks = near[walk.to as usize] + cost(walk);
                offer(&mut near, walk.from, ticks);
            }
        }
        let mut more = false;
        for (own, &(hop, trip)) in aboard.iter_mut().zip(&hops).filter(|(own, _)| !**own) {
            let stays = || trip != 0 && last.get(&(hop.to, trip)).is_some_and(|&departure| departure >= hop.arrival);
            if before(hop.arrival) >= near[hop.to as usize] || stays() {
                *own = true;
                more = true;
                let departs = last.entry((hop.from, trip)).or_insert(hop.departure);
                *departs = hop.departure.max(*departs);
                offer(&mut near, hop.from, before(hop.departure) + i64::from(boarding) * speed);
            }
        }
        if !changed && !more {
            break;
        }
    }
    let window = i64::from(query.duration) * speed;
    let mut list: Vec<(i64, u32)> = near.iter().zip(0..).map(|(&ticks, v)| (ticks, v)).filter(|&(ticks, _)| ticks <= window).collect();
    list.sort_unstable();
    list.into_iter().map(|(ticks, vertex)| Settled { vertex, distance: ticks as u32 }).collect()
}
