//! Every answer straight from the words of the request: which hops a ride can begin and end with, distances by a fixpoint over all walks and rides,
//! the order of each step from scratch. Ticks have 64 bits, so that no sum can pass its type.

use outside::records::{word, Answer, Hop, Query, Settled, Tables, Walk, NONE};
use outside::slow::{asked, hops, lengths, records, vertices, walks};

use crate::call::{Lent, Program};

pub struct Plain;

/// A refusal's number and its place.
type Given = (u64, u64);

/// A hop and the vehicle it belongs to, 0 for unknown.
#[derive(Clone, Copy, Debug)]
pub struct TripHop {
    pub hop: Hop,
    pub trip: u32,
}

pub struct Model {
    pub vertices: usize,
    pub walks: Vec<Walk>,
    pub hops: Vec<TripHop>,
    pub query: Query,
    pub boarding: u32,
    /// Of each hop those that a ride which begins with it can end with, itself among them.
    pub ends: Vec<Vec<usize>>,
    /// T less the latest start, the window left aside.
    pub distance: Vec<Option<i64>>,
    /// All vertices within D, as they are settled.
    pub order: Vec<usize>,
}

/// Records of 16 bytes have no trip.
fn trip_hops(tables: Tables) -> Vec<TripHop> {
    let trip = |i: usize| if tables.hop_size == 20 { word(tables.hops, 20 * i + 16) } else { 0 };
    hops(tables).into_iter().enumerate().map(|(i, hop)| TripHop { hop, trip: trip(i) }).collect()
}

impl Model {
    /// Tables, query and boarding time that 1 to 7 do not refuse, without distances and order.
    pub fn unasked(tables: Tables, query: Query, boarding: u32) -> Self {
        let (distance, order, ends) = (Vec::new(), Vec::new(), Vec::new());
        let (vertices, walks, hops) = (vertices(tables).len(), walks(tables), trip_hops(tables));
        let mut model = Model { vertices, walks, hops, query, boarding, ends, distance, order };
        model.ends = (0..model.hops.len()).map(|first| model.rides(first)).collect();
        model
    }

    pub fn new(tables: Tables, query: Query, boarding: u32) -> Self {
        let mut model = Model::unasked(tables, query, boarding);
        model.distance = model.distances();
        while let Some(next) = model.next() {
            model.order.push(next);
        }
        model
    }

    fn ticks(&self, seconds: i64) -> i64 {
        seconds * i64::from(self.query.speed)
    }

    /// The ticks from a second to T.
    pub fn before(&self, second: i32) -> i64 {
        self.ticks(i64::from(self.query.arrival) - i64::from(second))
    }

    pub fn window(&self) -> i64 {
        self.ticks(self.query.duration.into())
    }

    /// One hop is followed by another in the same vehicle.
    pub fn stays(&self, last: usize, next: usize) -> bool {
        let (last, next) = (self.hops[last], self.hops[next]);
        last.trip != 0 && last.trip == next.trip && last.hop.to == next.hop.from && next.hop.departure >= last.hop.arrival
    }

    /// What a ride that begins with this hop can end with: the hop alone, and each that goes on from one of these.
    fn rides(&self, first: usize) -> Vec<usize> {
        let mut ends = vec![first];
        let mut looked = 0;
        while looked < ends.len() {
            let last = ends[looked];
            let on: Vec<usize> = (0..self.hops.len()).filter(|&next| self.stays(last, next) && !ends.contains(&next)).collect();
            ends.extend(on);
            looked += 1;
        }
        ends
    }

    pub fn walk_ticks(&self, walk: &Walk) -> i64 {
        i64::from(walk.length) + self.ticks(walk.wait.into())
    }

    /// The ends of the query's road and what they are from the place. Offset "length" lies past the wait, each smaller one before it.
    pub fn seeds(&self) -> Vec<(usize, i64)> {
        let e = self.walks[self.query.record as usize];
        let (o, length) = (i64::from(self.query.offset), i64::from(e.length));
        let own = if o == length { self.ticks(e.wait.into()) } else { 0 };
        let mut seeds = vec![(e.from as usize, o + own)];
        if o == length {
            seeds.push((e.to as usize, 0));
        } else if e.twin != NONE {
            let lights = if o == 0 { self.ticks(self.walks[e.twin as usize].wait.into()) } else { 0 };
            seeds.push((e.to as usize, length - o + lights));
        }
        seeds
    }

    /// What rides that begin with a hop give, where the last of one ends in time; the boarding time is stood before the first.
    fn ride_offer(&self, first: usize, distance: &[Option<i64>]) -> Option<i64> {
        let in_time = |&last: &usize| {
            let hop = self.hops[last].hop;
            distance[hop.to as usize].is_some_and(|far| self.before(hop.arrival) >= far)
        };
        let start = i64::from(self.hops[first].hop.departure) - i64::from(self.boarding);
        self.ends[first].iter().any(in_time).then(|| self.ticks(i64::from(self.query.arrival) - start))
    }

    /// The least solution: seeds, then every walk and every ride again and again until none offers less.
    fn distances(&self) -> Vec<Option<i64>> {
        let mut distance = vec![None; self.vertices];
        self.seeds().into_iter().for_each(|(vertex, seed)| least_of(&mut distance[vertex], Some(seed)));
        loop {
            let before = distance.clone();
            for walk in &self.walks {
                let offer = distance[walk.to as usize].map(|far| far + self.walk_ticks(walk));
                least_of(&mut distance[walk.from as usize], offer);
            }
            for first in 0..self.hops.len() {
                let offer = self.ride_offer(first, &distance);
                least_of(&mut distance[self.hops[first].hop.from as usize], offer);
            }
            if distance == before {
                return distance;
            }
        }
    }

    /// Of the unsettled vertices within D whose own distance is offered by a seed, by a walk into S or by a ride whose first hop leads into S,
    /// the one at the smallest distance, then with the smallest number.
    fn next(&self) -> Option<usize> {
        let mut inside = vec![false; self.vertices];
        self.order.iter().for_each(|&v| inside[v] = true);
        let mut offers = self.seeds();
        for walk in self.walks.iter().filter(|walk| inside[walk.to as usize]) {
            offers.extend(self.distance[walk.to as usize].map(|far| (walk.from as usize, far + self.walk_ticks(walk))));
        }
        for first in (0..self.hops.len()).filter(|&first| inside[self.hops[first].hop.to as usize]) {
            offers.extend(self.ride_offer(first, &self.distance).map(|offer| (self.hops[first].hop.from as usize, offer)));
        }
        let own = |&&(v, offer): &&(usize, i64)| !inside[v] && offer <= self.window() && self.distance[v] == Some(offer);
        offers.iter().filter(own).map(|&(v, offer)| (offer, v)).min().map(|(_, v)| v)
    }
}

fn least_of(known: &mut Option<i64>, offer: Option<i64>) {
    *known = [*known, offer].into_iter().flatten().min();
}

/// 1 to 7 and 18.
fn refusal(tables: Tables, query: Query, boarding: u32, lent: &Lent) -> Option<Given> {
    lengths(tables, &[(4, lent.settled.len(), 8)])
        .or_else(|| records(tables))
        .or_else(|| asked(tables, query))
        .or_else(|| (boarding > 600).then_some((7, 5)))
        .or_else(|| (lent.scratch.len() < 4 * hops(tables).len()).then_some((18, 0)))
}

fn ran(tables: Tables, query: Query, boarding: u32, limit: u32, lent: Lent) -> Answer {
    let refused = |(number, place): Given| Answer { refusal: number as u32, place: place as u32, ..Answer::default() };
    if let Some(given) = refusal(tables, query, boarding, &lent) {
        return refused(given);
    }
    lent.scratch.fill(0);
    let model = Model::new(tables, query, boarding);
    let steps = model.order.len().min(limit as usize);
    let room = lent.settled.len() / 8;
    lent.settled.fill(0);
    if let Some(step) = (0..=steps).find(|&step| step > room) {
        return refused((9, step as u64));
    }
    for (slot, &v) in lent.settled.chunks_exact_mut(8).zip(&model.order[..steps]) {
        let distance = model.distance[v].expect("a settled vertex has a distance") as u32;
        slot.copy_from_slice(&Settled { vertex: v as u32, distance }.bytes());
    }
    Answer { settled: steps as u32, finished: (steps == model.order.len()).into(), ..Answer::default() }
}

impl Program for Plain {
    fn run(&self, tables: Tables, query: Query, boarding: u32, limit: u32, lent: Lent, answer: &mut [u8]) -> u32 {
        if answer.len() == 24 {
            answer.copy_from_slice(&ran(tables, query, boarding, limit, lent).bytes());
        }
        (answer.len() != 24).into()
    }
}
