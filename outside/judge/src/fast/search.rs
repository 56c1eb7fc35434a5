//! The search itself: seeds, the order of steps, offers, held entries.

use std::cmp::Reverse;
use std::collections::BinaryHeap;
use std::ops::Range;

use super::hops;
use super::newcomers::Newcomers;
use super::order;
use super::parts::Parts;
use super::waits;
use crate::mutant::{Fault, Mutant};
use crate::records::{
    Hop, Lent, Query, Settled, Tables, Vertex, Walk, NONE, SETTLED, VERTEX, WALK,
};

/// Only for a mutant: behind all others of its distance.
const LATER: u32 = 1 << 31;

/// What is known of a vertex; `is_held` tells whether it is held.
#[derive(Clone, Copy)]
pub struct Entry {
    pub known: u32,
    pub remaining: u32,
    pub met: bool,
    pub settled: bool,
}

/// The run of the walk table that arrives at a vertex.
pub fn walks_into(tables: Tables, vertex: u32) -> Range<usize> {
    let vertices = tables.vertices.len() / VERTEX;
    let first = |v: usize| match v < vertices {
        true => Vertex::read(tables.vertices, v).first_walk as usize,
        false => tables.walks.len() / WALK,
    };
    first(vertex as usize)..first(vertex as usize + 1)
}

pub struct Search<'a, 'b, F> {
    pub tables: Tables<'a>,
    pub query: Query,
    pub road: Walk,
    /// The duration in ticks.
    pub window: u32,
    pub fault: F,
    pub entries: Vec<Entry>,
    /// Distance in the upper half, number in the lower: the least comes first.
    heap: BinaryHeap<Reverse<u64>>,
    pub lent: &'a mut Lent<'b>,
    /// Only the one run of RULES 11.7 writes parts as it goes.
    pub parts: Option<Parts<'a, F>>,
    pub settled: usize,
    pub held: usize,
    /// Entries that the step under way lets go; only a mutant looks at it.
    pub dropped: usize,
    /// The vertex settled last; only a mutant looks at it.
    last: Option<Settled>,
    /// What the right version settles; only mutants with another order have it.
    pub own: Vec<Settled>,
    /// Only wrong versions look at it.
    pub newcomers: Newcomers,
}

impl<'a, 'b, F: Fault> Search<'a, 'b, F> {
    pub fn new(
        tables: Tables<'a>,
        query: Query,
        lent: &'a mut Lent<'b>,
        parts: Option<Parts<'a, F>>,
        fault: F,
    ) -> Self {
        let less = u32::from(fault.is(Mutant::RemainingStart));
        let entry = |v| Entry {
            known: NONE,
            remaining: u32::from(Vertex::read(tables.vertices, v).departing).saturating_sub(less),
            met: false,
            settled: false,
        };
        Search {
            tables,
            query,
            road: Walk::read(tables.walks, query.record as usize),
            window: query.duration * query.speed,
            fault,
            entries: (0..tables.vertices.len() / VERTEX).map(entry).collect(),
            heap: BinaryHeap::new(),
            lent,
            parts,
            settled: 0,
            held: 0,
            dropped: 0,
            last: None,
            own: order::own(tables, query, fault),
            newcomers: Newcomers::default(),
        }
    }

    /// Step 0: the query's ends.
    pub fn start(&mut self) {
        let (road, o) = (self.road, self.query.offset);
        let back = road.length - o;
        let lights = waits::seeds(self.tables, road, self.query, self.fault);
        let mut seeds = [Some((road.from, o + lights.own)), None];
        let one_way = back == 0 && !self.fault.is(Mutant::SeedOneWay);
        if road.twin != NONE || one_way {
            seeds[1] = Some((road.to, back + lights.twin));
        }
        if self.fault.is(Mutant::SeedOnVertex) && o == 0 {
            seeds[1] = None;
        }
        for (vertex, distance) in seeds.into_iter().flatten() {
            let swapped = self.fault.is(Mutant::SeedSwapped);
            let distance = if swapped {
                road.length.saturating_sub(distance)
            } else {
                distance
            };
            if distance <= self.window || !self.fault.is(Mutant::SeedBeyond) {
                self.meet(vertex, Some(distance), false);
            }
        }
        if self.fault.is(Mutant::CircleStarts) {
            for (vertex, distance) in self.circles() {
                self.meet(vertex, Some(distance), false);
            }
        }
        if let Some(parts) = &mut self.parts {
            parts.start();
        }
    }

    /// The nearest unsettled vertex within the window, and of those at one
    /// distance the smallest number that is known by now: a ride of no minutes
    /// may bring a smaller one when its "to" is settled. Old heap entries of a
    /// vertex lie behind its best one, so a settled vertex is simply passed.
    pub fn nearest(&mut self) -> Option<u32> {
        if let Some(next) = self.otherwise() {
            return next;
        }
        while let Some(&Reverse(key)) = self.heap.peek() {
            let mut vertex = key as u32;
            if self.fault.is(Mutant::TiesReversed) {
                vertex = !vertex;
            }
            if self.fault.is(Mutant::TieByRounds) {
                vertex &= !LATER;
            }
            if !self.entries[vertex as usize].settled {
                return Some(vertex);
            }
            self.heap.pop();
        }
        None
    }

    /// One step: the vertex joins S, and every record into it is passed on.
    pub fn settle(&mut self, vertex: u32) {
        self.dropped = 0;
        self.newcomers.next_step();
        self.bring(vertex);
        let distance = self.entries[vertex as usize].known;
        let held = self.is_held(vertex);
        self.entries[vertex as usize].settled = true;
        self.count(vertex, held);
        let record = Settled { vertex, distance };
        self.last = Some(record);
        let mut slots = self.lent.settled.chunks_exact_mut(SETTLED);
        if let Some(slot) = slots.nth(self.settled) {
            slot.copy_from_slice(&record.bytes());
        }
        self.settled += 1;
        self.arriving_walks(vertex, distance);
        self.arriving_hops(vertex, distance);
    }

    fn arriving_walks(&mut self, vertex: u32, distance: u32) {
        let mut before = NONE;
        for record in walks_into(self.tables, vertex) {
            let walk = Walk::read(self.tables.walks, record);
            if let Some(parts) = &mut self.parts {
                parts.arriving(record as u32, walk, distance);
            }
            let twice = self.fault.is(Mutant::ParallelOnce) && before == walk.from;
            let cost = waits::cost(walk, self.query, self.fault);
            self.meet(walk.from, Some(distance + cost), !twice);
            before = walk.from;
        }
    }

    fn arriving_hops(&mut self, vertex: u32, distance: u32) {
        let first = |v| Vertex::read(self.tables.vertices, v).first_hop as usize;
        let next = vertex as usize + 1;
        let end = if next < self.entries.len() {
            first(next)
        } else {
            hops::count(self.tables, self.fault)
        };
        for record in first(vertex as usize)..end {
            let hop = hops::read(self.tables, record, self.fault);
            let offer = self.ride(hop, distance);
            if offer.is_some() || !self.fault.is(Mutant::MetByOffer) {
                let counted = offer.is_some() || !self.fault.is(Mutant::LateRemains);
                self.meet(hop.from, offer, counted);
            }
        }
    }

    /// Seconds are compared in ticks: no distance is rounded.
    fn ride(&self, hop: Hop, distance: u32) -> Option<u32> {
        if self.fault.is(Mutant::StillRide) && hop.departure == hop.arrival {
            return None;
        }
        let speed = i64::from(self.query.speed);
        let arrival = i64::from(self.query.arrival);
        let mut far = i64::from(distance);
        if self.fault.is(Mutant::HopFloor) {
            far = far / speed * speed;
        }
        if self.fault.is(Mutant::HopPlace) {
            far = 0;
        }
        let left = arrival * speed - far - i64::from(hop.arrival) * speed;
        if left < 0 || (left == 0 && self.fault.is(Mutant::StrictArrival)) {
            return None;
        }
        if self.fault.is(Mutant::HopRide) {
            return Some(distance + ((hop.arrival - hop.departure) as u32) * self.query.speed);
        }
        let offer = ((arrival - i64::from(hop.departure)) * speed) as u32;
        let beyond = self.fault.is(Mutant::OfferBeyond) && offer > self.window;
        (!beyond).then_some(offer)
    }

    /// A seed, or a record into S (`record`), reaches a vertex with an offer.
    pub fn meet(&mut self, vertex: u32, offer: Option<u32>, record: bool) {
        let within = offer.is_some_and(|d| d <= self.window);
        if self.fault.is(Mutant::MetWithin) && record && !within {
            return;
        }
        let held = self.is_held(vertex);
        let offer = offer.unwrap_or(NONE);
        if Newcomers::matter(self.fault) {
            self.newcomers.meet(vertex, offer, record);
        }
        let (window, fault) = (self.window, self.fault);
        let entry = &mut self.entries[vertex as usize];
        entry.met = true;
        let late = fault.is(Mutant::FirstOffer) && entry.known != NONE;
        let better = offer < entry.known && !late;
        if better {
            entry.known = offer;
        }
        let passed = fault.is(Mutant::RemainingWithin) && entry.known > window;
        if record && !passed {
            entry.remaining = entry.remaining.saturating_sub(1);
        }
        if better && self.within(offer) {
            self.push(vertex, offer);
        }
        self.count(vertex, held);
    }

    fn within(&self, distance: u32) -> bool {
        if self.fault.is(Mutant::WindowFloor) {
            return distance / self.query.speed <= self.query.duration;
        }
        distance < self.window || (distance == self.window && !self.fault.is(Mutant::StrictWindow))
    }

    fn push(&mut self, vertex: u32, distance: u32) {
        let reversed = self.fault.is(Mutant::TiesReversed);
        let mut low = if reversed { !vertex } else { vertex };
        if let Some(last) = self.last.filter(|last| last.distance == distance) {
            if self.fault.is(Mutant::TiePassed) && vertex < last.vertex {
                return;
            }
            if self.fault.is(Mutant::TieByRounds) {
                low |= LATER;
            }
        }
        let key = u64::from(distance) << 32 | u64::from(low);
        self.heap.push(Reverse(key));
    }
}
