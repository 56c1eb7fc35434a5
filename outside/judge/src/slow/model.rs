//! Distances, order, and the sets of a step, as the text defines them.
//! Ticks are 64-bit here, so that no sum can pass its type.

use std::collections::BTreeSet;

use super::check;
use crate::records::{Held, Hop, Part, Query, Tables, Walk, NONE};

pub struct Model {
    pub vertices: usize,
    pub walks: Vec<Walk>,
    pub hops: Vec<Hop>,
    pub query: Query,
    /// The distance of each vertex, the window left aside.
    pub distance: Vec<Option<i64>>,
    /// All vertices within D, in the order in which they are settled.
    pub order: Vec<usize>,
}

impl Model {
    pub fn new(tables: Tables, query: Query) -> Self {
        let mut model = Model::plain(tables, query);
        model.distance = model.distances();
        model.order = model.ordered();
        model
    }

    /// Tables and query alone, without distances and order.
    pub fn plain(tables: Tables, query: Query) -> Self {
        Model {
            vertices: check::vertices(tables).len(),
            walks: check::walks(tables),
            hops: check::hops(tables),
            query,
            distance: Vec::new(),
            order: Vec::new(),
        }
    }

    pub fn place(&self) -> Walk {
        self.walks[self.query.record as usize]
    }

    pub fn offset(&self) -> i64 {
        i64::from(self.query.offset)
    }

    /// From the place back to the far end, the way the twin counts.
    pub fn back(&self) -> i64 {
        i64::from(self.place().length) - self.offset()
    }

    pub fn ticks(&self, seconds: i64) -> i64 {
        seconds * i64::from(self.query.speed)
    }

    pub fn window(&self) -> i64 {
        self.ticks(i64::from(self.query.duration))
    }

    pub fn wait(&self, walk: &Walk) -> i64 {
        self.ticks(i64::from(walk.wait))
    }

    /// What a walk takes.
    fn cost(&self, walk: &Walk) -> i64 {
        i64::from(walk.length) + self.wait(walk)
    }

    /// The ways straight to the place: each record that leads there, the offset
    /// on it where the place lies, and what is waited for there. The lights at
    /// the far end are passed only where the place is that end itself.
    pub fn straight(&self) -> Vec<(usize, i64, i64)> {
        let place = self.place();
        let lights = |record: usize, end: i64| {
            let walk = &self.walks[record];
            match end == i64::from(walk.length) {
                true => self.wait(walk),
                false => 0,
            }
        };
        let own = [(self.query.record, self.offset())].into_iter();
        let twin = (place.twin != NONE).then(|| (place.twin, self.back()));
        let ways = own.chain(twin);
        let way = |(record, end): (u32, i64)| (record as usize, end, lights(record as usize, end));
        ways.map(way).collect()
    }

    /// The query ends: how far the place is from each end that may reach it.
    /// Where the place is the end of the road, that vertex is there already.
    pub fn seeds(&self) -> Vec<(usize, i64)> {
        let mut seeds = Vec::new();
        for (record, end, lights) in self.straight() {
            seeds.push((self.walks[record].from as usize, end + lights));
        }
        if self.back() == 0 {
            seeds.truncate(1);
            seeds.push((self.place().to as usize, 0));
        }
        seeds
    }

    pub fn walk_offer(&self, walk: &Walk, far: i64) -> i64 {
        far + self.cost(walk)
    }

    /// Board at the departure, if the arrival is not after T less `far`.
    pub fn hop_offer(&self, hop: &Hop, far: i64) -> Option<i64> {
        let end = self.ticks(i64::from(self.query.arrival));
        let arrival = self.ticks(i64::from(hop.arrival));
        let departure = self.ticks(i64::from(hop.departure));
        (arrival <= end - far).then_some(end - departure)
    }

    /// The least solution: seeds, then every record again and again until
    /// none offers less. A latest start is all a journey needs to know of the
    /// journeys behind it, since waiting is free.
    fn distances(&self) -> Vec<Option<i64>> {
        let mut distance = vec![None; self.vertices];
        for (vertex, seed) in self.seeds() {
            lower(&mut distance, vertex, Some(seed));
        }
        loop {
            let mut changed = false;
            for walk in &self.walks {
                let far = distance[walk.to as usize];
                let offer = far.map(|far| self.walk_offer(walk, far));
                changed |= lower(&mut distance, walk.from as usize, offer);
            }
            for hop in &self.hops {
                let far = distance[hop.to as usize];
                let offer = far.and_then(|far| self.hop_offer(hop, far));
                changed |= lower(&mut distance, hop.from as usize, offer);
            }
            if !changed {
                return distance;
            }
        }
    }

    /// Step by step: of the unsettled vertices within D whose own distance a
    /// seed or a record into S offers, the one at the smallest distance, then
    /// with the smallest number. What is offered once is offered for good, so
    /// that a step adds only what the records into the vertex just settled
    /// offer; `order.rs` judges each step from scratch.
    fn ordered(&self) -> Vec<usize> {
        let into = self.into();
        let mut eligible = BTreeSet::new();
        let mut inside = vec![false; self.vertices];
        let mut order = Vec::new();
        let own = |vertex: usize, offer: Option<i64>| {
            let d = self.distance[vertex].filter(|&d| offer == Some(d) && d <= self.window())?;
            Some((d, vertex))
        };
        let seeds = self.seeds().into_iter();
        eligible.extend(seeds.filter_map(|(v, seed)| own(v, Some(seed))));
        while let Some((far, vertex)) = eligible.pop_first() {
            order.push(vertex);
            inside[vertex] = true;
            let offers = into[vertex].iter().map(|&record| self.offered(record, far));
            let own = offers.filter_map(|(from, offer)| own(from, offer));
            eligible.extend(own.filter(|&(_, from)| !inside[from]));
        }
        order
    }

    /// The records into each vertex: walks by their number, hops behind them.
    fn into(&self) -> Vec<Vec<usize>> {
        let mut into = vec![Vec::new(); self.vertices];
        let walks = self.walks.iter().map(|w| w.to);
        let to = walks.chain(self.hops.iter().map(|h| h.to));
        to.enumerate()
            .for_each(|(record, to)| into[to as usize].push(record));
        into
    }

    /// The "from" of a record so numbered, and what it is offered.
    fn offered(&self, record: usize, far: i64) -> (usize, Option<i64>) {
        match self.walks.get(record) {
            Some(walk) => (walk.from as usize, Some(self.walk_offer(walk, far))),
            None => {
                let hop = &self.hops[record - self.walks.len()];
                (hop.from as usize, self.hop_offer(hop, far))
            }
        }
    }

    /// Whether each vertex is among the first k.
    fn first(&self, k: usize) -> Vec<bool> {
        let mut inside = vec![false; self.vertices];
        self.order[..k].iter().for_each(|&v| inside[v] = true);
        inside
    }

    /// The held records after k steps.
    pub fn held(&self, k: usize) -> Vec<Held> {
        let inside = self.first(k);
        let mut known = vec![None; self.vertices];
        let mut met = vec![false; self.vertices];
        let mut outside = vec![0; self.vertices];
        for (vertex, seed) in self.seeds() {
            met[vertex] = true;
            lower(&mut known, vertex, Some(seed));
        }
        for (from, to, offer) in self.offers(&inside) {
            if inside[to] {
                met[from] = true;
                lower(&mut known, from, offer);
            } else {
                outside[from] += 1;
            }
        }
        let dropped = |v: usize| inside[v] && outside[v] == 0;
        let late = |v: usize| known[v].is_none_or(|d: i64| d > self.window());
        let forgotten = |v: usize| !inside[v] && outside[v] == 0 && late(v);
        let held = |v: &usize| met[*v] && !dropped(*v) && !forgotten(*v);
        let record = |v: usize| Held {
            vertex: v as u32,
            distance: known[v].map_or(NONE, |d: i64| d as u32),
            state: u32::from(inside[v]),
            remaining: outside[v],
        };
        (0..self.vertices).filter(held).map(record).collect()
    }

    /// Every record with its ends and what it offers if it leads into S.
    pub fn offers<'a>(
        &'a self,
        inside: &'a [bool],
    ) -> impl Iterator<Item = (usize, usize, Option<i64>)> + 'a {
        let far = |to: u32| self.distance[to as usize].filter(|_| inside[to as usize]);
        let walks = self.walks.iter().map(move |w| {
            let offer = far(w.to).map(|far| self.walk_offer(w, far));
            (w.from as usize, w.to as usize, offer)
        });
        let hops = self.hops.iter().map(move |h| {
            let offer = far(h.to).and_then(|far| self.hop_offer(h, far));
            (h.from as usize, h.to as usize, offer)
        });
        walks.chain(hops)
    }

    /// The parts of step k of a run.
    pub fn parts(&self, k: usize) -> Vec<Part> {
        if k == 0 {
            return self.first_parts();
        }
        let vertex = self.order[k - 1];
        self.parts_at(vertex, self.distance[vertex].unwrap_or(0))
    }

    /// The parts of a vertex that is settled, or listed, at this distance.
    pub fn parts_at(&self, vertex: usize, distance: i64) -> Vec<Part> {
        let mut parts = Vec::new();
        let left = self.window() - distance;
        let first = self.walks.partition_point(|w| (w.to as usize) < vertex);
        let arriving = self.walks.iter().enumerate().skip(first);
        for (record, walk) in arriving.take_while(|(_, w)| w.to as usize == vertex) {
            let length = i64::from(walk.length);
            let rest = left - self.wait(walk);
            if rest >= 0 {
                let start = (length - rest).max(0).max(self.clip(record));
                put(&mut parts, record as u32, start, length);
            }
        }
        parts
    }

    /// The parts of step 0.
    pub fn first_parts(&self) -> Vec<Part> {
        let mut parts = Vec::new();
        for (record, end, lights) in self.straight() {
            let rest = self.window() - lights;
            if rest >= 0 {
                put(&mut parts, record as u32, (end - rest).max(0), end);
            }
        }
        parts
    }

    /// No part at a vertex begins before the place itself on the query's road.
    fn clip(&self, record: usize) -> i64 {
        if record == self.query.record as usize {
            self.offset()
        } else if record as u32 == self.place().twin {
            self.back()
        } else {
            0
        }
    }
}

/// A part with start equal to end is left out.
fn put(parts: &mut Vec<Part>, record: u32, start: i64, end: i64) {
    if start != end {
        parts.push(Part {
            record,
            start: start as u32,
            end: end as u32,
        });
    }
}

/// Takes an offer that is less than what is there; tells whether it was.
fn lower(values: &mut [Option<i64>], at: usize, offer: Option<i64>) -> bool {
    let less = match (offer, values[at]) {
        (Some(new), Some(old)) => new < old,
        (Some(_), None) => true,
        (None, _) => false,
    };
    if less {
        values[at] = offer;
    }
    less
}
